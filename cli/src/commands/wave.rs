//! `ncl wave`: a run of a stage as a waveform.

use super::{
    called_pair, file, flag, force, found, json_flag, lowest, names_arg, order, path, put_json, quiet, reference_arg, stage_arg, text_flag,
    verdict_json,
};
use crate::explain::{word_text, Order, Pair, Question};
use crate::failure::{Failure, Outcome};
use crate::netlist::Stage;
use crate::output::{put, tell, write_files};
use crate::runs::{shortened, shows, Files, Run};
use crate::wave::Wave;
use crate::Found;
use clap::{value_parser, Arg, ArgMatches, Command};
use fovaheju::Verdict;
use std::path::{Path, PathBuf};

pub fn command() -> Command {
    let word = Arg::new("word").long("word").value_name("WORD").value_parser(value_parser!(u64));
    let seed = Arg::new("seed").long("seed").value_name("N").value_parser(value_parser!(u32));
    let save = Arg::new("save").long("save").value_name("NEW-SAVE").value_parser(value_parser!(PathBuf));
    Command::new("wave")
        .about("A run of a stage as a waveform: the one that shows the fault, or a rise and fall of a word")
        .args([stage_arg(), reference_arg(), file("new", "NEW-VCD", "Where the waveform is written, as VCD")])
        .arg(save.help("Write what GTKWave has to know to show it: gtkwave NEW-VCD NEW-SAVE"))
        .arg(word.help("The word whose rise and fall is shown, by its name [default: the verdict's, or the least with care]"))
        .arg(seed.help("The gates switch in an order drawn from this seed: a full rise and fall"))
        .arg(flag("short", "Of a run that shows a fault what is needed for it, and no more").conflicts_with_all(["word", "seed"]))
        .args([names_arg(), text_flag(), lowest(), json_flag(), force(), quiet()])
        .after_help(
            "\
One net switches each nanosecond. Inputs and outputs are shown as NULL, DATA0 and DATA1, and then each rail and gate as a wire. Of a refused
stage the run ends where the promise breaks, and promise_broken rises. Under 32 nothing breaks: a full rise and fall is shown. Prints the
verdict; where it speaks of no run, as of bytes, a loop, registers or a kind, nothing is written, and it is said so. A register is two
wires here.

Examples:
  ncl wave stage.ncl reference.ncl fault.vcd --save fault.gtkw
  ncl wave stage.ncl reference.ncl word.vcd --word 5 --seed 7",
        )
}

/// A generator of keys: the same for the same seed.
fn keys(seed: u32, count: usize) -> Vec<u32> {
    let mut state = seed;
    let mut next = || {
        state = state.wrapping_mul(1_664_525).wrapping_add(1_013_904_223);
        state ^ state >> 15
    };
    (0..count).map(|_| next()).collect()
}

/// Whether a stage cares for a word, by its name. In files bit i of a word is input i.
fn cares(stage: &Stage, order: Order, word: u64) -> bool {
    let bits = order.values(word, stage.inputs).iter().enumerate().map(|(input, &value)| usize::from(value) << input).sum();
    stage.care.is_empty() || stage.care.contains(&bits)
}

/// The run that is asked for, with the word that it is of, and whether it was seen to end in the fault.
fn asked(matches: &ArgMatches, verdict: Verdict, files: Files<'_>) -> Outcome<Option<(Run, u64, bool)>> {
    let stage = files.stage;
    let word = matches.get_one::<u64>("word").copied();
    if let Some(word) = word.filter(|&word| word >> stage.inputs.min(63) != 0) {
        return Err(Failure::says(format!("--word {word}: words of {} inputs are 0 to {}", stage.inputs, (1u64 << stage.inputs) - 1)));
    }
    let named = word.unwrap_or_else(|| match verdict.number {
        13 | 14 | 15 | 20 | 21 => verdict.word,
        _ => (0..1 << stage.inputs).find(|&word| cares(stage, files.order, word)).unwrap_or(0),
    });
    // A word that is asked for without an order has the least net first, as the run of a verdict has.
    let least = || (0..2).flat_map(|_| 0..stage.nets() as u32).collect();
    let seed = matches.get_one::<u32>("seed").map(|&seed| keys(seed, 2 * stage.nets()));
    let run = match seed.or(word.map(|_| least())) {
        Some(keys) => files.by_keys(named, &keys).map(|run| (run, named, false)),
        None => files.witness(verdict, named).map(|run| {
            let run = if matches.get_flag("short") { shortened(files, verdict, &run) } else { run };
            let broken = shows(files, verdict, &run);
            (run, named, broken)
        }),
    };
    Ok(run)
}

pub fn run(matches: &ArgMatches) -> Outcome<Found> {
    let order = order(matches);
    let (given, reference) = called_pair(matches)?;
    let verdict = given.check(order, &reference.bytes);
    let question = Question::Check(Pair::whole(&given, &reference));
    // In a run a register is two wires.
    let wired = given.wired();
    let played = wired.as_ref().unwrap_or(&given);
    let stage = played.stage();
    // A stage that reads and has no loop, its registers well wired, has runs, whatever else is said of it.
    let files = Files { stage_file: played.bytes(), stage: &stage, reference_file: &reference.bytes, order };
    let shown = if played.read_verdict().accepts() { asked(matches, verdict, files)? } else { None };
    if let Some((run, word, broken)) = &shown {
        let values = order.values(*word, stage.inputs);
        let cared = if cares(&stage, order, *word) { "" } else { ", for which the stage does not care" };
        let title = format!("{verdict}, {}: word {}{cared}", question.title(verdict.number), word_text(*word, &values, order, &stage));
        if !cared.is_empty() && !matches.get_flag("quiet") {
            tell(&format!("{}: word {word}{cared}: nothing is promised of it", given.name()));
        }
        let gate = matches!(verdict.number, 15 | 21).then_some(verdict.at as usize);
        let wave = Wave { stage: &stage, run, title, broken: *broken, gate };
        let new = path(matches, "new");
        let (vcd, save) = (wave.vcd(), wave.save(&new.to_string_lossy()));
        let mut files: Vec<(&Path, &[u8])> = vec![(new, vcd.as_bytes())];
        if let Some(path) = matches.get_one::<PathBuf>("save") {
            files.push((path, save.as_bytes()));
        }
        let read = [given.input.identity, reference.identity];
        write_files(&files, &read.into_iter().flatten().collect::<Vec<_>>(), matches.get_flag("force"))?;
    }
    if shown.is_none() && !matches.get_flag("quiet") {
        let title = question.title(verdict.number);
        tell(&format!("{}: nothing is written, since the verdict speaks of no run: {title}", crate::failure::shown(path(matches, "new"))));
    }
    if matches.get_flag("json") {
        let mut value = verdict_json(question, verdict);
        if let Some((run, word, broken)) = &shown {
            value["run"] = serde_json::json!({ "word": word, "nets": run.nets, "fall": run.fall, "broken": broken });
        }
        put_json(&value)?;
    } else if !matches.get_flag("quiet") {
        put(super::answer(question, verdict, order, false).as_bytes())?;
    }
    Ok(found(verdict))
}
