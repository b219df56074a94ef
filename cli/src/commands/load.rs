//! `ncl load`: references drawn from seeds, one to a file, or many through all calls.

use super::{answered, explain_flag, force, json_flag, put_json, quiet};
use crate::explain::{Load, Order, Question};
use crate::failure::{Failure, Outcome};
use crate::output::{put, write_files};
use crate::Found;
use clap::{value_parser, Arg, ArgMatches, Command};
use fovaheju::{Verdict, DRAWN_REFERENCE, MADE_STAGE};
use rayon::prelude::*;
use serde_json::json;
use std::path::PathBuf;

/// The drawn reference has more than 16 outputs.
const TOO_MANY_OUTPUTS: u64 = 40;
/// A gate of the stage that was made never rises.
const NEVER_RISES: u64 = 32;
/// The counts of inputs and of gates that seeds in a row take in turn.
const INPUTS: usize = 10;
const GATES: usize = 41;

pub fn command() -> Command {
    let number = |name: &'static str, value: &'static str| Arg::new(name).value_name(value).required_unless_present("seeds");
    let new = Arg::new("new").value_name("NEW-REFERENCE").required_unless_present("seeds").value_parser(value_parser!(PathBuf));
    let seeds = Arg::new("seeds").long("seeds").value_name("N").value_parser(value_parser!(u32));
    Command::new("load")
        .about("A reference drawn from a seed: the same numbers give the same file everywhere")
        .override_usage("ncl load [OPTIONS] <SEED> <INPUTS> <GATES> <NEW-REFERENCE>\n       ncl load [OPTIONS] --seeds <N> [SEED]")
        .arg(
            number("seed", "SEED")
                .value_parser(value_parser!(u32))
                .help("The seed, up to 4294967295; with --seeds the first one [there: 0]"),
        )
        .arg(number("inputs", "INPUTS").value_parser(value_parser!(u64)).conflicts_with("seeds").help("How many inputs, 1 to 10"))
        .arg(number("gates", "GATES").value_parser(value_parser!(u64)).conflicts_with("seeds").help("How many gates, 0 to 40"))
        .arg(new.conflicts_with("seeds").help("Where the reference is written"))
        .arg(seeds.help("Draw, make and check so many seeds in a row, with all counts in turn, and print how many were accepted"))
        .args([json_flag(), explain_flag(), force(), quiet()])
        .after_help(
            "\
Prints the verdict. The reference is written whole or not at all; a refusal writes nothing. It reads, and 'ncl make' makes a stage
of it, by theorem. With --seeds nothing is written; of each seed a reference is drawn, a stage made, and the two checked, and
the exit status is 0 where all are accepted but those with 32, a gate that never rises, and with 40, more than 16 outputs.

Examples:
  ncl load 1 4 12 reference.ncl
  ncl load --seeds 100000",
        )
}

/// The reference that is drawn for a load.
fn drawn(load: Load) -> (Verdict, Vec<u8>) {
    let mut file = vec![0; DRAWN_REFERENCE];
    let written = fovaheju::draw_reference(load.seed, load.inputs, load.gates, &mut file);
    file.truncate(written.count as usize);
    (written.verdict, file)
}

pub fn run(matches: &ArgMatches) -> Outcome<Found> {
    let seed = matches.get_one::<u32>("seed").copied().unwrap_or(0);
    if let Some(&count) = matches.get_one::<u32>("seeds") {
        return many_seeds(matches, seed, count);
    }
    let number = |name: &str| matches.get_one::<u64>(name).map_or(usize::MAX, |&number| number as usize);
    let load = Load { seed, inputs: number("inputs"), gates: number("gates") };
    let (verdict, file) = drawn(load);
    if verdict.accepts() {
        let new = matches.get_one::<PathBuf>("new").expect("clap asks for it");
        write_files(&[(new, &file)], &[], matches.get_flag("force"))?;
    }
    answered(matches, Question::Draw(load), verdict, Order::default())
}

/// The first verdict of drawing, making and checking that does not accept; else one that does.
fn taken(load: Load) -> Verdict {
    let (verdict, reference) = drawn(load);
    if !verdict.accepts() {
        return verdict;
    }
    let mut stage = vec![0; MADE_STAGE];
    let made = fovaheju::make_stage(&reference, &mut stage);
    if !made.verdict.accepts() {
        return made.verdict;
    }
    fovaheju::check(0, &stage[..made.count as usize], &reference)
}

/// Seeds in a row, with all counts of inputs and gates in turn.
fn many_seeds(matches: &ArgMatches, first: u32, count: u32) -> Outcome<Found> {
    let left = (1_u64 << 32) - u64::from(first);
    if u64::from(count) > left {
        return Err(Failure::says(format!("--seeds {count}: from seed {first} on there are {left}; the last is {}", u32::MAX)));
    }
    let load = |k: u32| {
        let seed = first + k;
        Load { seed, inputs: 1 + seed as usize % INPUTS, gates: seed as usize / INPUTS % GATES }
    };
    let verdicts: Vec<Verdict> = (0..count).into_par_iter().map(|k| taken(load(k))).collect();
    let accepted = verdicts.iter().filter(|verdict| verdict.accepts()).count();
    let with = |number: u64| verdicts.iter().filter(|verdict| verdict.number == number).count();
    let (idle, outputs) = (with(NEVER_RISES), with(TOO_MANY_OUTPUTS));
    let odd = verdicts.iter().zip(0..).find(|(verdict, _)| !matches!(verdict.number, 0 | NEVER_RISES | TOO_MANY_OUTPUTS));
    if matches.get_flag("json") {
        put_json(&json!({ "seeds": count, "accepted": accepted, "a_gate_never_rises": idle, "more_than_16_outputs": outputs }))?;
    } else if !matches.get_flag("quiet") {
        let mut text = format!("{count} seeds: {accepted} accepted, {idle} with {NEVER_RISES}, {outputs} with {TOO_MANY_OUTPUTS}\n");
        if let Some((verdict, k)) = odd {
            let Load { seed, inputs, gates } = load(k);
            text += &format!("{verdict} from seed {seed}, {inputs} inputs, {gates} gates\n");
        }
        put(text.as_bytes())?;
    }
    Ok(if odd.is_none() { Found::Accepted } else { Found::Refused })
}
