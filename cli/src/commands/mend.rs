//! `ncl mend`: the changes that make a refused stage accepted.

use super::{
    called_pair, force, found, json_flag, lowest, names_arg, order, put_json, quiet, reference_arg, stage_arg, text_flag, verdict_json,
};
use crate::changes::{Change, Mending};
use crate::explain::{mended, Pair, Question};
use crate::failure::{Failure, Outcome};
use crate::given::Given;
use crate::mend::{mend, Mended};
use crate::netlist::many;
use crate::output::{put, write_files, Paint};
use crate::Found;
use clap::{value_parser, Arg, ArgMatches, Command};
use std::path::PathBuf;
use std::time::Duration;

/// How long changes of more than one part are tried, in seconds.
const SECONDS: &str = "10";

pub fn command() -> Command {
    let output = Arg::new("output").long("output").short('o').value_name("NEW-STAGE").value_parser(value_parser!(PathBuf));
    let take = Arg::new("take").long("take").value_name("N").value_parser(value_parser!(u32).range(1..)).requires("output");
    let seconds = Arg::new("seconds").long("seconds").value_name("S").value_parser(value_parser!(u32)).default_value(SECONDS);
    Command::new("mend")
        .about("Every single change of a gate or an output that makes a refused stage accepted")
        .args([stage_arg(), reference_arg()])
        .arg(seconds.help("How long other changes are tried where no single one is accepted"))
        .arg(output.help("Write the stage with a change to a file"))
        .arg(take.help("Which of the changes is written, by its number [default: 1]"))
        .args([names_arg(), text_flag(), lowest(), json_flag(), force(), quiet()])
        .after_help(
            "\
A single change is another kind of gate, its hold given or taken, or a pin or a rail of an output on another net. All of them are
tried, and the library judges each. Where none is accepted, others are tried: a gate with another kind and other pins, one built
into another, outputs that wait for an input, and under 14 and 15 two pins at once of the gates on the way; these within a
time. What is found is a hint: which function was meant only the designer knows.

Exit status: 0 the stage is accepted, or is with one of the changes; 1 it is refused, and no change was found.

Examples:
  ncl mend stage.ncl reference.ncl
  ncl mend stage.ncl reference.ncl -o mended.ncl --take 2",
        )
}

pub fn run(matches: &ArgMatches) -> Outcome<Found> {
    let order = order(matches);
    let (given, reference) = called_pair(matches)?;
    let verdict = given.check(order, &reference.bytes);
    let pair = Pair::whole(&given, &reference);
    let stage = given.stage();
    let mending = if given.refused().is_none() { Mending::of(verdict, given.bytes(), &reference.bytes, &stage, order) } else { None };
    let time = Duration::from_secs(matches.get_one::<u32>("seconds").copied().unwrap_or_default().into());
    let quiet = matches.get_flag("quiet");
    let tried = mending.map(|mending| mend(&mending, time, quiet));
    let changes: Vec<&Change> = tried.iter().flat_map(Mended::found).collect();
    write(matches, &given, &changes, reference.identity)?;
    if matches.get_flag("json") {
        let mut value = verdict_json(Question::Check(pair), verdict);
        value["changes"] = changes.iter().map(|change| change.says.clone()).collect();
        if let Some(mended) = &tried {
            value["tried"] = mended.sorts().map(|sort| sort.tried).sum::<usize>().into();
            value["cut"] = mended.sorts().any(|sort| sort.cut.is_some()).into();
        }
        put_json(&value)?;
    } else if !quiet {
        put(mended(pair, verdict, order, tried.as_ref(), Paint::of_output()).as_bytes())?;
    }
    Ok(if changes.is_empty() { found(verdict) } else { Found::Accepted })
}

/// Writes the stage with the change that is asked for.
fn write(matches: &ArgMatches, given: &Given, changes: &[&Change], reference: Option<crate::input::Identity>) -> Outcome<()> {
    let Some(path) = matches.get_one::<PathBuf>("output") else { return Ok(()) };
    let number = matches.get_one::<u32>("take").copied().unwrap_or(1);
    match changes.get(number as usize - 1) {
        Some(change) => {
            let read: Vec<_> = [given.input.identity, reference].into_iter().flatten().collect();
            write_files(&[(path, &change.file)], &read, matches.get_flag("force"))
        }
        // Where nothing was found nothing is written, and the answer says so.
        None if changes.is_empty() => Ok(()),
        None => Err(Failure::says(format!("--take {number}: {} found", many(changes.len(), "change")))),
    }
}
