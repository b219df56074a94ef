//! `ncl check`: the verdict on a stage and its reference.

use super::{answer, found, given_pair, json_flag, lowest, order, put_json, quiet, reference_arg, stage_arg, text_flag, verdict_json};
use crate::explain::{sentence, Pair, Question};
use crate::failure::Outcome;
use crate::output::put;
use crate::Found;
use clap::{ArgMatches, Command};

pub fn command() -> Command {
    Command::new("check")
        .about("The verdict on a stage and its reference: number, file, at, word; 0 0 0 0 accepts")
        .args([stage_arg(), reference_arg(), text_flag(), lowest(), json_flag(), quiet()])
        .after_help(
            "\
The first line is the verdict alone; on a terminal a sentence follows it.

Examples:
  ncl check stage.ncl reference.ncl
  ncl check -q stage.ncl reference.ncl && echo accepted
  ncl check stage.txt reference.ncl
  synthesis | ncl check - reference.ncl",
        )
}

pub fn run(matches: &ArgMatches) -> Outcome<Found> {
    let order = order(matches);
    let (stage, reference) = given_pair(matches)?;
    let verdict = stage.check(order, &reference.bytes);
    let question = Question::Check(Pair::whole(&stage, &reference));
    if matches.get_flag("json") {
        let mut value = verdict_json(question, verdict);
        value["stage"] = stage.name().into();
        value["reference"] = reference.name.clone().into();
        value["found"] = sentence(question, verdict, order).into();
        put_json(&value)?;
    } else if !matches.get_flag("quiet") {
        put(answer(question, verdict, order, false).as_bytes())?;
    }
    Ok(found(verdict))
}
