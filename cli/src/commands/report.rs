//! `ncl report`: how many gates are high at the rest of each word.

use super::{answer, found, given_pair, json_flag, lowest, order, put_json, quiet, reference_arg, stage_arg, text_flag, verdict_json};
use crate::explain::{Pair, Question};
use crate::failure::Outcome;
use crate::output::put;
use crate::Found;
use clap::{ArgMatches, Command};
use serde_json::json;
use std::fmt::Write;

pub fn command() -> Command {
    Command::new("report")
        .about("How many gates are high at the rest of each word, and their total; of a refused pair the verdict")
        .args([stage_arg(), reference_arg(), text_flag(), lowest(), json_flag(), quiet()])
        .after_help(
            "\
A line for each word in rising order, the word and its number of high gates, then 'total' and a number.

Example:
  ncl report stage.ncl reference.ncl",
        )
}

pub fn run(matches: &ArgMatches) -> Outcome<Found> {
    let order = order(matches);
    let (stage, reference) = given_pair(matches)?;
    let mut report = fovaheju::report(order.mark(), stage.bytes(), &reference.bytes);
    // Of a text that is refused there is no stage file, and the verdict is that of the text.
    report.verdict = stage.refused().unwrap_or(report.verdict);
    let question = Question::Check(Pair::whole(&stage, &reference));
    let words = || (0..(report.words as usize).min(report.names.len())).map(|k| (report.names[k], report.lines[k]));
    if matches.get_flag("json") {
        let mut value = verdict_json(question, report.verdict);
        if report.verdict.accepts() {
            value["words"] = words().map(|(word, high)| json!({ "word": word, "high": high })).collect::<Vec<_>>().into();
            value["total"] = report.total.into();
        }
        put_json(&value)?;
    } else if !matches.get_flag("quiet") {
        let mut text = String::new();
        if report.verdict.accepts() {
            words().for_each(|(word, high)| writeln!(text, "{word} {high}").expect("a string takes all"));
            writeln!(text, "total {}", report.total).expect("a string takes all");
        } else {
            text = answer(question, report.verdict, order, false);
        }
        put(text.as_bytes())?;
    }
    Ok(found(report.verdict))
}
