//! `ncl explain`: the verdict in sentences.

use super::{called_pair, found, lowest, names_arg, order, reference_arg, stage_arg, text_flag};
use crate::explain::{explain, Pair, Question, TRIES};
use crate::failure::Outcome;
use crate::output::{put, Paint};
use crate::Found;
use clap::{ArgMatches, Command};

pub fn command() -> Command {
    Command::new("explain")
        .about("Why a stage is refused: what was found, where to look, and what to do")
        .args([stage_arg(), reference_arg(), names_arg(), text_flag(), lowest()])
        .after_help(
            "\
Input i is called xi, its rails xi_0 and xi_1, gate k gk, output j yj; of a text they have the text's names. A kind with a
leading r has no hold. Changes that are called accepted were judged by the library.

Examples:
  ncl explain stage.ncl reference.ncl
  ncl explain stage.ncl reference.ncl --names adder.names",
        )
}

pub fn run(matches: &ArgMatches) -> Outcome<Found> {
    let order = order(matches);
    let (stage, reference) = called_pair(matches)?;
    let verdict = stage.check(order, &reference.bytes);
    let question = Question::Check(Pair::whole(&stage, &reference));
    put(explain(question, verdict, order, TRIES, Paint::of_output()).as_bytes())?;
    Ok(found(verdict))
}
