//! `ncl make`: a stage from a reference.

use super::{answered, explain_flag, file, force, json_flag, path, quiet, reference_arg};
use crate::explain::{Order, Question};
use crate::failure::Outcome;
use crate::input::read;
use crate::output::write_files;
use crate::Found;
use clap::{ArgMatches, Command};
use fovaheju::MADE_STAGE;

pub fn command() -> Command {
    Command::new("make")
        .about("A stage from a reference: NOT swaps rails, every other operation becomes two gates")
        .arg(reference_arg())
        .arg(file("stage", "NEW-STAGE", "Where the stage is written"))
        .args([json_flag(), explain_flag(), force(), quiet()])
        .after_help(
            "\
Prints the verdict. The stage is written whole or not at all; a refusal writes nothing. The check accepts it, unless a gate never
rises in it (32), by theorem.

Example:
  ncl make reference.ncl stage.ncl",
        )
}

pub fn run(matches: &ArgMatches) -> Outcome<Found> {
    let reference = read(path(matches, "reference"))?;
    let mut stage = vec![0; MADE_STAGE];
    let made = fovaheju::make_stage(&reference.bytes, &mut stage);
    stage.truncate(made.count as usize);
    if made.verdict.accepts() {
        let read: Vec<_> = reference.identity.into_iter().collect();
        write_files(&[(path(matches, "stage"), &stage)], &read, matches.get_flag("force"))?;
    }
    answered(matches, Question::Make { reference: &reference }, made.verdict, Order::default())
}
