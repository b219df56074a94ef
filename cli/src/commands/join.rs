//! `ncl join`: two stages in a row as one.

use super::{answered, explain_flag, file, force, json_flag, lowest, order, path, quiet};
use crate::explain::{Pair, Question};
use crate::failure::Outcome;
use crate::given::Given;
use crate::input::{read_all, Identity};
use crate::output::write_files;
use crate::Found;
use clap::{ArgMatches, Command};
use fovaheju::{JOINED_REFERENCE, JOINED_STAGE};

const PARTS: [&str; 4] = ["stage1", "reference1", "stage2", "reference2"];

pub fn command() -> Command {
    Command::new("join")
        .about("Two stages in a row as one: output j of the first is tied to input j of the second")
        .arg(file(PARTS[0], "STAGE1", "The first stage"))
        .arg(file(PARTS[1], "REFERENCE1", "Its reference"))
        .arg(file(PARTS[2], "STAGE2", "The second stage"))
        .arg(file(PARTS[3], "REFERENCE2", "Its reference"))
        .arg(file("stage", "NEW-STAGE", "Where the whole is written, if both parts are accepted and fit"))
        .arg(file("reference", "NEW-REFERENCE", "Where its reference is written"))
        .args([lowest(), json_flag(), explain_flag(), force(), quiet()])
        .after_help(
            "\
Prints the verdict. Both files are written whole or neither is; a refusal writes nothing. A part has at most 128 gates, its
reference at most 256. The check accepts the whole, unless a gate never rises in it (32), by theorem.

Example:
  ncl join product.ncl product-ref.ncl sum.ncl sum-ref.ncl mac.ncl mac-ref.ncl",
        )
}

pub fn run(matches: &ArgMatches) -> Outcome<Found> {
    let order = order(matches);
    let files = read_all(&PARTS.map(|part| path(matches, part)))?;
    let bytes = |k: usize| [&files[k].bytes[..], &files[k + 1].bytes[..]];
    let (mut stage, mut reference) = (vec![0; JOINED_STAGE], vec![0; JOINED_REFERENCE]);
    let joined = fovaheju::join(order.mark(), bytes(0), bytes(2), &mut stage, &mut reference);
    stage.truncate(joined.stage_count as usize);
    reference.truncate(joined.reference_count as usize);
    if joined.verdict.accepts() {
        let new = [(path(matches, "stage"), &stage[..]), (path(matches, "reference"), &reference[..])];
        let read: Vec<Identity> = files.iter().filter_map(|file| file.identity).collect();
        write_files(&new, &read, matches.get_flag("force"))?;
    }
    let mut files = files.into_iter();
    let mut part = || Some((Given::file(files.next()?), files.next()?));
    let (first, second) = part().zip(part()).expect("four were read");
    let question = Question::Join([Pair::part(&first.0, &first.1), Pair::part(&second.0, &second.1)]);
    answered(matches, question, joined.verdict, order)
}
