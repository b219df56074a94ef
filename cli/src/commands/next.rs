//! `ncl next`: the small stages, one after the other.

use super::{answered, explain_flag, flag, force, json_flag, quiet};
use crate::explain::{Order, Question};
use crate::failure::Outcome;
use crate::input::{read, Input};
use crate::output::{put, write_files};
use crate::Found;
use clap::{value_parser, Arg, ArgMatches, Command};
use fovaheju::{Verdict, SMALL_STAGE};
use std::path::{Path, PathBuf};

/// No small stage comes any more.
const NONE_FURTHER: u64 = 36;
/// So many lines of a walk are written at a time.
const AT_A_TIME: usize = 1_024;

pub fn command() -> Command {
    let path = |name: &'static str, value: &'static str| Arg::new(name).value_name(value).value_parser(value_parser!(PathBuf));
    let most = Arg::new("most").long("most").value_name("N").value_parser(value_parser!(u64));
    let walks = ["walk", "most"];
    Command::new("next")
        .about("The small stage that comes after one: 1 or 2 inputs, at most two gates TH12 or TH22, one output")
        .override_usage("ncl next [OPTIONS] <STAGE> <NEW-STAGE>\n       ncl next [OPTIONS] --walk [--most <N>] [STAGE]")
        .arg(
            path("stage", "STAGE")
                .required_unless_present_any(walks)
                .help("A small stage, or an empty file, after which the first comes; '-' is standard input"),
        )
        .arg(path("new", "NEW-STAGE").required_unless_present_any(walks).conflicts_with_all(walks).help("Where the next one is written"))
        .arg(flag("walk", "Print all that come after STAGE, or without it all, a line of hexadecimal bytes each"))
        .arg(most.help("Print so many of them at most, without --walk too"))
        .args([json_flag().conflicts_with_all(walks), explain_flag(), force(), quiet()])
        .after_help(
            "\
Prints the verdict: 36 1 0 0 after the last, 37 1 0 0 for a file that is no small stage; a refusal writes nothing. From the
empty file on every small stage comes exactly once, by inputs, then gates, then bytes, by theorem.

Examples:
  ncl next /dev/null stage.ncl              the first
  ncl next --force stage.ncl stage.ncl      the next one in its place
  ncl next --walk | wc -l                   all of them
  ncl next --walk --most 1 stage.ncl | xxd -r -p > next.ncl",
        )
}

/// The file after one.
fn after(stage: &[u8]) -> (Verdict, Vec<u8>) {
    let mut file = vec![0; SMALL_STAGE];
    let written = fovaheju::next_stage(stage, &mut file);
    file.truncate(written.count as usize);
    (written.verdict, file)
}

pub fn run(matches: &ArgMatches) -> Outcome<Found> {
    let given = matches.get_one::<PathBuf>("stage").map(|path| read(path)).transpose()?;
    let stage = given.unwrap_or_else(|| Input::empty(Path::new("the empty file")));
    if matches.get_flag("walk") || matches.contains_id("most") {
        return walk(matches, &stage);
    }
    let (verdict, file) = after(&stage.bytes);
    if verdict.accepts() {
        let new = matches.get_one::<PathBuf>("new").expect("clap asks for it");
        let read: Vec<_> = stage.identity.into_iter().collect();
        write_files(&[(new, &file)], &read, matches.get_flag("force"))?;
    }
    answered(matches, Question::Next { stage: &stage }, verdict, Order::default())
}

/// Prints the files that come after one, up to the last. After the last itself there is none, and nothing is printed.
fn walk(matches: &ArgMatches, stage: &Input) -> Outcome<Found> {
    let most = matches.get_one::<u64>("most").copied().unwrap_or(u64::MAX);
    let (mut verdict, mut file) = after(&stage.bytes);
    if !verdict.accepts() && verdict.number != NONE_FURTHER {
        return answered(matches, Question::Next { stage }, verdict, Order::default());
    }
    let (mut lines, mut count) = (String::new(), 0);
    while verdict.accepts() && count < most {
        let bytes: Vec<String> = file.iter().map(|byte| format!("{byte:02X}")).collect();
        lines += &bytes.join(" ");
        lines.push('\n');
        count += 1;
        if (count as usize).is_multiple_of(AT_A_TIME) && !matches.get_flag("quiet") {
            put(lines.as_bytes())?;
            lines.clear();
        }
        (verdict, file) = after(&file);
    }
    if !matches.get_flag("quiet") {
        put(lines.as_bytes())?;
    }
    Ok(Found::Accepted)
}
