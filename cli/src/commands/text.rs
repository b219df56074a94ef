//! `ncl text`: a stage as text in the line form, both ways.

use super::{answered, explain_flag, file, force, json_flag, path, put_json, quiet, verdict_json};
use crate::explain::{Order, Question};
use crate::failure::Outcome;
use crate::given::Given;
use crate::input::read;
use crate::output::{put, write_files};
use crate::Found;
use clap::{value_parser, Arg, ArgMatches, Command};
use fovaheju::TEXT;
use std::path::PathBuf;

pub fn command() -> Command {
    let options = || [json_flag(), explain_flag(), force(), quiet()];
    let new_text = Arg::new("new").value_name("NEW-TEXT").value_parser(value_parser!(PathBuf));
    Command::new("text")
        .about("A stage as text in the line form: read into a stage file, or written from one")
        .subcommand_required(true)
        .arg_required_else_help(true)
        .subcommand(
            Command::new("read")
                .about("Makes a stage file of a text, and prints the verdict")
                .arg(file("text", "TEXT", "The text, whatever its name is; '-' is standard input"))
                .arg(file("new", "NEW-STAGE", "Where the stage file is written"))
                .args(options())
                .after_help("A refusal writes nothing.\n\nExample:\n  ncl text read stage.txt stage.ncl"),
        )
        .subcommand(
            Command::new("write")
                .about("Writes a stage file as text; without NEW-TEXT on standard output, or of a stage that has no text the verdict")
                .arg(file("stage", "STAGE", "The stage file; '-' is standard input"))
                .arg(new_text.help("Where the text is written; the verdict is then printed"))
                .args(options())
                .after_help(
                    "\
Read again, the text gives the stage's own bytes where its gates stand before its outputs. A stage with care words has no text.

Examples:
  ncl text write stage.ncl
  ncl text write stage.ncl stage.txt",
                ),
        )
        .after_help(
            "\
The line form: the input names, the output names, then a line for each gate with its kind, its pins and its net.

Examples:
  ncl text read stage.txt stage.ncl
  ncl text write stage.ncl",
        )
}

pub fn run(matches: &ArgMatches) -> Outcome<Found> {
    match matches.subcommand().expect("clap asks for one") {
        ("read", matches) => read_text(matches),
        (_, matches) => write_text(matches),
    }
}

fn read_text(matches: &ArgMatches) -> Outcome<Found> {
    let text = Given::text(path(matches, "text"))?;
    let verdict = text.refused().unwrap_or(fovaheju::Verdict::ACCEPTED);
    if verdict.accepts() {
        let read: Vec<_> = text.input.identity.into_iter().collect();
        write_files(&[(path(matches, "new"), text.bytes())], &read, matches.get_flag("force"))?;
    }
    answered(matches, Question::ReadText { text: &text }, verdict, Order::default())
}

fn write_text(matches: &ArgMatches) -> Outcome<Found> {
    let stage = Given::file(read(path(matches, "stage"))?);
    let mut text = vec![0; TEXT];
    let written = fovaheju::write_text(stage.bytes(), &mut text);
    text.truncate(written.count as usize);
    let (verdict, question) = (written.verdict, Question::WriteText { stage: &stage });
    let accepted = verdict.accepts();
    match matches.get_one::<PathBuf>("new") {
        Some(new) if accepted => {
            let read: Vec<_> = stage.input.identity.into_iter().collect();
            write_files(&[(new, &text)], &read, matches.get_flag("force"))?;
        }
        None if accepted && matches.get_flag("json") => {
            let mut value = verdict_json(question, verdict);
            value["text"] = String::from_utf8_lossy(&text).into();
            return put_json(&value).map(|()| Found::Accepted);
        }
        None if accepted && !matches.get_flag("quiet") => return put(&text).map(|()| Found::Accepted),
        _ => {}
    }
    answered(matches, question, verdict, Order::default())
}
