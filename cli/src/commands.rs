//! The subcommands: each is a module with its arguments (`command`) and what it does (`run`), and a row of the list.

mod batch;
mod check;
mod completion;
mod draw;
mod explain;
mod from;
mod join;
mod load;
mod make;
mod mend;
mod next;
mod report;
mod row;
mod text;
mod to;
mod wave;

use crate::explain::{explain as explain_verdict, sentence, Order, Question, TRIES};
use crate::failure::{Failure, Outcome};
use crate::given::Given;
use crate::input::{one_standard_input, read, Input};
use crate::names::NamesFile;
use crate::output::{on_terminal, put, Paint};
use crate::Found;
use clap::{value_parser, Arg, ArgAction, ArgMatches, Command};
use fovaheju::Verdict;
use serde_json::{json, Value};
use std::ffi::OsString;
use std::path::{Path, PathBuf};

type Row = (&'static str, fn() -> Command, fn(&ArgMatches) -> Outcome<Found>);

/// In the order of the help.
const ROWS: [Row; 16] = [
    ("check", check::command, check::run),
    ("explain", explain::command, explain::run),
    ("draw", draw::command, draw::run),
    ("wave", wave::command, wave::run),
    ("mend", mend::command, mend::run),
    ("batch", batch::command, batch::run),
    ("report", report::command, report::run),
    ("row", row::command, row::run),
    ("from", from::command, from::run),
    ("to", to::command, to::run),
    ("join", join::command, join::run),
    ("make", make::command, make::run),
    ("text", text::command, text::run),
    ("next", next::command, next::run),
    ("load", load::command, load::run),
    ("completion", completion::command, completion::run),
];

const EXAMPLES: &str = "\
Examples:
  ncl check stage.ncl reference.ncl      the verdict, four numbers: 0 0 0 0 accepts
  ncl explain stage.ncl reference.ncl    why a stage is refused, and what to do
  ncl batch designs --junit -o out.xml   all stages below a folder

Exit status: 0 accepted, 1 refused, 2 wrong usage or a file that cannot be read or written.";

/// The whole command line.
pub fn all() -> Command {
    with_rows(&ROWS)
}

/// The command line as far as these arguments need it: where they begin with a subcommand, that one alone. A start is most of a check, and
/// describing all subcommands would be a good part of it.
pub fn needed(arguments: &[OsString]) -> Command {
    let asked = ROWS.iter().position(|row| arguments.get(1).is_some_and(|word| word == row.0));
    with_rows(asked.map_or(&ROWS[..], |k| &ROWS[k..=k]))
}

fn with_rows(rows: &[Row]) -> Command {
    Command::new("ncl")
        .version(env!("CARGO_PKG_VERSION"))
        .about("Judges NULL Convention Logic stages against Boolean references; every verdict comes from the proved library")
        .after_help(EXAMPLES)
        .subcommand_required(true)
        .arg_required_else_help(true)
        .subcommands(rows.iter().map(|row| (row.1)()))
}

pub fn run(matches: &ArgMatches) -> Outcome<Found> {
    let (name, matches) = matches.subcommand().expect("clap asks for one");
    let row = ROWS.iter().find(|row| row.0 == name).expect("clap knows these alone");
    (row.2)(matches)
}

/// A file to be read or written.
fn file(name: &'static str, value: &'static str, help: &'static str) -> Arg {
    Arg::new(name).value_name(value).required(true).value_parser(value_parser!(PathBuf)).help(help)
}

fn flag(name: &'static str, help: &'static str) -> Arg {
    Arg::new(name).long(name).action(ArgAction::SetTrue).help(help)
}

fn stage_arg() -> Arg {
    file("stage", "STAGE", "The stage file, or a text in the line form (--text, or a name that ends in .txt); '-' is standard input")
}

fn reference_arg() -> Arg {
    file("reference", "REFERENCE", "The reference file; '-' is standard input")
}

fn text_flag() -> Arg {
    flag("text", "STAGE is a text in the line form, whatever its name is")
}

fn lowest() -> Arg {
    flag("lowest", "Name words with input 0 as the lowest bit, as stored verdicts of before do")
}

fn names_arg() -> Arg {
    let names = Arg::new("names").long("names").value_name("NAMES").value_parser(value_parser!(PathBuf));
    names.help("What inputs and outputs are called: two lines of names, as 'ncl from' writes them")
}

fn quiet() -> Arg {
    silent().conflicts_with("json")
}

fn silent() -> Arg {
    flag("quiet", "Print nothing: the exit status is the answer").short('q')
}

fn json_flag() -> Arg {
    flag("json", "Print one JSON object")
}

fn force() -> Arg {
    flag("force", "Write over a file that was read, or is write-protected")
}

fn explain_flag() -> Arg {
    flag("explain", "Say after the verdict why it is refused, and what to do")
}

fn path<'a>(matches: &'a ArgMatches, name: &str) -> &'a Path {
    matches.get_one::<PathBuf>(name).expect("clap asks for it")
}

/// The stage that is given, as a file or as text.
fn given(matches: &ArgMatches) -> Outcome<Given> {
    Given::read(path(matches, "stage"), matches.get_flag("text"))
}

/// The same by the names of a names file, where one is given.
fn called(matches: &ArgMatches) -> Outcome<Given> {
    let names = names(matches)?;
    let given = given(matches)?;
    match names {
        Some(names) => given.called(names),
        None => Ok(given),
    }
}

/// The names file that is given.
fn names(matches: &ArgMatches) -> Outcome<Option<NamesFile>> {
    matches.get_one::<PathBuf>("names").map(|path| NamesFile::read(path)).transpose()
}

/// The same with its reference.
fn given_pair(matches: &ArgMatches) -> Outcome<(Given, Input)> {
    let reference = path(matches, "reference");
    one_standard_input(&[path(matches, "stage"), reference])?;
    Ok((given(matches)?, read(reference)?))
}

/// The same by the names of a names file, where one is given.
fn called_pair(matches: &ArgMatches) -> Outcome<(Given, Input)> {
    let reference = path(matches, "reference");
    one_standard_input(&[path(matches, "stage"), reference])?;
    Ok((called(matches)?, read(reference)?))
}

/// Inputs that are given as signs, input 0 first.
fn signs(inputs: &str) -> Outcome<Vec<Option<bool>>> {
    let value = |(k, sign): (usize, char)| match sign {
        '0' => Ok(Some(false)),
        '1' => Ok(Some(true)),
        '.' => Ok(None),
        _ => Err(Failure::says(format!("'{inputs}': sign {k} is '{sign}'; an input is 0, 1, or . for NULL"))),
    };
    inputs.chars().enumerate().map(value).collect()
}

fn order(matches: &ArgMatches) -> Order {
    Order { lowest: matches.get_flag("lowest") }
}

fn found(verdict: Verdict) -> Found {
    if verdict.accepts() {
        Found::Accepted
    } else {
        Found::Refused
    }
}

/// A verdict as JSON.
fn verdict_json(question: Question, verdict: Verdict) -> Value {
    json!({
        "accepted": verdict.accepts(),
        "number": verdict.number,
        "file": verdict.file,
        "at": verdict.at,
        "word": verdict.word,
        "title": question.title(verdict.number),
    })
}

/// The verdict line; on a terminal a sentence after it, and where it is asked for the whole explanation.
fn answer(question: Question, verdict: Verdict, order: Order, explained: bool) -> String {
    if explained && !verdict.accepts() {
        return explain_verdict(question, verdict, order, TRIES, Paint::of_output());
    }
    let mut text = format!("{verdict}\n");
    if on_terminal() {
        let paint = Paint::of_output();
        let called = question.title(verdict.number);
        if verdict.accepts() {
            text += &format!("{}\n", paint.good(called));
        } else {
            text += &format!("{}: {}\n", paint.bad(called), sentence(question, verdict, order));
        }
    }
    text
}

/// What a call that writes files prints, and its exit status.
fn answered(matches: &ArgMatches, question: Question, verdict: Verdict, order: Order) -> Outcome<Found> {
    if matches.get_flag("json") {
        put_json(&verdict_json(question, verdict))?;
    } else if !matches.get_flag("quiet") {
        put(answer(question, verdict, order, matches.get_flag("explain")).as_bytes())?;
    }
    Ok(found(verdict))
}

/// Prints a JSON value on one line.
fn put_json(value: &Value) -> Outcome<()> {
    put(format!("{value}\n").as_bytes())
}
