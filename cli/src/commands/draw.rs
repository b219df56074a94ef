//! `ncl draw`: a stage as a drawing, with the fault.

use super::{
    called, flag, force, found, json_flag, lowest, names_arg, order, path, put_json, quiet, signs, stage_arg, text_flag, verdict_json,
};
use crate::draw::{dot, Scene};
use crate::explain::{inputs_text, sentence, word_text, Order, Pair, Question};
use crate::failure::{Failure, Outcome};
use crate::given::Given;
use crate::input::{one_standard_input, read, Input};
use crate::netlist::{many, Stage};
use crate::output::{is_standard_output, put, write_files};
use crate::tools::DOT;
use crate::Found;
use clap::{value_parser, Arg, ArgMatches, Command};
use fovaheju::Verdict;
use std::path::{Path, PathBuf};

pub fn command() -> Command {
    let reference = Arg::new("reference").value_name("REFERENCE").value_parser(value_parser!(PathBuf));
    let output = Arg::new("output").long("output").short('o').value_name("FILE").value_parser(value_parser!(PathBuf));
    let inputs = Arg::new("inputs").long("inputs").value_name("SIGNS");
    Command::new("draw")
        .about("A stage as a drawing: its gates and levels, the fault, and what still waits")
        .arg(stage_arg())
        .arg(reference.help("The reference file; without it the stage is drawn and not judged"))
        .arg(output.help("Where it is written: by its name .svg, .png or .pdf through Graphviz's dot, else in dot's language"))
        .arg(inputs.help("The levels for these inputs in place of the verdict's: a sign for each, input 0 first: 0, 1, or . for NULL"))
        .arg(flag("all", "Draw every gate; else of a stage with more than 40 gates those around the fault"))
        .args([names_arg(), text_flag(), lowest(), json_flag(), force(), quiet()])
        .after_help(
            "\
Of a refused stage the drawing shows the situation of the verdict: what is high, the fault in red, what is still to switch dashed.
Without FILE the drawing is printed in dot's language; with it the verdict is printed. A stage that cannot be read is not drawn: its
verdict is printed.

Examples:
  ncl draw stage.ncl reference.ncl -o fault.svg
  ncl draw stage.ncl --inputs 01 -o stage.svg
  ncl draw stage.ncl reference.ncl | dot -Tx11",
        )
}

/// The format that a name asks dot for.
fn format(path: &Path) -> Option<&'static str> {
    let ending = path.extension()?.to_str()?.to_ascii_lowercase();
    ["svg", "png", "pdf"].into_iter().find(|format| *format == ending)
}

/// The stage, the reference where one is given, and the verdict; without a reference that of the settled-row call, which reads the stage.
struct Asked {
    stage: Given,
    reference: Option<Input>,
    verdict: Verdict,
}

impl Asked {
    fn of(matches: &ArgMatches) -> Outcome<Asked> {
        let name = matches.get_one::<PathBuf>("reference");
        if let Some(name) = name {
            one_standard_input(&[path(matches, "stage"), name])?;
        }
        let stage = called(matches)?;
        let reference = name.map(|name| read(name)).transpose()?;
        let verdict = match &reference {
            Some(reference) => stage.check(order(matches), &reference.bytes),
            None => stage.read_verdict(),
        };
        Ok(Asked { stage, reference, verdict })
    }

    fn question(&self) -> Question<'_> {
        match &self.reference {
            Some(reference) => Question::Check(Pair::whole(&self.stage, reference)),
            None => Question::Row { stage: &self.stage, row: &[] },
        }
    }
}

pub fn run(matches: &ArgMatches) -> Outcome<Found> {
    let inputs = matches.get_one::<String>("inputs").map(|text| signs(text)).transpose()?;
    let asked = Asked::of(matches)?;
    let (stage, order) = (asked.stage.stage(), order(matches));
    let text = if asked.stage.reads() { Some(drawing(&asked, &stage, inputs.as_deref(), order, matches.get_flag("all"))?) } else { None };
    let output = matches.get_one::<PathBuf>("output").filter(|path| !is_standard_output(path));
    match (&text, output) {
        (Some(text), Some(path)) => {
            let bytes = match format(path) {
                Some(format) => DOT.run(&[format!("-T{format}")], text.as_bytes())?,
                None => text.clone().into_bytes(),
            };
            let files = [asked.stage.input.identity, asked.reference.as_ref().and_then(|reference| reference.identity)];
            write_files(&[(path, &bytes)], &files.into_iter().flatten().collect::<Vec<_>>(), matches.get_flag("force"))?;
        }
        (Some(text), None) if !matches.get_flag("quiet") && !matches.get_flag("json") => {
            put(text.as_bytes())?;
            return Ok(found(asked.verdict));
        }
        _ => {}
    }
    if matches.get_flag("json") {
        let mut value = verdict_json(asked.question(), asked.verdict);
        if let (Some(text), None) = (text, output) {
            value["dot"] = text.into();
        }
        put_json(&value)?;
    } else if !matches.get_flag("quiet") {
        put(super::answer(asked.question(), asked.verdict, order, false).as_bytes())?;
    }
    Ok(found(asked.verdict))
}

/// The drawing in dot's language.
fn drawing(asked: &Asked, stage: &Stage, inputs: Option<&[Option<bool>]>, order: Order, all: bool) -> Outcome<String> {
    let verdict = asked.verdict;
    // Levels are those of the stage in which a register is two wires.
    let wired = asked.stage.wired();
    let plain = wired.as_ref().unwrap_or(&asked.stage);
    let (file, held) = (plain.bytes(), plain.stage());
    let mut title = vec![format!("{}: {}", asked.stage.name(), stage.counts())];
    if let Some(values) = inputs {
        if values.len() != stage.inputs {
            let [has, given] = [(stage.inputs, "input"), (values.len(), "sign")].map(|(count, what)| many(count, what));
            return Err(Failure::says(format!("{}: has {has}; --inputs gives {given}", asked.stage.name())));
        }
        title.push(format!("settled for {}", inputs_text(values, stage)));
        return Ok(dot(&Scene::plain(stage, title).settled(file, &held, values).near(all)));
    }
    let question = asked.question();
    if !verdict.accepts() {
        title.insert(0, format!("{verdict}  {}", question.title(verdict.number)));
        let found = sentence(question, verdict, order);
        let word = matches!(verdict.number, 13 | 14 | 15 | 20 | 21)
            .then(|| format!("word {}: ", word_text(verdict.word, &order.values(verdict.word, stage.inputs), order, stage)));
        title.push(word.unwrap_or_default() + &found);
    } else if asked.reference.is_some() {
        title.insert(0, format!("{verdict}  accepted"));
    }
    let reference = asked.reference.as_ref().map_or(&[][..], |reference| &reference.bytes);
    Ok(dot(&Scene::plain(stage, title).judged(verdict, (file, &held), reference, order).near(all)))
}
