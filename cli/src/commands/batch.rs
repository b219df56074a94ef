//! `ncl batch`: the verdicts on many pairs.

use super::{flag, lowest, order, silent, text_flag};
use crate::batch::formats::{head, junit, line, Format};
use crate::batch::{judge, pairs, Judged, Manner, Named};
use crate::failure::{Failure, Outcome};
use crate::input::Identity;
use crate::netlist::many;
use crate::numbers::title;
use crate::output::{is_standard_output, put, tell, write_files};
use crate::progress::Progress;
use crate::Found;
use clap::{value_parser, Arg, ArgGroup, ArgMatches, Command};
use std::collections::BTreeMap;
use std::os::unix::fs::MetadataExt;
use std::path::PathBuf;

/// So many pairs are judged before their lines are written.
const AT_A_TIME: usize = 1_024;

pub fn command() -> Command {
    let from = Arg::new("from").value_name("FROM").required(true).num_args(1..).value_parser(value_parser!(PathBuf));
    let jobs = Arg::new("jobs").long("jobs").short('j').value_name("N").value_parser(value_parser!(u16).range(1..=512));
    let output = Arg::new("output").long("output").short('o').value_name("FILE").value_parser(value_parser!(PathBuf));
    Command::new("batch")
        .about("The verdicts on many pairs: a line for each, in the order given")
        .arg(from.help("A folder, a list of pairs, or '-' for a list on standard input"))
        .args([
            flag("json", "A JSON object on each line"),
            flag("csv", "CSV, with a line of names"),
            flag("junit", "One report in JUnit's form"),
        ])
        .group(ArgGroup::new("format").args(["json", "csv", "junit"]))
        .arg(jobs.help("How many pairs are judged side by side [default: one for each core]"))
        .arg(output.help("Write the lines to a file, whole or not at all"))
        .arg(flag("explain", "Say of each refused pair why it is refused, and what to do").conflicts_with("csv"))
        .arg(flag("force", "Let the file be one of those that were read, or write-protected"))
        .args([text_flag().help("All stages are texts in the line form; of a folder every stage.txt is judged"), lowest(), silent()])
        .after_help(
            "\
Of a folder every stage.ncl in it or below it is judged against the reference.ncl beside it. A list has the names of a stage and
its reference on each line, with blanks between them, or one tab where names hold blanks, from the current folder on; lines with #
are passed over, and a stage whose name ends in .txt is a text. A summary by number follows on standard error.

Exit status: 0 all accepted, 1 some refused, 2 some could not be read.

Examples:
  ncl batch designs
  ncl batch designs --junit -o verdicts.xml
  printf 'a.ncl a-ref.ncl\\n' | ncl batch -",
        )
}

fn format(matches: &ArgMatches) -> Format {
    let asked = |name: &str| matches.get_flag(name);
    match (asked("json"), asked("csv"), asked("junit")) {
        (true, _, _) => Format::Json,
        (_, true, _) => Format::Csv,
        (_, _, true) => Format::Junit,
        _ => Format::Text,
    }
}

/// Where the lines go: to standard output as they come, or kept until they are written to a file.
struct Lines {
    kept: Option<Vec<u8>>,
    silent: bool,
}

impl Lines {
    fn add(&mut self, bytes: &[u8], progress: &Progress) -> Outcome<()> {
        match &mut self.kept {
            Some(kept) => {
                kept.extend_from_slice(bytes);
                Ok(())
            }
            None if self.silent || bytes.is_empty() => Ok(()),
            None => progress.aside(|| put(bytes)),
        }
    }
}

pub fn run(matches: &ArgMatches) -> Outcome<Found> {
    let output = matches.get_one::<PathBuf>("output").filter(|path| !is_standard_output(path));
    let quiet = matches.get_flag("quiet");
    if let Some(format) = ["json", "csv", "junit"].into_iter().find(|format| quiet && output.is_none() && matches.get_flag(format)) {
        return Err(Failure::says(format!("--quiet prints nothing, so --{format} needs a file: --output FILE")));
    }
    let froms: Vec<&PathBuf> = matches.get_many("from").expect("clap asks for it").collect();
    let stage = if matches.get_flag("text") { "stage.txt" } else { "stage.ncl" };
    let mut all = Vec::new();
    for from in &froms {
        all.extend(pairs(from, stage)?);
    }
    if let Some(&jobs) = matches.get_one::<u16>("jobs") {
        let pool = rayon::ThreadPoolBuilder::new().num_threads(jobs.into()).build_global();
        pool.map_err(|error| Failure::says(error.to_string()))?;
    }
    let mut lines = Lines { kept: output.map(|_| Vec::new()), silent: quiet };
    let mut summary = Summary::default();
    summary.identities.extend(froms.iter().filter_map(|from| from.metadata().ok()).map(|data| (data.dev(), data.ino())));
    judge_all(&all, matches, &mut lines, &mut summary)?;
    if let (Some(path), Some(bytes)) = (output, &lines.kept) {
        write_files(&[(path, bytes)], &summary.identities, matches.get_flag("force"))?;
    }
    if !quiet {
        summary.say(all.len());
    }
    summary.found()
}

/// Judges all pairs, some at a time, and hands their lines on.
fn judge_all(all: &[Named], matches: &ArgMatches, lines: &mut Lines, summary: &mut Summary) -> Outcome<()> {
    let format = format(matches);
    let manner = Manner { order: order(matches), text: matches.get_flag("text"), explain: matches.get_flag("explain") };
    let progress = Progress::new(all.len(), "pairs", matches.get_flag("quiet"));
    let mut report = Vec::new();
    lines.add(&head(format), &progress)?;
    for some in all.chunks(AT_A_TIME) {
        let judged = judge(some, manner, || progress.done(1));
        let text: Vec<u8> = judged.iter().flat_map(|judged| line(format, judged)).collect();
        judged.iter().for_each(|judged| summary.add(judged, &progress));
        if format == Format::Junit {
            report.extend(judged);
        }
        lines.add(&text, &progress)?;
    }
    progress.finish();
    if format == Format::Junit {
        lines.add(&junit(&report), &progress)?;
    }
    Ok(())
}

/// How many pairs had each number, and which files were read.
#[derive(Default)]
struct Summary {
    numbers: BTreeMap<u64, usize>,
    unread: usize,
    identities: Vec<Identity>,
}

impl Summary {
    fn add(&mut self, judged: &Judged, progress: &Progress) {
        self.identities.extend(&judged.identities);
        match &judged.verdict {
            Ok(verdict) => *self.numbers.entry(verdict.number).or_default() += 1,
            Err(words) => {
                self.unread += 1;
                progress.aside(|| tell(words));
            }
        }
    }

    fn count(&self, number: u64) -> usize {
        self.numbers.get(&number).copied().unwrap_or(0)
    }

    fn refused(&self) -> usize {
        self.numbers.values().sum::<usize>() - self.count(0)
    }

    fn say(&self, all: usize) {
        let accepted = self.count(0);
        let mut text = format!("{}: {accepted} accepted, {} refused, {} not read", many(all, "pair"), self.refused(), self.unread);
        for (&number, count) in self.numbers.iter().filter(|(&number, _)| number != 0) {
            text += &format!("\n{count:>8} with {number:>2}, {}", title(number));
        }
        tell(&text);
    }

    fn found(&self) -> Outcome<Found> {
        match (self.unread, self.refused()) {
            (0, 0) => Ok(Found::Accepted),
            (0, _) => Ok(Found::Refused),
            _ => Err(Failure(None)),
        }
    }
}
