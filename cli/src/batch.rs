//! Many pairs: where they come from, and the verdict on each.

pub mod formats;

use crate::explain::{explain, Order, Pair, Question, TRIES_OF_MANY};
use crate::failure::{plain, shown, Failure, Outcome};
use crate::given::Given;
use crate::input::{read, standard_input, Identity};
use crate::output::Paint;
use rayon::prelude::*;
use std::ffi::OsStr;
use std::fs::{self, File};
use std::io::{self, BufRead, BufReader, Read};
use std::os::unix::ffi::OsStrExt;
use std::path::{Path, PathBuf};

/// A stage and its reference, by their names.
#[derive(Clone, PartialEq, Eq, Debug)]
pub struct Named {
    pub stage: PathBuf,
    pub reference: PathBuf,
    /// In place of a pair a folder that cannot be listed, and why: nobody knows what is in it.
    pub unlisted: Option<String>,
}

impl Named {
    fn pair(stage: PathBuf, reference: PathBuf) -> Named {
        Named { stage, reference, unlisted: None }
    }

    fn folder(folder: &Path, error: &io::Error) -> Named {
        Named { stage: folder.into(), reference: PathBuf::new(), unlisted: Some(format!("{}: {}", shown(folder), plain(error))) }
    }
}

/// What came of a pair: its verdict, or why it could not be read.
pub struct Judged {
    pub named: Named,
    pub verdict: Result<fovaheju::Verdict, String>,
    /// Why it is refused, where that is asked for.
    pub explained: Option<String>,
    /// The files that were read.
    pub identities: Vec<Identity>,
}

/// A list has at most so many pairs, and a line so many bytes: what is longer is no list of files.
const MOST_PAIRS: usize = 1_000_000;
const MOST_BYTES: usize = 16_384;

/// The pairs of a folder, or of a list: a file, or standard input for '-'. Of a folder those with a stage of this name.
pub fn pairs(from: &Path, stage: &str) -> Outcome<Vec<Named>> {
    let found = if from.as_os_str() == "-" {
        of_list(standard_input()?, from)?
    } else if fs::metadata(from).map_err(|error| Failure::of(from, &error))?.is_dir() {
        of_folder(from, stage)
    } else {
        of_list(BufReader::new(File::open(from).map_err(|error| Failure::of(from, &error))?), from)?
    };
    if found.is_empty() {
        let what = if from.is_dir() { format!("no {stage} in it or below it") } else { "no pair in it".into() };
        return Err(Failure::says(format!("{}: {what}", shown(from))));
    }
    Ok(found)
}

/// Every stage in a folder or below it, with the reference.ncl beside it, by the order of their names, and the folders that cannot be
/// listed. Links to folders are not followed.
fn of_folder(top: &Path, stage: &str) -> Vec<Named> {
    let (mut found, mut folders) = (Vec::new(), vec![top.to_path_buf()]);
    while let Some(folder) = folders.pop() {
        if let Err(error) = list(&folder, stage, &mut found, &mut folders) {
            found.push(Named::folder(&folder, &error));
        }
    }
    found.sort_by(|a, b| a.stage.cmp(&b.stage));
    found
}

/// The stage in a folder, and the folders.
fn list(folder: &Path, stage: &str, found: &mut Vec<Named>, folders: &mut Vec<PathBuf>) -> io::Result<()> {
    for entry in fs::read_dir(folder)? {
        let entry = entry?;
        if entry.file_type()?.is_dir() {
            folders.push(entry.path());
        } else if entry.file_name() == stage {
            found.push(Named::pair(entry.path(), folder.join("reference.ncl")));
        }
    }
    Ok(())
}

/// A stage and a reference on each line, between them a tab or, where there is none, white space. Empty lines and those that begin with #
/// are passed over.
fn of_list(mut from: impl BufRead, name: &Path) -> Outcome<Vec<Named>> {
    let mut found = Vec::new();
    for number in 1.. {
        let mut line = Vec::new();
        let taken = from.by_ref().take(MOST_BYTES as u64 + 1).read_until(b'\n', &mut line);
        let wrong = |words: &str| Failure::says(format!("{}, line {number}: {words}", shown(name)));
        if taken.map_err(|error| Failure::of(name, &error))? == 0 {
            break;
        }
        if line.len() > MOST_BYTES {
            return Err(wrong("too long for the names of a stage and a reference"));
        }
        let line = line.trim_ascii_end();
        if line.is_empty() || line.starts_with(b"#") {
            continue;
        }
        let [stage, reference] = split(line).ok_or_else(|| wrong("is not the names of a stage and a reference"))?;
        if found.len() == MOST_PAIRS {
            return Err(wrong("more than 1,000,000 pairs; split the list"));
        }
        found.push(Named::pair(OsStr::from_bytes(stage).into(), OsStr::from_bytes(reference).into()));
    }
    Ok(found)
}

fn split(line: &[u8]) -> Option<[&[u8]; 2]> {
    let tabbed = line.contains(&b'\t');
    let mut parts = line.split(|&byte| if tabbed { byte == b'\t' } else { byte == b' ' }).filter(|part| !part.is_empty());
    let two = [parts.next()?, parts.next()?];
    let names = !two.iter().any(|part| part.contains(&0));
    (parts.next().is_none() && names).then_some(two)
}

/// How pairs are judged: how words are named, whether all stages are texts, and whether a refusal is explained.
#[derive(Clone, Copy)]
pub struct Manner {
    pub order: Order,
    pub text: bool,
    pub explain: bool,
}

/// The verdicts on some pairs, side by side, in the order given. `done` is called after each.
pub fn judge(pairs: &[Named], manner: Manner, done: impl Fn() + Sync) -> Vec<Judged> {
    let one = |named: &Named| {
        let judged = judge_one(named, manner);
        done();
        judged
    };
    pairs.par_iter().map(one).collect()
}

fn judge_one(named: &Named, manner: Manner) -> Judged {
    let no_file = |path: &PathBuf| path.as_os_str() == "-";
    let files = if let Some(words) = &named.unlisted {
        Err(Failure::says(words.as_str()))
    } else if no_file(&named.stage) || no_file(&named.reference) {
        Err(Failure::says("'-': a list names files"))
    } else {
        Given::read(&named.stage, manner.text).and_then(|stage| Ok((stage, read(&named.reference)?)))
    };
    let mut identities = Vec::new();
    let (verdict, explained) = match files {
        Ok((stage, reference)) => {
            identities.extend([stage.input.identity, reference.identity].into_iter().flatten());
            let verdict = stage.check(manner.order, &reference.bytes);
            let question = Question::Check(Pair::whole(&stage, &reference));
            let wanted = manner.explain && !verdict.accepts();
            (Ok(verdict), wanted.then(|| explain(question, verdict, manner.order, TRIES_OF_MANY, Paint::NONE)))
        }
        Err(failure) => (Err(failure.0.unwrap_or_default()), None),
    };
    Judged { named: named.clone(), verdict, explained, identities }
}
