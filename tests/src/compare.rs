//! Another implementation against the judge.
//!
//! The other side is given as plain functions, so that it may come from anywhere: a
//! library with C functions needs two wrappers of a line each. A program is run as a
//! program, in a folder that holds the two files.

use crate::draw::{self, Load};
use crate::files::{hex, report_text, verdict_line, FilePair, MOST_BYTES_READ};
use crate::generate::draws::{self, draw_case, DrawCase};
use crate::generate::joins::{join_case, JoinCase};
use crate::generate::made::{make_case, MakeCase};
use crate::generate::nexts::{next_case, NextCase};
use crate::generate::texts::{read_case, write_case, GeneratedText, TextCase};
use crate::generate::{pair, row_case, Generated, RowCase};
use crate::join::{self, Joined};
use crate::judge::{self, Verdict, WordOrder, ORDERS};
use crate::make::{self, Made};
use crate::next::{self, FAMILY};
use crate::text;
use std::fmt;
use std::fs;
use std::io;
use std::path::Path;
use std::process::Command;
use std::time::Instant;

/// The check of a stage file and a reference file, in the order of words that files have.
pub type Check = fn(&[u8], &[u8]) -> [u64; 4];

/// The settled-row call: a stage file and a lent row.
pub type SettledRow = fn(&[u8], &mut [u8]) -> [u64; 4];

/// The stage of a reference file, into a lent buffer.
pub type Make = fn(&[u8], &mut [u8]) -> Made;

/// The file of the family of small stages after a file, into a lent buffer.
pub type Next = fn(&[u8], &mut [u8]) -> Made;

/// The reference that is drawn for a load, into a lent buffer.
pub type Draw = fn(&Load, &mut [u8]) -> Made;

/// The stage file of a text, or the text of a stage file, into a lent buffer.
pub type Convert = fn(&[u8], &mut [u8]) -> Made;

/// The numbers of a report as the library gives them: how many words have a line, their total,
/// and 1,024 lines of which those past the words are 0. Of a refused pair all but the verdict is 0.
#[derive(Clone, PartialEq, Eq, Debug)]
pub struct Counts {
    pub verdict: Verdict,
    pub words: u64,
    pub total: u64,
    pub lines: Vec<u16>,
    pub names: Vec<u16>,
}

/// The check, the report and the join in either order of words (document 02, M-106).
pub type CheckInOrder = fn(WordOrder, &[u8], &[u8]) -> Verdict;
pub type ReportInOrder = fn(WordOrder, &[u8], &[u8]) -> Counts;
pub type JoinInOrder = fn(WordOrder, &FilePair, &FilePair, &mut [u8], &mut [u8]) -> Joined;

/// The judge's report in these numbers.
pub fn judged_counts(order: WordOrder, stage: &[u8], reference: &[u8]) -> Counts {
    let report = judge::report_in_order(order, stage, reference);
    let mut lines: Vec<u16> = report.lines.iter().map(|line| line.1 as u16).collect();
    lines.resize(1024, 0);
    let mut names: Vec<u16> = report.lines.iter().map(|line| line.0 as u16).collect();
    names.resize(1024, 0);
    Counts {
        verdict: report.verdict,
        words: report.lines.len() as u64,
        total: report.total,
        lines,
        names,
    }
}

/// How often each verdict number came: documents 01 and 02 have 0 to 41.
pub type Histogram = [u64; 42];
pub const NO_VERDICTS: Histogram = [0; 42];

/// The numbers of the check, of the settled-row call, of the join, of the stage from a reference,
/// of reading and writing texts, of the next small stage, and of a drawn reference.
pub const CHECK_NUMBERS: [usize; 22] = [
    0, 1, 2, 3, 4, 5, 6, 7, 8, 9, 18, 19, 10, 11, 12, 28, 13, 14, 15, 20, 21, 32,
];
pub const ROW_NUMBERS: [usize; 15] = [0, 1, 2, 3, 4, 5, 6, 7, 8, 9, 18, 19, 12, 16, 17];
pub const JOIN_NUMBERS: [usize; 25] = [
    0, 1, 2, 3, 4, 5, 6, 7, 8, 9, 18, 19, 10, 11, 12, 28, 13, 14, 15, 20, 21, 32, 22, 23, 24,
];
pub const MAKE_NUMBERS: [usize; 13] = [0, 1, 2, 3, 4, 5, 6, 7, 8, 9, 25, 26, 27];
pub const READ_TEXT_NUMBERS: [usize; 8] = [0, 29, 30, 31, 3, 5, 6, 24];
pub const WRITE_TEXT_NUMBERS: [usize; 15] = [0, 1, 2, 3, 4, 5, 6, 7, 8, 9, 18, 19, 29, 31, 24];
pub const NEXT_NUMBERS: [usize; 4] = [0, 37, 36, 38];
pub const DRAW_NUMBERS: [usize; 4] = [0, 39, 40, 41];

/// What cases lack that a comparison rests on: one of the numbers never came, or fewer
/// than a fifth of the cases are accepted.
pub fn lack(histogram: &Histogram, numbers: &[usize]) -> Option<String> {
    if let Some(number) = numbers.iter().find(|&&number| histogram[number] == 0) {
        return Some(format!("no case has number {number}"));
    }
    let count: u64 = histogram.iter().sum();
    (5 * histogram[0] < count).then(|| format!("only {} of {count} are accepted", histogram[0]))
}

/// The first difference found.
#[derive(Clone, PartialEq, Eq, Debug)]
pub enum Difference {
    Verdicts {
        name: String,
        order: WordOrder,
        pair: FilePair,
        judge: Verdict,
        other: Verdict,
    },
    Rows {
        name: String,
        case: RowCase,
        judge: (Verdict, Vec<u8>),
        other: (Verdict, Vec<u8>),
    },
    Reports {
        name: String,
        order: WordOrder,
        pair: FilePair,
        judge: Box<Counts>,
        other: Box<Counts>,
    },
    Printed {
        name: String,
        pair: FilePair,
        expected: String,
        printed: String,
    },
    Joins {
        name: String,
        order: WordOrder,
        case: Box<JoinCase>,
        judge: Answer,
        other: Answer,
    },
    Makes {
        name: String,
        case: MakeCase,
        judge: (Made, Vec<u8>),
        other: (Made, Vec<u8>),
    },
    Nexts {
        name: String,
        case: NextCase,
        judge: (Made, Vec<u8>),
        other: (Made, Vec<u8>),
    },
    Draws {
        name: String,
        case: DrawCase,
        judge: (Made, Vec<u8>),
        other: (Made, Vec<u8>),
    },
    Texts {
        name: String,
        case: TextCase,
        judge: (Made, Vec<u8>),
        other: (Made, Vec<u8>),
    },
    Runs {
        name: String,
        order: WordOrder,
        stage: Vec<u8>,
        told: String,
    },
}

/// What a join answers, and both buffers after it.
pub type Answer = (Joined, Vec<u8>, Vec<u8>);

impl fmt::Display for Difference {
    fn fmt(&self, f: &mut fmt::Formatter<'_>) -> fmt::Result {
        let line = |verdict: Verdict| verdict_line(verdict).trim_end().to_string();
        match self {
            Difference::Verdicts {
                name,
                order,
                pair,
                judge,
                other,
            } => {
                writeln!(
                    f,
                    "{name}, {order:?}: judge {}, other {}",
                    line(*judge),
                    line(*other)
                )?;
                writeln!(f, "stage, {} bytes: {}", pair.stage.len(), hex(&pair.stage))?;
                writeln!(
                    f,
                    "reference, {} bytes: {}",
                    pair.reference.len(),
                    hex(&pair.reference)
                )
            }
            Difference::Rows {
                name,
                case,
                judge,
                other,
            } => {
                writeln!(
                    f,
                    "{name}: judge {}, other {}",
                    line(judge.0),
                    line(other.0)
                )?;
                writeln!(f, "stage, {} bytes: {}", case.stage.len(), hex(&case.stage))?;
                writeln!(
                    f,
                    "row before, {} bytes: {}",
                    case.row.len(),
                    hex(&case.row)
                )?;
                writeln!(f, "row of the judge: {}", hex(&judge.1))?;
                writeln!(f, "row of the other: {}", hex(&other.1))
            }
            Difference::Reports {
                name,
                order,
                pair,
                judge,
                other,
            } => {
                writeln!(f, "{name}, {order:?}: judge {judge:?}")?;
                writeln!(f, "other {other:?}")?;
                writeln!(f, "stage, {} bytes: {}", pair.stage.len(), hex(&pair.stage))?;
                writeln!(
                    f,
                    "reference, {} bytes: {}",
                    pair.reference.len(),
                    hex(&pair.reference)
                )
            }
            Difference::Printed {
                name,
                pair,
                expected,
                printed,
            } => {
                writeln!(f, "{name}: judge {expected:?}, printed {printed:?}")?;
                writeln!(f, "stage, {} bytes: {}", pair.stage.len(), hex(&pair.stage))?;
                writeln!(
                    f,
                    "reference, {} bytes: {}",
                    pair.reference.len(),
                    hex(&pair.reference)
                )
            }
            Difference::Joins {
                name,
                order,
                case,
                judge,
                other,
            } => {
                writeln!(f, "{name}, {order:?}")?;
                for (which, bytes) in [
                    ("first stage", &case.first.stage),
                    ("first reference", &case.first.reference),
                    ("second stage", &case.second.stage),
                    ("second reference", &case.second.reference),
                    ("stage buffer before", &case.stage),
                    ("reference buffer before", &case.reference),
                ] {
                    writeln!(f, "{which}, {} bytes: {}", bytes.len(), hex(bytes))?;
                }
                for (who, (joined, stage, reference)) in [("judge", judge), ("other", other)] {
                    writeln!(
                        f,
                        "{who}: {}, {} and {} bytes",
                        line(joined.verdict),
                        joined.stage_len,
                        joined.reference_len
                    )?;
                    writeln!(f, "stage buffer of the {who}: {}", hex(stage))?;
                    writeln!(f, "reference buffer of the {who}: {}", hex(reference))?;
                }
                Ok(())
            }
            Difference::Makes {
                name,
                case,
                judge,
                other,
            } => {
                writeln!(f, "{name}")?;
                let files = [
                    ("reference", &case.reference),
                    ("buffer before", &case.buffer),
                ];
                show_written(f, &files, judge, other)
            }
            Difference::Nexts {
                name,
                case,
                judge,
                other,
            } => {
                writeln!(f, "{name}")?;
                let files = [("stage", &case.stage), ("buffer before", &case.buffer)];
                show_written(f, &files, judge, other)
            }
            Difference::Draws {
                name,
                case,
                judge,
                other,
            } => {
                writeln!(f, "{name}, {:?}", case.load)?;
                let files = [("buffer before", &case.buffer)];
                show_written(f, &files, judge, other)
            }
            Difference::Texts {
                name,
                case,
                judge,
                other,
            } => {
                writeln!(f, "{name}")?;
                let files = [("read", &case.source), ("buffer before", &case.buffer)];
                show_written(f, &files, judge, other)?;
                writeln!(f, "read, as text: {}", case.source.escape_ascii())
            }
            Difference::Runs {
                name,
                order,
                stage,
                told,
            } => {
                writeln!(f, "{name}, {order:?}")?;
                writeln!(f, "stage, {} bytes: {}", stage.len(), hex(stage))?;
                writeln!(f, "{told}")
            }
        }
    }
}

/// What a call that writes one file was given, and what the judge and the other answered.
fn show_written(
    f: &mut fmt::Formatter<'_>,
    files: &[(&str, &Vec<u8>)],
    judge: &(Made, Vec<u8>),
    other: &(Made, Vec<u8>),
) -> fmt::Result {
    for (which, bytes) in files {
        writeln!(f, "{which}, {} bytes: {}", bytes.len(), hex(bytes))?;
    }
    for (who, (made, buffer)) in [("judge", judge), ("other", other)] {
        let verdict = verdict_line(made.verdict);
        writeln!(f, "{who}: {}, {} bytes", verdict.trim_end(), made.len)?;
        writeln!(f, "buffer of the {who}: {}", hex(buffer))?;
    }
    Ok(())
}

/// Compares the verdicts on one pair and gives the number they agree on.
pub fn compare_pair(
    other: impl Fn(WordOrder, &[u8], &[u8]) -> Verdict,
    order: WordOrder,
    name: &str,
    pair: &FilePair,
) -> Result<u64, Box<Difference>> {
    let judged = judge::check_pipeline(order, &pair.stage, &pair.reference);
    let given = other(order, &pair.stage, &pair.reference);
    if judged == given {
        return Ok(judged[0]);
    }
    Err(Box::new(Difference::Verdicts {
        name: name.to_string(),
        order,
        pair: pair.clone(),
        judge: judged,
        other: given,
    }))
}

/// Compares the reports on one pair and gives the number they agree on.
pub fn compare_report(
    other: impl Fn(WordOrder, &[u8], &[u8]) -> Counts,
    order: WordOrder,
    name: &str,
    pair: &FilePair,
) -> Result<u64, Box<Difference>> {
    let judged = judged_counts(order, &pair.stage, &pair.reference);
    let given = other(order, &pair.stage, &pair.reference);
    if judged == given {
        return Ok(judged.verdict[0]);
    }
    Err(Box::new(Difference::Reports {
        name: name.to_string(),
        order,
        pair: pair.clone(),
        judge: Box::new(judged),
        other: Box::new(given),
    }))
}

/// Compares the verdict and every byte of the row of one case.
pub fn compare_row(other: SettledRow, name: &str, case: &RowCase) -> Result<u64, Box<Difference>> {
    let (mut judged, mut given) = (case.row.clone(), case.row.clone());
    let judged_verdict = judge::settled_row(&case.stage, &mut judged);
    let given_verdict = other(&case.stage, &mut given);
    if judged_verdict == given_verdict && judged == given {
        return Ok(judged_verdict[0]);
    }
    Err(Box::new(Difference::Rows {
        name: name.to_string(),
        case: case.clone(),
        judge: (judged_verdict, judged),
        other: (given_verdict, given),
    }))
}

/// What a join in an order of words answers on a case.
fn answer_of(join: JoinInOrder, order: WordOrder, case: &JoinCase) -> Answer {
    let (mut stage, mut reference) = (case.stage.clone(), case.reference.clone());
    let joined = join(order, &case.first, &case.second, &mut stage, &mut reference);
    (joined, stage, reference)
}

/// Compares the verdict, the lengths and every byte of both buffers of one case.
pub fn compare_join(
    other: JoinInOrder,
    order: WordOrder,
    name: &str,
    case: &JoinCase,
) -> Result<u64, Box<Difference>> {
    let judged = answer_of(join::join_in_order, order, case);
    let given = answer_of(other, order, case);
    if judged == given {
        return Ok(judged.0.verdict[0]);
    }
    Err(Box::new(Difference::Joins {
        name: name.to_string(),
        order,
        case: Box::new(case.clone()),
        judge: judged,
        other: given,
    }))
}

/// Compares the verdict, the length and every byte of the buffer of one case.
pub fn compare_make(other: Make, name: &str, case: &MakeCase) -> Result<u64, Box<Difference>> {
    let answer_of = |make_stage: Make| {
        let mut buffer = case.buffer.clone();
        (make_stage(&case.reference, &mut buffer), buffer)
    };
    let (judged, given) = (answer_of(make::make_stage), answer_of(other));
    if judged == given {
        return Ok(judged.0.verdict[0]);
    }
    Err(Box::new(Difference::Makes {
        name: name.to_string(),
        case: case.clone(),
        judge: judged,
        other: given,
    }))
}

/// Compares the verdict, the length and every byte of the buffer of one case.
pub fn compare_next(other: Next, name: &str, case: &NextCase) -> Result<u64, Box<Difference>> {
    let answer_of = |next_stage: Next| {
        let mut buffer = case.buffer.clone();
        (next_stage(&case.stage, &mut buffer), buffer)
    };
    let (judged, given) = (answer_of(next::next_stage), answer_of(other));
    if judged == given {
        return Ok(judged.0.verdict[0]);
    }
    Err(Box::new(Difference::Nexts {
        name: name.to_string(),
        case: case.clone(),
        judge: judged,
        other: given,
    }))
}

/// Compares the verdict, the length and every byte of the buffer of one case.
pub fn compare_draw(other: Draw, name: &str, case: &DrawCase) -> Result<u64, Box<Difference>> {
    let answer_of = |draw_reference: Draw| {
        let mut buffer = case.buffer.clone();
        (draw_reference(&case.load, &mut buffer), buffer)
    };
    let (judged, given) = (answer_of(draw::draw_reference), answer_of(other));
    if judged == given {
        return Ok(judged.0.verdict[0]);
    }
    Err(Box::new(Difference::Draws {
        name: name.to_string(),
        case: case.clone(),
        judge: judged,
        other: given,
    }))
}

/// Compares the verdict, the length and every byte of the buffer of one text that is read.
pub fn compare_read_text(
    other: Convert,
    name: &str,
    case: &TextCase,
) -> Result<u64, Box<Difference>> {
    compare_text([text::read_text, other], name, case)
}

/// The same of one stage file whose text is written.
pub fn compare_write_text(
    other: Convert,
    name: &str,
    case: &TextCase,
) -> Result<u64, Box<Difference>> {
    compare_text([text::write_text, other], name, case)
}

fn compare_text(calls: [Convert; 2], name: &str, case: &TextCase) -> Result<u64, Box<Difference>> {
    let [judge, other] = calls.map(|call| {
        let mut buffer = case.buffer.clone();
        (call(&case.source, &mut buffer), buffer)
    });
    if judge == other {
        return Ok(judge.0.verdict[0]);
    }
    Err(Box::new(Difference::Texts {
        name: name.to_string(),
        case: case.clone(),
        judge,
        other,
    }))
}

/// A smaller pair on which the verdicts still differ: pieces of both files are left
/// out as long as they do, large pieces first, then any of at most ten bytes (a gate
/// command of a stage has ten). It stops after some seconds.
pub fn shrink(
    other: impl Fn(WordOrder, &[u8], &[u8]) -> Verdict,
    order: WordOrder,
    pair: &FilePair,
) -> FilePair {
    let differ = |pair: &FilePair| compare_pair(&other, order, "a part", pair).is_err();
    let mut small = pair.clone();
    let mut piece = small.stage.len().max(small.reference.len());
    let start = Instant::now();
    while piece > 0 {
        for in_stage in [true, false] {
            let mut at = 0;
            loop {
                let mut attempt = small.clone();
                let file = if in_stage {
                    &mut attempt.stage
                } else {
                    &mut attempt.reference
                };
                if at >= file.len() || start.elapsed().as_secs() >= 5 {
                    break;
                }
                let to = file.len().min(at + piece);
                file.drain(at..to);
                if differ(&attempt) {
                    small = attempt;
                } else {
                    at += if piece > 10 { piece } else { 1 };
                }
            }
        }
        piece = if piece > 20 { piece / 2 } else { piece - 1 };
    }
    small
}

/// How pairs are made of a seed and their number.
pub type Pairs = fn(u64, u64) -> Generated;

/// Compares the check on the first `count` pairs of a seed up to the first difference.
pub fn first_difference(other: Check, seed: u64, count: u64) -> Result<Histogram, Box<Difference>> {
    let other = |_: WordOrder, stage: &[u8], reference: &[u8]| other(stage, reference);
    first_difference_in(&[WordOrder::Input0Lowest], other, seed, count)
}

/// The same in some orders of words.
pub fn first_difference_in(
    orders: &[WordOrder],
    other: impl Fn(WordOrder, &[u8], &[u8]) -> Verdict,
    seed: u64,
    count: u64,
) -> Result<Histogram, Box<Difference>> {
    first_difference_of(pair, orders, other, seed, count)
}

fn first_difference_of(
    pairs: Pairs,
    orders: &[WordOrder],
    other: impl Fn(WordOrder, &[u8], &[u8]) -> Verdict,
    seed: u64,
    count: u64,
) -> Result<Histogram, Box<Difference>> {
    let mut histogram = NO_VERDICTS;
    for index in 0..count {
        let generated = pairs(seed, index);
        let name = format!("pair {index} of seed {seed} ({})", generated.family);
        for &order in orders {
            let number = compare_pair(&other, order, &name, &generated.pair)?;
            histogram[number as usize] += 1;
        }
    }
    Ok(histogram)
}

/// Compares the check on the first `count` pairs of a seed, in both orders of words. The first
/// difference is printed, as it is and with smaller files, and given back.
pub fn compare_checks(
    other: CheckInOrder,
    seed: u64,
    count: u64,
) -> Result<Histogram, Box<Difference>> {
    compare_checks_of(pair, other, seed, count)
}

/// The same on other pairs.
pub fn compare_checks_of(
    pairs: Pairs,
    other: CheckInOrder,
    seed: u64,
    count: u64,
) -> Result<Histogram, Box<Difference>> {
    first_difference_of(pairs, &ORDERS, other, seed, count).inspect_err(|difference| {
        println!("{difference}");
        if let Difference::Verdicts { order, pair, .. } = &**difference {
            let small = shrink(other, *order, pair);
            if let Err(smaller) = compare_pair(other, *order, "the same, smaller", &small) {
                println!("{smaller}");
            }
        }
    })
}

/// Compares the report on the first `count` pairs of a seed, in both orders of words. The first
/// difference is printed and given back.
pub fn compare_reports(
    other: ReportInOrder,
    seed: u64,
    count: u64,
) -> Result<Histogram, Box<Difference>> {
    let mut histogram = NO_VERDICTS;
    for index in 0..count {
        let generated = pair(seed, index);
        let name = format!("report {index} of seed {seed} ({})", generated.family);
        for order in ORDERS {
            let number = compare_report(other, order, &name, &generated.pair)
                .inspect_err(|difference| println!("{difference}"))?;
            histogram[number as usize] += 1;
        }
    }
    Ok(histogram)
}

/// Compares the settled-row call on the first `count` row cases of a seed. The first
/// difference is printed and given back.
pub fn compare_rows(
    other: SettledRow,
    seed: u64,
    count: u64,
) -> Result<Histogram, Box<Difference>> {
    let mut histogram = NO_VERDICTS;
    for index in 0..count {
        let name = format!("row case {index} of seed {seed}");
        let number = compare_row(other, &name, &row_case(seed, index))
            .inspect_err(|difference| println!("{difference}"))?;
        histogram[number as usize] += 1;
    }
    Ok(histogram)
}

/// Compares the join on the first `count` joins of a seed, in both orders of words. The first
/// difference is printed and given back.
pub fn compare_joins(
    other: JoinInOrder,
    seed: u64,
    count: u64,
) -> Result<Histogram, Box<Difference>> {
    let mut histogram = NO_VERDICTS;
    for index in 0..count {
        let generated = join_case(seed, index);
        for order in ORDERS {
            let name = format!("join {index} of seed {seed} ({})", generated.family);
            let number = compare_join(other, order, &name, &generated.case)
                .inspect_err(|difference| println!("{difference}"))?;
            histogram[number as usize] += 1;
        }
    }
    Ok(histogram)
}

/// Compares the stages of the first `count` references of a seed. The first difference is printed
/// and given back.
pub fn compare_makes(other: Make, seed: u64, count: u64) -> Result<Histogram, Box<Difference>> {
    let mut histogram = NO_VERDICTS;
    for index in 0..count {
        let generated = make_case(seed, index);
        let name = format!("reference {index} of seed {seed} ({})", generated.family);
        let number = compare_make(other, &name, &generated.case)
            .inspect_err(|difference| println!("{difference}"))?;
        histogram[number as usize] += 1;
    }
    Ok(histogram)
}

/// Walks through the whole family: each file is written after the one before, from the empty file
/// to 36, in a buffer that is one byte too short, one that just fits and one with room to spare. The
/// first difference is printed and given back.
pub fn compare_family(other: Next) -> Result<Histogram, Box<Difference>> {
    let mut histogram = NO_VERDICTS;
    let mut stage = Vec::new();
    for place in 0..=FAMILY.len() {
        let length = FAMILY.get(place).map_or(28, Vec::len);
        for room in [length - 1, length, length + 1 + place % 7] {
            let case = NextCase {
                stage: stage.clone(),
                buffer: vec![place as u8; room],
            };
            let name = format!("file {place} of the family in {room} bytes");
            let number = compare_next(other, &name, &case)
                .inspect_err(|difference| println!("{difference}"))?;
            histogram[number as usize] += 1;
        }
        // Its own file, as it wrote it.
        let mut buffer = vec![0; length];
        let made = other(&stage, &mut buffer);
        buffer.truncate(made.len);
        stage = buffer;
    }
    Ok(histogram)
}

/// Compares the next stage of the first `count` files of a seed, most of which are damaged. The first
/// difference is printed and given back.
pub fn compare_nexts(other: Next, seed: u64, count: u64) -> Result<Histogram, Box<Difference>> {
    let mut histogram = NO_VERDICTS;
    for index in 0..count {
        let generated = next_case(seed, index);
        let name = format!("file {index} of seed {seed} ({})", generated.family);
        let number = compare_next(other, &name, &generated.case)
            .inspect_err(|difference| println!("{difference}"))?;
        histogram[number as usize] += 1;
    }
    Ok(histogram)
}

/// Compares the drawn references of the first `count` loads of a seed. The first difference is printed
/// and given back.
pub fn compare_draws(other: Draw, seed: u64, count: u64) -> Result<Histogram, Box<Difference>> {
    let mut histogram = NO_VERDICTS;
    for index in 0..count {
        let generated = draw_case(seed, index);
        let name = format!("load {index} of seed {seed} ({})", generated.family);
        let number = compare_draw(other, &name, &generated.case)
            .inspect_err(|difference| println!("{difference}"))?;
        histogram[number as usize] += 1;
    }
    Ok(histogram)
}

/// Compares the stage files of the first `count` texts of a seed. The first difference is printed
/// and given back.
pub fn compare_read_texts(
    other: Convert,
    seed: u64,
    count: u64,
) -> Result<Histogram, Box<Difference>> {
    compare_texts([text::read_text, other], ("text", read_case), seed, count)
}

/// Compares the texts of the first `count` stage files of a seed. The first difference is printed
/// and given back.
pub fn compare_write_texts(
    other: Convert,
    seed: u64,
    count: u64,
) -> Result<Histogram, Box<Difference>> {
    let cases = ("stage to write", write_case as fn(u64, u64) -> _);
    compare_texts([text::write_text, other], cases, seed, count)
}

fn compare_texts(
    calls: [Convert; 2],
    (what, case): (&str, fn(u64, u64) -> GeneratedText),
    seed: u64,
    count: u64,
) -> Result<Histogram, Box<Difference>> {
    let mut histogram = NO_VERDICTS;
    for index in 0..count {
        let generated = case(seed, index);
        let name = format!("{what} {index} of seed {seed} ({})", generated.family);
        let number = compare_text(calls, &name, &generated.case)
            .inspect_err(|difference| println!("{difference}"))?;
        histogram[number as usize] += 1;
    }
    Ok(histogram)
}

/// Compares the drawn references with all counts of inputs and gates up to their limits and some past
/// them, of seeds at which a sum passes 4,294,967,296 or just does not, in a buffer that is empty, one
/// byte too short, just fits, and has room to spare. The first difference is printed and given back.
pub fn compare_draws_at_limits(other: Draw) -> Result<Histogram, Box<Difference>> {
    let mut histogram = NO_VERDICTS;
    for seed in draws::SEEDS {
        for inputs in draws::limits_of_inputs() {
            for gates in draws::limits_of_gates() {
                let load = Load {
                    seed,
                    inputs,
                    gates,
                };
                let fits = draw::draw_reference(&load, &mut [0; 512]).len;
                for room in [0, fits.saturating_sub(1), fits, fits + 1, fits + 99] {
                    let case = DrawCase {
                        load,
                        buffer: vec![7; room],
                    };
                    let number = compare_draw(other, "a load at the limits", &case)
                        .inspect_err(|difference| println!("{difference}"))?;
                    histogram[number as usize] += 1;
                }
            }
        }
    }
    Ok(histogram)
}

/// What a program with these arguments prints for a pair of files in a folder that it runs in. An
/// empty file is left out if `leave_out` says so: "a missing file counting as empty".
pub fn run_program(
    program: &Path,
    arguments: &[&str],
    folder: &Path,
    pair: &FilePair,
    leave_out: bool,
) -> io::Result<String> {
    for (name, bytes) in [
        ("stage.ncl", &pair.stage),
        ("reference.ncl", &pair.reference),
    ] {
        let path = folder.join(name);
        if bytes.is_empty() && leave_out {
            match fs::remove_file(&path) {
                Err(error) if error.kind() != io::ErrorKind::NotFound => return Err(error),
                _ => {}
            }
        } else {
            fs::write(&path, bytes)?;
        }
    }
    let mut command = Command::new(program);
    let output = command.args(arguments).current_dir(folder).output()?;
    Ok(String::from_utf8_lossy(&output.stdout).into_owned())
}

/// What a program is to print for a stage file and a reference file, in an order of words.
pub type Expected = fn(WordOrder, &[u8], &[u8]) -> String;

/// The arguments of a program that is to name words in an order.
fn arguments(order: WordOrder) -> &'static [&'static str] {
    match order {
        WordOrder::Input0Highest => &[],
        WordOrder::Input0Lowest => &["lowest"],
    }
}

/// Compares what a program prints with what it is to print, on the first `count` pairs of a
/// seed, in both orders of words. The judge takes the first 8,192 bytes of each file, as the
/// program is to do. The first difference is printed and given back.
pub fn compare_program(
    program: &Path,
    expected: Expected,
    pairs: Pairs,
    folder: &Path,
    seed: u64,
    count: u64,
) -> io::Result<Result<Histogram, Box<Difference>>> {
    let mut histogram = NO_VERDICTS;
    let cut = |file: &[u8]| file[..file.len().min(MOST_BYTES_READ as usize)].to_vec();
    for index in 0..count {
        let generated = pairs(seed, index);
        let (stage, reference) = (cut(&generated.pair.stage), cut(&generated.pair.reference));
        for order in ORDERS {
            let leave_out = index % 2 == 0;
            let pair = &generated.pair;
            let printed = run_program(program, arguments(order), folder, pair, leave_out)?;
            let expected = expected(order, &stage, &reference);
            if printed == expected {
                histogram[judge::check(&stage, &reference)[0] as usize] += 1;
                continue;
            }
            let family = generated.family;
            let difference = Difference::Printed {
                name: format!("pair {index} of seed {seed} ({family}), {order:?}"),
                pair: generated.pair,
                expected,
                printed,
            };
            println!("{difference}");
            return Ok(Err(Box::new(difference)));
        }
    }
    Ok(Ok(histogram))
}

/// What `ncl_check` and `ncl_report` are to print.
pub fn expected_verdict(order: WordOrder, stage: &[u8], reference: &[u8]) -> String {
    verdict_line(judge::check_pipeline(order, stage, reference))
}

pub fn expected_report(order: WordOrder, stage: &[u8], reference: &[u8]) -> String {
    report_text(&judge::report_in_order(order, stage, reference))
}

/// Seed and count for a test: a fixed seed, unless the environment names another.
pub fn seed_and_count(count: u64) -> (u64, u64) {
    let number = |name: &str| {
        std::env::var(name)
            .ok()
            .map(|text| text.trim().parse().expect("a number"))
    };
    (
        number("FOVAHEJU_SEED").unwrap_or(20_261_115),
        number("FOVAHEJU_COUNT").unwrap_or(count),
    )
}
