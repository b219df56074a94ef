//! Another implementation against the judge on pairs whose stage has registers and C-elements (document 02, M-111): its check, and
//! all its other calls, which do not read these two commands.

use crate::compare::{
    compare_checks_of, compare_join, compare_next, compare_report, compare_row, compare_write_text, CheckInOrder, Convert,
    Difference, Histogram, JoinInOrder, Next, ReportInOrder, SettledRow, NO_VERDICTS,
};
use crate::compare_runs::{compare_by_keys, compare_play, compare_witness, ByKeys, Play, Witness};
use crate::files::{unhex, FilePair};
use crate::generate::joins::JoinCase;
use crate::generate::nexts::NextCase;
use crate::generate::pipelines::pipeline_pair;
use crate::generate::runs::{KeysCase, PlayCase, WitnessCase};
use crate::generate::texts::TextCase;
use crate::generate::RowCase;
use crate::judge::{WordOrder, ORDERS};

/// The numbers of the check that come on such pairs.
pub const PIPELINE_NUMBERS: [usize; 21] = [0, 1, 2, 3, 4, 5, 6, 7, 8, 9, 12, 33, 34, 35, 28, 13, 14, 15, 20, 21, 32];

/// Numbers that are to come in one of so many cases.
fn too_few(histogram: &Histogram, shares: &[(usize, u64)]) -> Option<String> {
    let count: u64 = histogram.iter().sum();
    let few = shares.iter().find(|&&(number, part)| part * histogram[number] < count);
    few.map(|&(number, _)| format!("only {} of {count} have {number}", histogram[number]))
}

/// What checks of such pairs lack: a number, accepted ones, or 33, 34 and 35.
pub fn lack_of_pipelines(histogram: &Histogram) -> Option<String> {
    let missing = PIPELINE_NUMBERS.iter().find(|&&number| histogram[number] == 0);
    let missing = missing.map(|number| format!("no case has number {number}"));
    missing.or_else(|| too_few(histogram, &[(0, 8), (33, 8), (34, 20), (35, 20)]))
}

/// What the other calls lack on such pairs: mostly they answer 2.
pub fn lack_of_other_calls(histogram: &Histogram) -> Option<String> {
    too_few(histogram, &[(2, 2)])
}

/// Compares the check on the first `count` such pairs of a seed, in both orders of words. The first difference is printed and given
/// back.
pub fn compare_pipelines(other: CheckInOrder, seed: u64, count: u64) -> Result<Histogram, Box<Difference>> {
    compare_checks_of(pipeline_pair, other, seed, count)
}

/// All calls that take a stage, but the check.
#[derive(Clone, Copy)]
pub struct OtherCalls {
    pub report: ReportInOrder,
    pub settled_row: SettledRow,
    pub join: JoinInOrder,
    pub write_text: Convert,
    pub next: Next,
    pub witness: Witness,
    pub play: Play,
    pub by_keys: ByKeys,
}

/// A wire with its reference.
fn wire() -> FilePair {
    FilePair {
        stage: unhex("01 01 03 00 00 01 00 00"),
        reference: unhex("01 01 12 00 00 00"),
    }
}

/// Compares each of these calls on one pair, a join with the pair as its first part and as its second; gives the number that they
/// answer of the stage.
pub fn compare_other_calls(calls: &OtherCalls, order: WordOrder, name: &str, pair: &FilePair) -> Result<u64, Box<Difference>> {
    let stage = pair.stage.clone();
    let row = RowCase {
        stage: stage.clone(),
        row: vec![0; 2],
    };
    let text = TextCase {
        source: stage.clone(),
        buffer: vec![7; 12_000],
    };
    let next = NextCase {
        stage: stage.clone(),
        buffer: vec![7; 28],
    };
    let join = |first: FilePair, second: FilePair| JoinCase {
        first,
        second,
        stage: vec![7; 6_000],
        reference: vec![7; 4_000],
    };
    let witness = WitnessCase {
        pair: pair.clone(),
        asked: 1,
        list: vec![7; 552],
    };
    let play = PlayCase {
        stage: stage.clone(),
        name: 1,
        fall: 1,
        list: vec![1, 0],
        row: vec![7; 2],
    };
    let keys = KeysCase {
        stage,
        name: 1,
        keys: vec![3, 2, 1, 0],
        list: vec![7; 4],
    };
    compare_report(calls.report, order, name, pair)?;
    compare_write_text(calls.write_text, name, &text)?;
    compare_next(calls.next, name, &next)?;
    compare_join(calls.join, order, name, &join(pair.clone(), wire()))?;
    compare_join(calls.join, order, name, &join(wire(), pair.clone()))?;
    compare_witness(calls.witness, order, name, &witness)?;
    compare_play(calls.play, order, name, &play)?;
    compare_by_keys(calls.by_keys, order, name, &keys)?;
    compare_row(calls.settled_row, name, &row)
}

/// The same on the first `count` pairs of a seed, in both orders of words. The first difference is printed and given back.
pub fn compare_all_other_calls(calls: &OtherCalls, seed: u64, count: u64) -> Result<Histogram, Box<Difference>> {
    let mut histogram = NO_VERDICTS;
    for index in 0..count {
        let generated = pipeline_pair(seed, index);
        let name = format!("other calls on pair {index} of seed {seed} ({})", generated.family);
        for order in ORDERS {
            let number =
                compare_other_calls(calls, order, &name, &generated.pair).inspect_err(|difference| println!("{difference}"))?;
            histogram[number as usize] += 1;
        }
    }
    Ok(histogram)
}
