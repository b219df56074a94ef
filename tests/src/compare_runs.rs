//! Another implementation of the calls that hand out and judge runs against the judge.

use crate::compare::{Difference, Histogram, NO_VERDICTS};
use crate::generate::runs::{keys_case, play_case, witness_case, KeysCase, PlayCase, WitnessCase};
use crate::judge::{WordOrder, ORDERS};
use crate::run::{self, Handed, Played};
use std::fmt::Debug;

/// The witness of two files for a name, into a lent list.
pub type Witness = fn(WordOrder, &[u8], &[u8], u64, &mut [u16]) -> Handed;

/// A list of switchings of a stage file and a name, with the place where the fall begins, and a lent row.
pub type Play = fn(WordOrder, &[u8], u64, usize, &[u16], &mut [u8]) -> Played;

/// A run of a stage file and a name by keys, into a lent list.
pub type ByKeys = fn(WordOrder, &[u8], u64, &[u32], &mut [u16]) -> Handed;

/// The numbers of the call that judges a list and of the run by keys.
pub const PLAY_NUMBERS: [usize; 14] = [0, 1, 2, 3, 4, 5, 6, 7, 8, 9, 18, 19, 12, 16];

fn alike<T: PartialEq + Debug>(name: &str, order: WordOrder, stage: &[u8], case: &dyn Debug, judge: T, other: T) -> Result<(), Box<Difference>> {
    if judge == other {
        return Ok(());
    }
    Err(differs(name, order, stage, format!("{case:?}\njudge {judge:?}\nother {other:?}")))
}

fn differs(name: &str, order: WordOrder, stage: &[u8], told: String) -> Box<Difference> {
    Box::new(Difference::Runs {
        name: name.to_string(),
        order,
        stage: stage.to_vec(),
        told,
    })
}

/// Compares the witness; what the other hands out is played too, and has to show what the verdict says.
pub fn compare_witness(other: Witness, order: WordOrder, name: &str, case: &WitnessCase) -> Result<u64, Box<Difference>> {
    let (stage, reference) = (&case.pair.stage, &case.pair.reference);
    let (mut mine, mut theirs) = (case.list.clone(), case.list.clone());
    let judge = run::witness(order, stage, reference, case.asked, &mut mine);
    let answer = other(order, stage, reference, case.asked, &mut theirs);
    run::shows_of_files(order, stage, reference, case.asked, &answer, &theirs)
        .map_err(|told| differs(name, order, stage, format!("{told}: {case:?}\n{answer:?} {theirs:?}")))?;
    alike(name, order, stage, case, (judge, mine), (answer, theirs))?;
    Ok(judge.verdict[0])
}

pub fn compare_play(other: Play, order: WordOrder, name: &str, case: &PlayCase) -> Result<u64, Box<Difference>> {
    let (mut mine, mut theirs) = (case.row.clone(), case.row.clone());
    let judge = run::play(order, &case.stage, case.name, case.fall, &case.list, &mut mine);
    let answer = other(order, &case.stage, case.name, case.fall, &case.list, &mut theirs);
    alike(name, order, &case.stage, case, (judge, mine), (answer, theirs))?;
    Ok(judge.verdict[0])
}

pub fn compare_by_keys(other: ByKeys, order: WordOrder, name: &str, case: &KeysCase) -> Result<u64, Box<Difference>> {
    let (mut mine, mut theirs) = (case.list.clone(), case.list.clone());
    let judge = run::run_by_keys(order, &case.stage, case.name, &case.keys, &mut mine);
    let answer = other(order, &case.stage, case.name, &case.keys, &mut theirs);
    alike(name, order, &case.stage, case, (judge, mine), (answer, theirs))?;
    Ok(judge.verdict[0])
}

/// Compares a call on the first `count` cases of a seed, in both orders of words. The first difference is printed and given back.
fn compare_all(
    what: &str,
    seed: u64,
    count: u64,
    compare: &dyn Fn(WordOrder, &str, u64) -> Result<u64, Box<Difference>>,
) -> Result<Histogram, Box<Difference>> {
    let mut histogram = NO_VERDICTS;
    for index in 0..count {
        let name = format!("{what} {index} of seed {seed}");
        for order in ORDERS {
            let number = compare(order, &name, index).inspect_err(|difference| println!("{difference}"))?;
            histogram[number as usize] += 1;
        }
    }
    Ok(histogram)
}

pub fn compare_witnesses(other: Witness, seed: u64, count: u64) -> Result<Histogram, Box<Difference>> {
    compare_all("witness", seed, count, &|order, name, index| compare_witness(other, order, name, &witness_case(seed, index)))
}

pub fn compare_plays(other: Play, seed: u64, count: u64) -> Result<Histogram, Box<Difference>> {
    compare_all("list", seed, count, &|order, name, index| compare_play(other, order, name, &play_case(seed, index)))
}

pub fn compare_runs_by_keys(other: ByKeys, seed: u64, count: u64) -> Result<Histogram, Box<Difference>> {
    compare_all("run by keys", seed, count, &|order, name, index| compare_by_keys(other, order, name, &keys_case(seed, index)))
}

#[cfg(test)]
mod tests {
    use super::*;

    /// The generated lists are judged by their parts: some are played to the end, some are barred, in the rise and in the fall.
    #[test]
    fn lists_of_all_sorts_are_generated() {
        let (mut full, mut in_rise, mut in_fall) = (0, 0, 0);
        for index in 0..400 {
            let case = play_case(7, index);
            let mut row = case.row.clone();
            for order in ORDERS {
                let played = run::play(order, &case.stage, case.name, case.fall, &case.list, &mut row);
                let steps = played.steps as usize;
                match played.verdict[0] {
                    0 if steps == case.list.len() => full += 1,
                    0 if steps < case.fall => in_rise += 1,
                    0 => in_fall += 1,
                    _ => {}
                }
            }
        }
        assert!(full > 40 && in_rise > 40 && in_fall > 20, "{full} {in_rise} {in_fall}");
    }
}
