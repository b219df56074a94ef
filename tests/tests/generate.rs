//! The generated pairs and rows: every verdict comes, and where the way a pair was
//! made fixes its verdict, the judge gives that one.
//!
//! FOVAHEJU_SEED and FOVAHEJU_COUNT name another seed and count.

use fovaheju_tests::circuits::reordered;
use fovaheju_tests::compare::seed_and_count;
use fovaheju_tests::files::{hex, write_reference, write_stage};
use fovaheju_tests::generate::{accepted, pair, row_case, Random, Size};
use fovaheju_tests::judge::{
    check, is_settled, least_gate_on_a_loop, read_reference, read_stage, settled_row, ACCEPTED,
};
use std::collections::BTreeMap;

#[test]
fn every_verdict_comes_and_known_ones_agree() {
    let (seed, count) = seed_and_count(20_000);
    let mut histogram: BTreeMap<(u64, u64), u64> = BTreeMap::new();
    let mut small = 0;
    let mut long = 0;
    for index in 0..count {
        let generated = pair(seed, index);
        let verdict = check(&generated.pair.stage, &generated.pair.reference);
        assert!(
            generated.known.agrees(verdict),
            "pair {index} of seed {seed} ({}): known {:?}, judged {verdict:?}\nstage {}\nreference {}",
            generated.family,
            generated.known,
            hex(&generated.pair.stage),
            hex(&generated.pair.reference),
        );
        *histogram.entry((verdict[0], verdict[1])).or_default() += 1;
        let lengths = [generated.pair.stage.len(), generated.pair.reference.len()];
        small += u64::from(lengths.iter().all(|&length| length <= 120));
        long += u64::from(lengths.iter().any(|&length| length > 8_192));
        // The cut at 8,192 bytes is not seen.
        if lengths.iter().any(|&length| length > 8_192) {
            let [stage, reference] = [&generated.pair.stage, &generated.pair.reference];
            let cut = |file: &Vec<u8>| file[..file.len().min(8_192)].to_vec();
            assert_eq!(
                check(&cut(stage), &cut(reference)),
                verdict,
                "pair {index} of seed {seed}, cut"
            );
        }
    }
    println!("{count} pairs of seed {seed}: {small} small, {long} long, {histogram:?}");
    if count >= 20_000 {
        for number in 1..=9 {
            for file in 1..=2 {
                assert!(
                    histogram.contains_key(&(number, file)),
                    "{number} in file {file}"
                );
            }
        }
        for number in [10, 11] {
            assert!(histogram.contains_key(&(number, 0)), "{number}");
        }
        for number in [12, 13, 14, 15, 18, 19, 20, 21, 28, 32] {
            assert!(histogram.contains_key(&(number, 1)), "{number}");
        }
        assert!(2 * small >= count, "half of the pairs are small");
        assert!(5 * histogram[&(0, 0)] >= count, "a fifth is accepted");
        assert!(long > 0);
    }
}

#[test]
fn rows_settle_or_stay() {
    let (seed, count) = seed_and_count(10_000);
    let mut histogram: BTreeMap<u64, u64> = BTreeMap::new();
    for index in 0..count {
        let case = row_case(seed, index);
        let mut row = case.row.clone();
        let verdict = settled_row(&case.stage, &mut row);
        *histogram.entry(verdict[0]).or_default() += 1;
        if verdict != ACCEPTED {
            assert_eq!(row, case.row, "row case {index} of seed {seed}");
            continue;
        }
        let stage = read_stage(&case.stage).unwrap();
        let first = 2 * stage.inputs;
        assert_eq!(
            row[..first],
            case.row[..first],
            "row case {index} of seed {seed}"
        );
        assert!(row[first..].iter().all(|&byte| byte <= 1));
        let levels: Vec<bool> = row.iter().map(|&byte| byte == 1).collect();
        assert!(
            is_settled(&stage, &levels, None),
            "row case {index} of seed {seed}"
        );
    }
    println!("{count} rows of seed {seed}: {histogram:?}");
    if count >= 10_000 {
        for number in [0, 1, 2, 3, 4, 5, 6, 7, 8, 9, 18, 19, 12, 16, 17] {
            assert!(histogram.contains_key(&number), "{number}");
        }
    }
}

#[test]
fn the_same_seed_gives_the_same_pairs() {
    for index in 0..200 {
        assert_eq!(pair(3, index).pair, pair(3, index).pair);
        assert_eq!(row_case(3, index), row_case(3, index));
    }
    assert!((0..200).any(|index| pair(3, index).pair != pair(4, index).pair));
    // The first numbers of the generator, so that stored seeds keep their meaning.
    let mut random = Random::new(1, 0);
    let first: Vec<u64> = (0..2).map(|_| random.number()).collect();
    assert_eq!(
        first,
        [6_791_897_765_849_424_158, 17_405_687_883_870_564_846]
    );
}

/// Another order of the gates changes no verdict but for the gate named, and what is
/// read is what was written.
#[test]
fn order_of_gates_does_not_matter() {
    let (seed, _) = seed_and_count(0);
    for index in 0..2_500 {
        let generated = pair(seed, index);
        let Ok(stage) = read_stage(&generated.pair.stage) else {
            continue;
        };
        let Ok(reference) = read_reference(&generated.pair.reference) else {
            continue;
        };
        if stage.inputs > 5 || stage.gates.is_empty() {
            continue;
        }
        let random = &mut Random::new(seed, index);
        let mut order: Vec<usize> = (0..stage.gates.len()).collect();
        random.shuffle(&mut order);
        let other = reordered(&stage, &order);
        let (a, b) = (
            check(&generated.pair.stage, &generated.pair.reference),
            check(&write_stage(&other), &write_reference(&reference)),
        );
        assert_eq!(a[0], b[0], "pair {index} of seed {seed}");
        match a[0] {
            // The least gate in the new order may be another one, of the same word.
            15 | 21 => assert_eq!(a[3], b[3], "pair {index} of seed {seed}"),
            // So may the least gate of a retired kind, and the least that never rises.
            28 | 32 => {}
            12 => assert!(least_gate_on_a_loop(&other).is_some()),
            _ => assert_eq!(a, b, "pair {index} of seed {seed}"),
        }
    }
}

/// The pairs accepted by the way they are made use all 27 kinds.
#[test]
fn accepted_stages_use_all_kinds() {
    let random = &mut Random::new(1, 1);
    let mut seen = [0u32; 28];
    for _ in 0..400 {
        let (stage, _) = accepted(random, Size::Small);
        for gate in stage.gates {
            seen[gate.kind] += 1;
        }
    }
    assert!(seen[1..].iter().all(|&count| count > 0), "{seen:?}");
}
