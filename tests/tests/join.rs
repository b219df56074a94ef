//! The join of two stages (M-105 of document 02): the judge's joins, the generated ones, and the
//! stored cases.

use fovaheju_tests::compare::{
    compare_joins, lack, seed_and_count, Histogram, JoinInOrder, JOIN_NUMBERS,
};
use fovaheju_tests::explore::promise;
use fovaheju_tests::files::{hex, unhex, write_reference, write_stage, FilePair};
use fovaheju_tests::generate::joins::{join_case, JoinCase};
use fovaheju_tests::generate::{accepted, Random, Size};
use fovaheju_tests::join::{
    join, join_in_order, joined_reference, joined_stage, word_of_answer, Joined, PART_LIMITS,
    WHOLE_LIMITS,
};
use fovaheju_tests::judge::{
    accepted_unless_a_gate_never_rises, answer, check_within, is_relaxed, read_reference_within,
    read_stage_within, Limits, Reference, Stage, ACCEPTED, ORDERS,
};
use fovaheju_tests::suite::join::cases;
use std::collections::{BTreeMap, BTreeSet};

fn pair(stage: &str, reference: &str) -> FilePair {
    FilePair {
        stage: unhex(stage),
        reference: unhex(reference),
    }
}

/// A join into buffers of zeros, and the bytes that it writes.
fn joined(first: &FilePair, second: &FilePair) -> (Joined, FilePair) {
    let (mut stage, mut reference) = (vec![0; 8192], vec![0; 8192]);
    let joined = join(first, second, &mut stage, &mut reference);
    stage.truncate(joined.stage_len);
    reference.truncate(joined.reference_len);
    (joined, FilePair { stage, reference })
}

/// Joins whose bytes are written by hand from the paper.
#[test]
fn bytes_by_hand() {
    let wire = pair("01 01 03 00 00 01 00 00", "01 01 12 00 00 00");
    let and = pair(
        "01 02 02 02 01 00 03 00 FF FF FF FF 02 1A 00 00 02 00 01 00 03 00 03 05 00 04 00 00",
        "01 02 11 02 00 00 01 00 12 02 00 00",
    );
    let inverter = pair(
        "01 01 03 01 00 00 00 00",
        "01 01 11 01 00 00 FF FF 12 01 00 00",
    );
    // The inverter's input is the AND's output, nets 5 and 4, and signal 2.
    assert_eq!(
        joined(&and, &inverter).1,
        pair(
            "01 02 02 02 01 00 03 00 FF FF FF FF 02 1A 00 00 02 00 01 00 03 00 03 04 00 05 00 00",
            "01 02 11 02 00 00 01 00 11 01 02 00 FF FF 12 03 00 00",
        )
    );
    assert_eq!(joined(&wire, &wire).1, wire);
    // Outputs before gates, and a care word between: the whole has the care word first, then the
    // gates of both. Inputs a and b; the first gives a and NOT b, the second is the AND, with a
    // list of its own.
    let first = pair(
        "01 02 03 00 00 01 00 06 01 00 03 03 00 02 00 06 03 00 00",
        "01 02 12 00 00 12 02 00 11 01 01 00 FF FF 00",
    );
    let second = pair(
        "01 02 03 05 00 04 00 02 02 01 00 03 00 FF FF FF FF 06 01 00 \
         02 1A 00 00 02 00 01 00 03 00 06 03 00 00",
        "01 02 12 02 00 11 02 00 00 01 00 00",
    );
    // a = 1, b = 0 and a = 1, b = 1 are given as words 3 and 1.
    assert_eq!(
        joined(&first, &second).1,
        pair(
            "01 02 06 01 00 06 03 00 02 02 01 00 02 00 FF FF FF FF \
             02 1A 00 00 03 00 01 00 02 00 03 05 00 04 00 00",
            "01 02 11 01 01 00 FF FF 11 02 00 00 02 00 12 03 00 00",
        )
    );
    // The first gives a and a AND b, the second is the AND: its gates are nets 6 and 7 of the
    // whole, behind the first's two.
    let first = pair(
        "01 02 02 02 01 00 03 00 FF FF FF FF 02 1A 00 00 02 00 01 00 03 00 \
         03 00 00 01 00 03 05 00 04 00 00",
        "01 02 11 02 00 00 01 00 12 00 00 12 02 00 00",
    );
    assert_eq!(
        joined(&first, &and).1,
        pair(
            "01 02 02 02 01 00 03 00 FF FF FF FF 02 1A 00 00 02 00 01 00 03 00 \
             02 02 01 00 04 00 FF FF FF FF 02 1A 00 00 05 00 01 00 04 00 03 07 00 06 00 00",
            "01 02 11 02 00 00 01 00 11 02 00 00 02 00 12 03 00 00",
        )
    );
}

/// A refusal leaves both buffers as they are; a join leaves the bytes past each end. What is known
/// by the way a join was made agrees.
#[test]
fn generated_joins() {
    let (seed, count) = seed_and_count(4_000);
    let mut histogram: BTreeMap<(u64, u64), u64> = BTreeMap::new();
    let (mut small, mut relaxed, mut with_list, mut most) = (0, 0, 0, 0);
    for index in 0..count {
        let generated = join_case(seed, index);
        let case = generated.case;
        let (mut stage, mut reference) = (case.stage.clone(), case.reference.clone());
        let joined = join(&case.first, &case.second, &mut stage, &mut reference);
        let about = format!("join {index} of seed {seed} ({})", generated.family);
        assert!(
            generated.known.agrees(joined.verdict),
            "{about}: known {:?}, judged {:?}",
            generated.known,
            joined.verdict
        );
        let [number, file, ..] = joined.verdict;
        *histogram.entry((number, file)).or_default() += 1;
        assert_eq!(stage[joined.stage_len..], case.stage[joined.stage_len..]);
        let past = joined.reference_len;
        assert_eq!(reference[past..], case.reference[past..]);
        if number != 0 {
            assert_eq!((joined.stage_len, joined.reference_len), (0, 0), "{about}");
            continue;
        }
        let whole = FilePair {
            stage: stage[..joined.stage_len].to_vec(),
            reference: reference[..past].to_vec(),
        };
        let (stage, reference) = accepted_whole(&case, &whole, &about);
        relaxed += u64::from(stage.gates.iter().any(|gate| is_relaxed(gate.kind)));
        with_list += u64::from(!stage.care.is_empty());
        most = most.max(stage.gates.len());
        // "Its runs obey everything said of a stage."
        if stage.nets() <= 20 && stage.inputs <= 3 {
            if let Some(promised) = promise(&stage, &reference) {
                promised.unwrap_or_else(|broken| panic!("{about}: {broken:?}"));
                small += 1;
            }
        }
    }
    println!(
        "{count} joins of seed {seed}: {histogram:?}; of the wholes the runs of {small} were \
         played, {relaxed} have relaxed gates, {with_list} a list, at most {most} gates"
    );
    if count >= 4_000 {
        for number in [22, 23, 24] {
            let file = if number == 24 { 3 } else { 0 };
            assert!(histogram[&(number, file)] >= 150, "{number}");
        }
        // Each number of a part in the first or in the second.
        for number in (1..=15).chain([18, 19, 20, 21, 32]) {
            let file = match number {
                10 | 11 => 0,
                _ => 1,
            };
            let seen = |file| histogram.contains_key(&(number, file));
            assert!(seen(file) || seen(file + 3), "{number}");
        }
        assert!(3 * histogram[&(0, 0)] >= count, "a third is accepted");
        assert!(small >= 500 && relaxed >= 200 && with_list >= 250);
        assert_eq!(most, 256);
    }
}

/// "The whole is accepted", within the limits of the whole and "unless a gate never rises", and
/// answers what the second part answers to the first part's answer.
fn accepted_whole(case: &JoinCase, whole: &FilePair, about: &str) -> (Stage, Reference) {
    let verdict = check_within(WHOLE_LIMITS, &whole.stage, &whole.reference);
    let files = || {
        format!(
            "stage {}\nreference {}",
            hex(&whole.stage),
            hex(&whole.reference)
        )
    };
    let reference = |file: &[u8]| read_reference_within(WHOLE_LIMITS, file).unwrap();
    let stage = |file: &[u8]| read_stage_within(WHOLE_LIMITS, file).unwrap();
    let expected = accepted_unless_a_gate_never_rises(&stage(&whole.stage));
    assert_eq!(verdict, expected, "{about}\n{}", files());
    let [first, second, both] =
        [&case.first, &case.second, whole].map(|pair| reference(&pair.reference));
    let [first_stage, second_stage, both_stage] =
        [&case.first, &case.second, whole].map(|pair| stage(&pair.stage));
    assert_eq!(both_stage.care, first_stage.care, "{about}");
    assert_eq!(both_stage.inputs, first_stage.inputs, "{about}");
    for word in both_stage.words() {
        let between = word_of_answer(&answer(&first, word));
        assert!(second_stage.words().contains(&between), "{about}");
        assert_eq!(answer(&both, word), answer(&second, between), "{about}");
    }
    // The whole is written in its order, so writing what was read gives the same bytes.
    assert_eq!(write_stage(&both_stage), whole.stage, "{about}");
    assert_eq!(write_reference(&both), whole.reference, "{about}");
    // Gates of the parts keep their kinds and operations, the first part's first.
    let kinds = |stage: &Stage| -> Vec<usize> { stage.gates.iter().map(|g| g.kind).collect() };
    assert_eq!(
        kinds(&both_stage),
        [kinds(&first_stage), kinds(&second_stage)].concat()
    );
    let operations =
        |r: &Reference| -> Vec<usize> { r.gates.iter().map(|g| g.operation).collect() };
    assert_eq!(
        operations(&both),
        [operations(&first), operations(&second)].concat()
    );
    (both_stage, both)
}

/// Three stages in a row are the same stage from either side, where each part is within the limits.
#[test]
fn joins_in_a_row() {
    let random = &mut Random::new(105, 0);
    let mut tried = 0;
    for _ in 0..3_000 {
        let parts: Vec<(Stage, Reference)> =
            (0..3).map(|_| accepted(random, Size::Small)).collect();
        let fit = |k: usize| parts[k].0.outputs.len() == parts[k + 1].0.inputs;
        if !fit(0) || !fit(1) {
            continue;
        }
        let stages = |a: &Stage, b: &Stage| joined_stage(a, b);
        let [a, b, c] = [0, 1, 2].map(|k| &parts[k].0);
        assert_eq!(stages(&stages(a, b), c), stages(a, &stages(b, c)));
        let [a, b, c] = [0, 1, 2].map(|k| &parts[k].1);
        let left = joined_reference(&joined_reference(a, b), c);
        assert_eq!(left, joined_reference(a, &joined_reference(b, c)));
        tried += 1;
    }
    assert!(tried >= 100, "{tried}");
}

/// "The reader's limits rise": a file that is too long for a part can be a whole, and 6 moves.
#[test]
fn limits_are_a_value() {
    let case = cases()
        .into_iter()
        .find(|case| case.about == "129 gates first")
        .expect("a case at the limit")
        .case;
    let [stage, reference] = [&case.first.stage, &case.first.reference];
    assert_eq!(check_within(PART_LIMITS, stage, reference), [6, 1, 1282, 0]);
    assert_eq!(check_within(WHOLE_LIMITS, stage, reference), ACCEPTED);
    let none = Limits {
        stage_gates: 0,
        reference_gates: 0,
    };
    assert_eq!(check_within(none, stage, reference), [6, 1, 2, 0]);
    let less = Limits {
        reference_gates: 255,
        ..WHOLE_LIMITS
    };
    assert_eq!(check_within(less, stage, reference), [6, 2, 2 + 6 * 255, 0]);
}

/// The judge's verdicts are those written by hand, and every number has cases.
#[test]
fn stored_cases() {
    let cases = cases();
    let mut seen = BTreeSet::new();
    for case in &cases {
        let JoinCase { first, second, .. } = &case.case;
        let verdict_in = |order| {
            let (mut stage, mut reference) = (case.case.stage.clone(), case.case.reference.clone());
            join_in_order(order, first, second, &mut stage, &mut reference).verdict
        };
        let [by_default, verdict] = ORDERS.map(verdict_in);
        assert!(
            case.known.agrees(verdict),
            "{}: {verdict:?}, not {:?}",
            case.about,
            case.known
        );
        assert_eq!(by_default[0], verdict[0], "{}", case.about);
        seen.insert((verdict[0], verdict[1]));
    }
    for number in 1..=9 {
        for file in [1, 2, 4, 5] {
            assert!(seen.contains(&(number, file)), "{number} {file}");
        }
    }
    for number in [12, 13, 14, 15, 18, 19, 20, 21, 32] {
        assert!(
            seen.contains(&(number, 1)) && seen.contains(&(number, 4)),
            "{number}"
        );
    }
    for place in [
        (10, 0),
        (10, 3),
        (11, 0),
        (11, 3),
        (22, 0),
        (23, 0),
        (24, 3),
        (0, 0),
    ] {
        assert!(seen.contains(&place), "{place:?}");
    }
}

/// Of the comparison itself: the judge agrees with itself, and the joins have all numbers.
#[test]
fn the_judge_agrees_with_itself() {
    let histogram: Histogram = compare_joins(join_in_order, 11, 2_500).unwrap();
    assert_eq!(lack(&histogram, &JOIN_NUMBERS), None);
}

/// Joins that are wrong in one way each are told from the judge's.
#[test]
fn wrong_joins_are_told() {
    let wrong: [(&str, JoinInOrder); 10] = [
        (
            "the second part first",
            |order, first, second, stage, reference| {
                let empty = (&mut [][..], &mut [][..]);
                let later = join_in_order(order, second, first, empty.0, empty.1).verdict;
                let joined = join_in_order(order, first, second, stage, reference);
                match (joined.verdict, later) {
                    ([1..=21, 1..=2, ..], [number @ 1..=21, file @ 1..=2, at, word]) => Joined {
                        verdict: [number, file + 3, at, word],
                        ..joined
                    },
                    _ => joined,
                }
            },
        ),
        (
            "3 not added to 10 and 11",
            |order, first, second, stage, reference| {
                let mut joined = join_in_order(order, first, second, stage, reference);
                if joined.verdict[1] == 3 && joined.verdict[0] < 12 {
                    joined.verdict[1] = 0;
                }
                joined
            },
        ),
        (
            "the stage's file for the reference's",
            |order, first, second, stage, reference| {
                let mut joined = join_in_order(order, first, second, stage, reference);
                if joined.verdict[1] == 5 {
                    joined.verdict[1] = 4;
                }
                joined
            },
        ),
        (
            "22 the other way round",
            |order, first, second, stage, reference| {
                let mut joined = join_in_order(order, first, second, stage, reference);
                if joined.verdict[0] == 22 {
                    joined.verdict.swap(2, 3);
                }
                joined
            },
        ),
        (
            "23 names the answer",
            |order, first, second, stage, reference| {
                let mut joined = join_in_order(order, first, second, stage, reference);
                if let [23, _, _, word] = joined.verdict {
                    let reference = read_reference_within(PART_LIMITS, &first.reference).unwrap();
                    joined.verdict[3] = word_of_answer(&answer(&reference, word));
                }
                joined
            },
        ),
        (
            "24 before 22 and 23",
            |order, first, second, stage, reference| {
                let short = stage.is_empty() || reference.is_empty();
                let mut joined = join_in_order(order, first, second, stage, reference);
                if short && joined.verdict[0] >= 22 {
                    joined.verdict = [24, 3, 0, 0];
                }
                joined
            },
        ),
        (
            "the stage written under 24",
            |order, first, second, stage, reference| {
                let mut whole = [vec![0; 8192], vec![0; 8192]];
                let [all, rest] = &mut whole;
                let full = join_in_order(order, first, second, all, rest);
                let joined = join_in_order(order, first, second, stage, reference);
                if joined.verdict[0] == 24 && stage.len() >= full.stage_len {
                    stage[..full.stage_len].copy_from_slice(&whole[0][..full.stage_len]);
                }
                joined
            },
        ),
        (
            "a byte past the end",
            |order, first, second, stage, reference| {
                let joined = join_in_order(order, first, second, stage, reference);
                if joined.verdict == ACCEPTED && stage.len() > joined.stage_len {
                    stage[joined.stage_len] = 0;
                }
                joined
            },
        ),
        (
            "the limits of the whole for the parts",
            |order, first, second, stage, reference| {
                let mut joined = join_in_order(order, first, second, stage, reference);
                if joined.verdict[0] == 6 && joined.verdict[2] == 1282 {
                    joined.verdict = ACCEPTED;
                }
                joined
            },
        ),
        (
            "the second's care list written too",
            |order, first, second, stage, reference| {
                let list = read_stage_within(PART_LIMITS, &second.stage).map(|stage| stage.care);
                let mut joined = join_in_order(order, first, second, stage, reference);
                if joined.verdict == ACCEPTED && list.is_ok_and(|list| !list.is_empty()) {
                    joined.stage_len += 3;
                }
                joined
            },
        ),
    ];
    for (about, join) in wrong {
        assert!(compare_joins(join, 105, 3_000).is_err(), "{about}");
    }
}
