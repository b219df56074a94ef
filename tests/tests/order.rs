//! The order of words (M-106 of document 02): which word is named, how, and what is not turned.

use fovaheju_tests::circuits::{ReferenceBuilder, Signal, StageBuilder};
use fovaheju_tests::compare::{
    compare_joins, compare_reports, first_difference_in, judged_counts, seed_and_count,
    CheckInOrder, Counts, JoinInOrder, ReportInOrder,
};
use fovaheju_tests::explore::witness;
use fovaheju_tests::files::{unhex, write_pair, write_stage, FilePair};
use fovaheju_tests::generate::joins::join_case;
use fovaheju_tests::generate::pair;
use fovaheju_tests::join::{join, join_in_order, word_of_answer};
use fovaheju_tests::judge::{
    answer, check, check_in_order, check_pipeline, read_reference, read_stage, report, report_in_order, Stage,
    Verdict, WordOrder, ACCEPTED, LIMITS, ORDERS,
};
use fovaheju_tests::suite::report::line;
use std::collections::BTreeMap;

/// The check of a caller that sets no mark.
fn check_by_default(stage: &[u8], reference: &[u8]) -> Verdict {
    check_pipeline(WordOrder::default(), stage, reference)
}

/// Names by hand: input 0 is the leftmost digit.
#[test]
fn names() {
    let named = |inputs, word| WordOrder::default().named(inputs, word);
    // Bit i is input i, so 1 has input 0 alone.
    assert_eq!([1, 2, 3].map(|inputs| named(inputs, 1)), [1, 2, 4]);
    assert_eq!([0, 1, 2, 3].map(|word| named(2, word)), [0, 2, 1, 3]);
    assert_eq!(named(4, 0b0011), 0b1100);
    assert_eq!(named(10, 1), 512);
    assert_eq!(named(10, 0b11_0100_0000), 0b00_0000_1011);
    for inputs in 1..=10 {
        for word in 0..1 << inputs {
            let name = named(inputs, word);
            assert!(name < 1 << inputs);
            assert_eq!(named(inputs, name), word);
            for input in 0..inputs {
                assert_eq!(name >> (inputs - 1 - input) & 1, word >> input & 1);
            }
            assert_eq!(WordOrder::Input0Lowest.named(inputs, word), word);
        }
    }
}

/// Verdicts by hand, by default and with the mark set.
#[test]
fn verdicts_by_hand() {
    // OR with TH12 for rail 1: with one input 1, the other is not waited for. By default 01 is
    // named, in which input 1 is 1 and input 0 may be missing; 10 comes after it.
    let mut s = StageBuilder::new(2);
    let out = s.or_incomplete(s.input(0), s.input(1));
    s.output(out);
    let mut r = ReferenceBuilder::new(2);
    let signal = r.or(0, 1);
    r.output(signal);
    let or = write_pair(&s.stage, &r.reference);
    assert_eq!(check(&or.stage, &or.reference), [14, 1, 1, 1]);
    assert_eq!(check_by_default(&or.stage, &or.reference), [14, 1, 0, 1]);
    // A list keeps its words: 1 is input 0, and its name is 10, which is 2.
    s.stage.care = vec![0, 1];
    let or = write_pair(&s.stage, &r.reference);
    assert_eq!(check(&or.stage, &or.reference), [14, 1, 1, 1]);
    assert_eq!(check_by_default(&or.stage, &or.reference), [14, 1, 1, 2]);
    // Wrong in the words 1 and 6 of three inputs: 100 and 011.
    let mut s = StageBuilder::new(3);
    let values: Vec<bool> = (0..8).map(|word| word == 1 || word == 6).collect();
    s.sum_of_words(&[values]);
    let mut r = ReferenceBuilder::new(3);
    let zero = r.xor(0, 0);
    r.output(zero);
    let wrong = write_pair(&s.stage, &r.reference);
    assert_eq!(check(&wrong.stage, &wrong.reference), [13, 1, 0, 1]);
    assert_eq!(
        check_by_default(&wrong.stage, &wrong.reference),
        [13, 1, 0, 3]
    );
    // Counts are not turned, and 18 is about the file's number.
    let wire = unhex("01 01 03 00 00 01 00 00");
    assert_eq!(
        check_by_default(&wire, &unhex("01 02 12 00 00 00")),
        [10, 0, 1, 2]
    );
    let three = unhex("01 01 12 00 00 12 00 00 12 00 00 00");
    assert_eq!(check_by_default(&wire, &three), [11, 0, 1, 3]);
    let list = |word: u8| [&[1, 2, 6, word, 0][..], &wire[2..]].concat();
    assert_eq!(check_by_default(&list(4), &[]), [18, 1, 3, 0]);
    assert_eq!(check_by_default(&list(2), &[]), [1, 2, 0, 0]);
}

/// A chain of i + 1 gates on rail 1 of input i: a word reports the sum over its inputs.
#[test]
fn reports_by_hand() {
    let mut s = StageBuilder::new(3);
    let mut r = ReferenceBuilder::new(3);
    for (i, input) in s.inputs().into_iter().enumerate() {
        let mut rail_1 = input.rail_1;
        for _ in 0..=i {
            rail_1 = s.gate("TH22", &[rail_1, rail_1]);
        }
        s.output(Signal { rail_1, ..input });
        r.output(i);
    }
    let all = write_pair(&s.stage, &r.reference);
    let by_default = WordOrder::default();
    assert_eq!(
        line(by_default, &all),
        "0:0 1:3 2:2 3:5 4:1 5:4 6:3 7:6 total 24"
    );
    let marked = WordOrder::Input0Lowest;
    assert_eq!(
        line(marked, &all),
        "0:0 1:1 2:2 3:3 4:3 5:4 6:5 7:6 total 24"
    );
    s.stage.care = vec![1, 5, 6];
    let some = write_pair(&s.stage, &r.reference);
    assert_eq!(line(by_default, &some), "3:5 4:1 5:4 total 10");
    assert_eq!(line(marked, &some), "1:1 5:4 6:5 total 10");
}

/// 23 by hand: the name of the first part's word is turned, and the second's list is not.
#[test]
fn joins_by_hand() {
    let wires = |care: &[u64]| {
        let mut s = StageBuilder::new(2);
        s.stage.care = care.to_vec();
        let mut r = ReferenceBuilder::new(2);
        for input in 0..2 {
            s.output(s.input(input));
            r.output(input);
        }
        write_pair(&s.stage, &r.reference)
    };
    let joined = |order, first: &FilePair, second: &FilePair| {
        join_in_order(order, first, second, &mut [0; 99], &mut [0; 99]).verdict
    };
    let (by_default, marked) = (WordOrder::default(), WordOrder::Input0Lowest);
    // 1 and 2 are not cared for: their names are 10 and 01.
    let (first, second) = (wires(&[]), wires(&[0, 3]));
    assert_eq!(joined(marked, &first, &second), [23, 0, 0, 1]);
    assert_eq!(joined(by_default, &first, &second), [23, 0, 0, 1]);
    // 1 alone is not.
    let second = wires(&[0, 2, 3]);
    assert_eq!(joined(marked, &first, &second), [23, 0, 0, 1]);
    assert_eq!(joined(by_default, &first, &second), [23, 0, 0, 2]);
    assert_eq!(joined(by_default, &wires(&[0, 2]), &second), ACCEPTED);
    assert_eq!(joined(by_default, &wires(&[0, 1]), &second), [23, 0, 0, 2]);
    // Two outputs, three inputs.
    let three = write_pair(
        &StageBuilder::new(3).stage,
        &ReferenceBuilder::new(3).reference,
    );
    assert_eq!(joined(by_default, &first, &three), [8, 4, 2, 0]);
    let one = FilePair {
        stage: unhex("01 01 03 00 00 01 00 00"),
        reference: unhex("01 01 12 00 00 00"),
    };
    assert_eq!(joined(by_default, &first, &one), [22, 0, 2, 1]);
    // A word of the second part is named by its own inputs.
    let mut swapped = wires(&[1]);
    swapped.reference = unhex("01 02 12 01 00 12 00 00 00");
    assert_eq!(joined(marked, &first, &swapped), [13, 4, 0, 1]);
    assert_eq!(joined(by_default, &first, &swapped), [13, 4, 0, 2]);
}

/// The verdict on a stage with one care word, in the files' order.
fn in_one_word(stage: &Stage, reference: &[u8], word: u64) -> Verdict {
    let one = Stage {
        care: vec![word],
        ..stage.clone()
    };
    check(&write_stage(&one), reference)
}

/// The default's verdict by its definition: the same check as with the mark, its condition holds in
/// the word that the name spells, at that place, and in no word of a lesser name.
#[test]
fn generated_pairs() {
    let (seed, count) = seed_and_count(6_000);
    let mut turned: BTreeMap<u64, u64> = BTreeMap::new();
    let mut witnesses = 0;
    for index in 0..count {
        let FilePair { stage, reference } = pair(seed ^ 0x106, index).pair;
        let about = format!("pair {index} of seed {seed}");
        let marked = check(&stage, &reference);
        let verdict = check_by_default(&stage, &reference);
        // "Acceptance is the same under either order", and so is every number.
        assert_eq!(verdict[..2], marked[..2], "{about}");
        let [number, file, at, name] = verdict;
        if !matches!(number, 13 | 14 | 15 | 20 | 21) {
            assert_eq!(verdict, marked, "{about}");
            continue;
        }
        let circuit = read_stage(&stage).unwrap();
        let word = WordOrder::default().named(circuit.inputs, name);
        assert!(circuit.words().contains(&word), "{about}");
        let there = in_one_word(&circuit, &reference, word);
        assert_eq!(there, [number, file, at, word], "{about}");
        if circuit.inputs > 6 {
            continue;
        }
        for &other in &circuit.words() {
            if WordOrder::default().named(circuit.inputs, other) < name {
                let [before, ..] = in_one_word(&circuit, &reference, other);
                assert!(before == 0 || before > number, "{about}, word {other}");
            }
        }
        *turned.entry(number).or_default() += u64::from(verdict != marked);
        // "A run of a named word is a run of the inputs it spells."
        if circuit.inputs <= 3 && circuit.gates.len() <= 8 {
            let reference = read_reference(&reference).unwrap();
            if let Some(shown) = witness(&circuit, &reference, [number, file, at, word]) {
                assert!(shown, "{about}");
                witnesses += 1;
            }
        }
    }
    println!("{count} pairs of seed {seed}: turned {turned:?}, {witnesses} witnesses");
    if count >= 6_000 {
        for number in [13, 14, 15, 20] {
            assert!(turned[&number] >= 10, "{number}: {turned:?}");
        }
        assert!(witnesses >= 300, "{witnesses}");
    }
}

/// Where the inputs are exchanged end for end, the default names what the mark names: the word, and
/// the output or gate.
#[test]
fn exchanged_inputs() {
    let mut tried = 0;
    for index in 0..4_000 {
        let FilePair { stage, reference } = pair(0x106, index).pair;
        let verdict = check_by_default(&stage, &reference);
        if !matches!(verdict[0], 0 | 13 | 14 | 15 | 20 | 21 | 32) {
            continue;
        }
        let mut circuit = read_stage(&stage).unwrap();
        let mut function = read_reference(&reference).unwrap();
        let inputs = circuit.inputs;
        let net = |net: usize| {
            if net < 2 * inputs {
                2 * (inputs - 1 - net / 2) + net % 2
            } else {
                net
            }
        };
        let signal = |signal: usize| {
            if signal < inputs {
                inputs - 1 - signal
            } else {
                signal
            }
        };
        for gate in &mut circuit.gates {
            gate.pins.iter_mut().for_each(|pin| *pin = net(*pin));
        }
        for rails in &mut circuit.outputs {
            *rails = rails.map(net);
        }
        let words = circuit.care.iter();
        let words = words.map(|&word| WordOrder::default().named(inputs, word));
        circuit.care = words.collect();
        circuit.care.sort();
        for gate in &mut function.gates {
            gate.operands
                .iter_mut()
                .for_each(|operand| *operand = signal(*operand));
        }
        for output in &mut function.outputs {
            *output = signal(*output);
        }
        let exchanged = write_pair(&circuit, &function);
        let [number, _, at, word] = check(&exchanged.stage, &exchanged.reference);
        assert_eq!((number, word), (verdict[0], verdict[3]), "pair {index}");
        // The least input from one side is another one from the other.
        if !matches!(number, 14 | 20) {
            assert_eq!(at, verdict[2], "pair {index}");
        }
        let lines = report_in_order(WordOrder::default(), &stage, &reference).lines;
        assert_eq!(lines, report(&exchanged.stage, &exchanged.reference).lines);
        tried += 1;
    }
    assert!(tried >= 2_000, "{tried}");
}

/// A report has the same lines in either order, each under the word's name, by rising names.
#[test]
fn generated_reports() {
    let mut accepted = 0;
    for index in 0..1_500 {
        let FilePair { stage, reference } = pair(106, index).pair;
        let marked = report(&stage, &reference);
        let by_default = report_in_order(WordOrder::default(), &stage, &reference);
        assert_eq!(by_default.total, marked.total);
        assert_eq!(by_default.verdict, check_by_default(&stage, &reference));
        if by_default.verdict != ACCEPTED {
            assert_eq!((marked.lines.len(), by_default.lines.len()), (0, 0));
            continue;
        }
        let inputs = read_stage(&stage).unwrap().inputs;
        assert!(by_default.lines.windows(2).all(|two| two[0].0 < two[1].0));
        let lines = by_default.lines.into_iter();
        let named = |name| WordOrder::default().named(inputs, name);
        let mut lines: Vec<(u64, u64)> = lines.map(|(name, high)| (named(name), high)).collect();
        lines.sort();
        assert_eq!(lines, marked.lines);
        accepted += 1;
    }
    assert!(accepted >= 300, "{accepted}");
}

/// Joins in either order write the same bytes; 23 names the first stray word by default, and counts
/// stay as they are.
#[test]
fn generated_joins() {
    let (mut strays, mut parts) = (0, 0);
    for index in 0..3_000 {
        let case = join_case(106, index).case;
        let answer_in = |order| {
            let (mut stage, mut reference) = (case.stage.clone(), case.reference.clone());
            let joined = match order {
                WordOrder::Input0Lowest => {
                    join(&case.first, &case.second, &mut stage, &mut reference)
                }
                _ => join_in_order(order, &case.first, &case.second, &mut stage, &mut reference),
            };
            (
                joined.verdict,
                joined.stage_len,
                joined.reference_len,
                stage,
                reference,
            )
        };
        let marked = answer_in(WordOrder::Input0Lowest);
        let by_default = answer_in(WordOrder::default());
        let [number, file, at, name] = by_default.0;
        assert_eq!([number, file], marked.0[..2], "join {index}");
        match (number, file) {
            (23, _) => {
                let stage = read_stage(&case.first.stage).unwrap();
                let reference = read_reference(&case.first.reference).unwrap();
                let second = read_stage(&case.second.stage).unwrap().words();
                let stray =
                    |word: &u64| !second.contains(&word_of_answer(&answer(&reference, *word)));
                let names = stage.words().into_iter().filter(stray);
                let names = names.map(|word| WordOrder::default().named(stage.inputs, word));
                assert_eq!((at, Some(name)), (0, names.min()), "join {index}");
                strays += u64::from(by_default != marked);
            }
            (13 | 14 | 15 | 20 | 21, _) => {
                let part = if file < 3 { &case.first } else { &case.second };
                let file = if file < 3 { file } else { file - 3 };
                let verdict = check_by_default(&part.stage, &part.reference);
                assert_eq!(verdict, [number, file, at, name], "join {index}");
                parts += u64::from(by_default != marked);
            }
            _ => assert_eq!(by_default, marked, "join {index}"),
        }
    }
    assert!(strays >= 20 && parts >= 20, "{strays} {parts}");
}

/// The number of inputs of a stage file, where it has one.
fn inputs_of(stage: &[u8]) -> usize {
    stage.get(1).map_or(1, |&count| usize::from(count))
}

fn names_a_word(verdict: Verdict) -> bool {
    matches!(verdict[0], 13 | 14 | 15 | 20 | 21)
}

/// Checks that are wrong in the order of words in one way each are told from the judge's.
#[test]
fn wrong_orders_are_told() {
    let wrong: [(&str, CheckInOrder); 8] = [
        ("knows no mark", |_, s, r| check_by_default(s, r)),
        ("knows no default", |_, s, r| check(s, r)),
        (
            "takes the mark for the default",
            |order, s, r| match order {
                WordOrder::Input0Lowest => check_by_default(s, r),
                WordOrder::Input0Highest => check(s, r),
            },
        ),
        (
            "turns the name of the old order's least word",
            |order, s, r| {
                let [number, file, at, word] = check(s, r);
                match names_a_word([number, file, at, word]) {
                    true => [number, file, at, order.named(inputs_of(s), word)],
                    false => [number, file, at, word],
                }
            },
        ),
        ("names the word as files do", |order, s, r| {
            let [number, file, at, name] = check_pipeline(order, s, r);
            match names_a_word([number, file, at, name]) {
                true => [number, file, at, order.named(inputs_of(s), name)],
                false => [number, file, at, name],
            }
        }),
        ("counts ten inputs always", |order, s, r| {
            let [number, file, at, name] = check_pipeline(order, s, r);
            let more = match (order, names_a_word([number, file, at, name])) {
                (WordOrder::Input0Highest, true) => 10 - inputs_of(s),
                _ => 0,
            };
            [number, file, at, name << more]
        }),
        ("turns counts", |order, s, r| {
            let [number, file, at, count] = check_pipeline(order, s, r);
            match number {
                10 | 11 => [number, file, at, order.named(inputs_of(s), count)],
                _ => [number, file, at, count],
            }
        }),
        ("turns care words", |order, s, r| {
            let verdict = check_pipeline(order, s, r);
            let Ok(mut stage) = read_stage(s) else {
                return verdict;
            };
            if !names_a_word(verdict) && verdict != ACCEPTED {
                return verdict;
            }
            let words = stage.care.iter();
            let words = words.map(|&word| order.named(stage.inputs, word));
            stage.care = words.collect();
            stage.care.sort();
            check_pipeline(order, &write_stage(&stage), r)
        }),
    ];
    for (about, check) in wrong {
        let compared = first_difference_in(&ORDERS, check, 7, 3_000);
        assert!(compared.is_err(), "{about}");
    }
    let wrong: [(&str, ReportInOrder); 4] = [
        ("knows no default", |_, s, r| {
            judged_counts(WordOrder::Input0Lowest, s, r)
        }),
        ("turns names and leaves the order", |order, s, r| {
            let mut counts = judged_counts(WordOrder::Input0Lowest, s, r);
            counts.verdict = check_in_order(order, LIMITS, s, r);
            let names = counts.names.iter_mut().take(counts.words as usize);
            names.for_each(|name| *name = order.named(inputs_of(s), u64::from(*name)) as u16);
            counts
        }),
        ("turns the order and leaves names", |order, s, r| {
            let names = judged_counts(WordOrder::Input0Lowest, s, r).names;
            Counts {
                names,
                ..judged_counts(order, s, r)
            }
        }),
        ("turns the verdict of a refused pair only", |order, s, r| {
            Counts {
                verdict: check_in_order(order, LIMITS, s, r),
                ..judged_counts(WordOrder::Input0Lowest, s, r)
            }
        }),
    ];
    for (about, report) in wrong {
        let compared = compare_reports(report, 7, 1_000);
        assert!(compared.is_err(), "{about}");
    }
    let wrong: [(&str, JoinInOrder); 3] = [
        ("knows no default", |_, first, second, stage, reference| {
            join(first, second, stage, reference)
        }),
        (
            "turns the counts of 22",
            |order, first, second, stage, reference| {
                let mut joined = join_in_order(order, first, second, stage, reference);
                if let [22, _, _, inputs] = &mut joined.verdict {
                    *inputs = order.named(inputs_of(&first.stage), *inputs);
                }
                joined
            },
        ),
        (
            "turns 23 by the second's inputs",
            |order, first, second, stage, reference| {
                let mut joined = join_in_order(order, first, second, stage, reference);
                if let [23, _, _, name] = &mut joined.verdict {
                    let word = order.named(inputs_of(&first.stage), *name);
                    *name = order.named(inputs_of(&second.stage), word);
                }
                joined
            },
        ),
    ];
    for (about, join) in wrong {
        assert!(compare_joins(join, 106, 1_500).is_err(), "{about}");
    }
}
