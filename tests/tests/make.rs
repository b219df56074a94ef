//! A stage from a reference (M-107 of document 02): the judge's stages, the generated references,
//! and the stored cases.

use fovaheju_tests::circuits::dual_rail;
use fovaheju_tests::compare::{compare_makes, lack, seed_and_count, Histogram, Make, MAKE_NUMBERS};
use fovaheju_tests::explore::{bits_of, promise, reach, Rules, Way};
use fovaheju_tests::files::{hex, unhex, write_reference, write_stage};
use fovaheju_tests::generate::made::make_case;
use fovaheju_tests::generate::{random_reference, Random};
use fovaheju_tests::join::WHOLE_LIMITS;
use fovaheju_tests::judge::{
    accepted_unless_a_gate_never_rises, check_within, rails_of_word, read_reference_within,
    read_stage_within, Reference, Stage, ACCEPTED, NOT,
};
use fovaheju_tests::make::{made_stage, make_stage, Made};
use fovaheju_tests::suite::make::{all_references, cases};
use std::collections::{BTreeMap, BTreeSet};

/// The bytes that are written, or the verdict.
fn written(reference: &str) -> Result<Vec<u8>, [u64; 4]> {
    let mut buffer = vec![0; 8192];
    let made = make_stage(&unhex(reference), &mut buffer);
    buffer.truncate(made.len);
    if made.verdict == ACCEPTED {
        Ok(buffer)
    } else {
        Err(made.verdict)
    }
}

/// Stages whose bytes are written by hand from the paper.
#[test]
fn bytes_by_hand() {
    // TH22(a1, b1) for rail 1, then THand0(a0, b0, a1, b1) for rail 0: the whole case.
    let and = "02 02 01 00 03 00 FF FF FF FF 02 1A 00 00 02 00 01 00 03 00";
    // TH22(a0, b0) for rail 0, then THand0(a1, b1, a0, b0) for rail 1.
    let or = "02 02 00 00 02 00 FF FF FF FF 02 1A 01 00 03 00 00 00 02 00";
    // THxor0(a0, b0, a1, b1) for rail 0, then TH24comp of the same pins for rail 1.
    let xor = "02 19 00 00 02 00 01 00 03 00 02 1B 00 00 02 00 01 00 03 00";
    for (operation, gates, outputs) in [
        ("02", and, "03 05 00 04 00"),
        ("03", or, "03 04 00 05 00"),
        ("04", xor, "03 04 00 05 00"),
        ("05", and, "03 04 00 05 00"),
        ("06", or, "03 05 00 04 00"),
    ] {
        let reference = format!("01 02 11 {operation} 00 00 01 00 12 02 00 00");
        let stage = unhex(&format!("01 02 {gates} {outputs} 00"));
        assert_eq!(written(&reference), Ok(stage), "operation {operation}");
    }
    // NOT swaps rails and is no gate: AND of NOT a and b.
    assert_eq!(
        written("01 02 11 01 00 00 FF FF 11 02 02 00 01 00 12 03 00 00"),
        Ok(unhex(
            "01 02 02 02 00 00 03 00 FF FF FF FF 02 1A 01 00 02 00 00 00 03 00 03 05 00 04 00 00"
        ))
    );
    // An output that is an input, one signal twice, NOT of NOT; outputs stand last.
    assert_eq!(
        written("01 01 12 02 00 12 00 00 11 01 00 00 FF FF 12 01 00 11 01 01 00 FF FF 12 00 00 00"),
        Ok(unhex(
            "01 01 03 00 00 01 00 03 00 00 01 00 03 01 00 00 00 03 00 00 01 00 00"
        ))
    );
    // Both operands one signal.
    assert_eq!(
        written("01 01 11 04 00 00 00 00 12 01 00 00"),
        Ok(unhex(
            "01 01 02 19 00 00 00 00 01 00 01 00 02 1B 00 00 00 00 01 00 01 00 03 02 00 03 00 00"
        ))
    );
    assert_eq!(written("01 02 12 00 00 00"), Err([25, 2, 1, 0]));
    assert_eq!(written(""), Err([1, 2, 0, 0]));
}

/// "Each stage so written is accepted against its reference", "unless a gate never rises". A refusal
/// leaves the buffer as it is, and bytes past the end keep their values.
#[test]
fn generated_references() {
    let (seed, count) = seed_and_count(4_000);
    let mut histogram: BTreeMap<u64, u64> = BTreeMap::new();
    let [mut inputs_out, mut not_of_not, mut repeated, mut one_signal] = [0; 4];
    let (mut most, mut played) = (0, 0);
    for index in 0..count {
        let generated = make_case(seed, index);
        let case = generated.case;
        let mut buffer = case.buffer.clone();
        let Made { verdict, len } = make_stage(&case.reference, &mut buffer);
        let about = format!(
            "reference {index} of seed {seed} ({}), reference {}",
            generated.family,
            hex(&case.reference)
        );
        assert!(
            generated.known.agrees(verdict),
            "{about}: known {:?}, judged {verdict:?}",
            generated.known
        );
        *histogram.entry(verdict[0]).or_default() += 1;
        assert_eq!(buffer[len..], case.buffer[len..], "{about}");
        if verdict != ACCEPTED {
            assert_eq!(len, 0, "{about}");
            continue;
        }
        let file = &buffer[..len];
        let checked = check_within(WHOLE_LIMITS, file, &case.reference);
        let reference = read_reference_within(WHOLE_LIMITS, &case.reference).unwrap();
        let stage = read_stage_within(WHOLE_LIMITS, file).unwrap();
        assert_eq!(
            checked,
            accepted_unless_a_gate_never_rises(&stage),
            "{about}"
        );
        // By the templates that the circuits of the tests are built of.
        assert_eq!(stage, dual_rail(&reference), "{about}");
        assert_eq!(write_stage(&stage), file, "{about}");

        let mut outputs = reference.outputs.clone();
        inputs_out += u64::from(outputs.iter().any(|&signal| signal < reference.inputs));
        outputs.sort();
        outputs.dedup();
        repeated += u64::from(outputs.len() < reference.outputs.len());
        let is_not = |signal: usize| {
            let gate = signal.checked_sub(reference.inputs);
            gate.is_some_and(|gate| reference.gates[gate].operation == NOT)
        };
        let gates = || reference.gates.iter();
        let nots = gates().filter(|gate| gate.operation == NOT);
        not_of_not += u64::from(nots.clone().any(|gate| is_not(gate.operands[0])));
        let twice = |operands: &[usize]| operands.len() == 2 && operands[0] == operands[1];
        one_signal += u64::from(gates().any(|gate| twice(&gate.operands)));
        most = most.max(stage.gates.len());
        if stage.inputs <= 3 && stage.nets() <= 18 {
            if let Some(promised) = promise(&stage, &reference) {
                promised.unwrap_or_else(|broken| panic!("{about}: {broken:?}"));
                rises_after_both(&stage, &reference, &about);
                played += 1;
            }
        }
    }
    println!("{count} references of seed {seed}: {histogram:?}; runs of {played} were played");
    if count >= 4_000 {
        for number in [0, 1, 2, 3, 4, 5, 6, 7, 8, 9, 25, 26, 27] {
            assert!(histogram.contains_key(&number), "{number}");
        }
        assert!(2 * histogram[&0] >= count, "half of them are accepted");
        for seen in [inputs_out, not_of_not, repeated, one_signal] {
            assert!(
                seen >= 200,
                "{inputs_out} {not_of_not} {repeated} {one_signal}"
            );
        }
        assert!(played >= 500, "{played}");
        assert_eq!(most, 256);
    }
}

/// "No rail rises before both operands are DATA": after every list of every word.
fn rises_after_both(stage: &Stage, reference: &Reference, about: &str) {
    let rules = Rules::new(stage).unwrap();
    // The rails of each signal, and for each pair of gates those of its operands.
    let mut signals: Vec<u64> = (0..stage.inputs).map(|input| 3 << (2 * input)).collect();
    let mut operations = Vec::new();
    for gate in &reference.gates {
        if gate.operation == NOT {
            signals.push(signals[gate.operands[0]]);
            continue;
        }
        let rails = 3 << (2 * stage.inputs + 2 * operations.len());
        operations.push((
            rails,
            [signals[gate.operands[0]], signals[gate.operands[1]]],
        ));
        signals.push(rails);
    }
    assert_eq!(2 * operations.len(), stage.gates.len(), "{about}");
    for word in stage.words() {
        let rails = bits_of(&rails_of_word(stage.inputs, word));
        let rise = reach(&rules, 0, rails, Way::Rise).unwrap();
        for row in rise.rows {
            for (rails, operands) in &operations {
                let data = |pair: &u64| (row & pair).count_ones() == 1;
                assert!(row & rails == 0 || operands.iter().all(data), "{about}");
            }
        }
    }
}

/// References whose signals all lead to outputs are never refused by 25, and those that lose a
/// signal always are.
#[test]
fn idle_signals() {
    for index in 0..400 {
        let random = &mut Random::new(25, index);
        let (inputs, gates) = (random.from_to(1, 6), random.from_to(0, 14));
        let mut reference = random_reference(random, inputs, gates);
        let verdict =
            |reference: &Reference| make_stage(&write_reference(reference), &mut [0; 1000]).verdict;
        assert_eq!(verdict(&reference), ACCEPTED);
        assert_eq!(made_stage(&reference), dual_rail(&reference));
        // Each signal that only one output shows is missed there, or what leads to it is.
        let output = random.below(reference.outputs.len());
        let signal = reference.outputs.remove(output);
        let shown = reference.outputs.contains(&signal);
        let used = reference
            .gates
            .iter()
            .any(|gate| gate.operands.contains(&signal));
        if reference.outputs.is_empty() {
            continue;
        }
        let [number, file, at, word] = verdict(&reference);
        if shown || used {
            assert_eq!(number, 0);
        } else {
            assert_eq!([number, file, word], [25, 2, 0]);
            assert!(at <= signal as u64);
        }
    }
}

/// Every stage that is made of a stored reference is accepted against it, unless a gate never rises.
#[test]
fn stored_references() {
    let (mut made, mut refused, mut never_rises) = (0, 0, 0);
    for reference in all_references() {
        let mut buffer = vec![0; 8192];
        let Made { verdict, len } = make_stage(&reference, &mut buffer);
        if verdict == ACCEPTED {
            let checked = check_within(WHOLE_LIMITS, &buffer[..len], &reference);
            let stage = read_stage_within(WHOLE_LIMITS, &buffer[..len]).unwrap();
            let expected = accepted_unless_a_gate_never_rises(&stage);
            assert_eq!(checked, expected, "reference {}", hex(&reference));
            never_rises += u64::from(checked != ACCEPTED);
            made += 1;
        } else {
            refused += 1;
        }
    }
    println!("{made} stored references give a stage, {refused} are refused; 32 in {never_rises}");
    assert!(made >= 100 && refused >= 50, "{made} {refused}");
    assert!(never_rises >= 5, "{never_rises}");
}

/// The judge's verdicts are those written by hand, and every number has cases.
#[test]
fn stored_cases() {
    let cases = cases();
    let mut seen = BTreeSet::new();
    for case in &cases {
        let mut buffer = case.case.buffer.clone();
        let verdict = make_stage(&case.case.reference, &mut buffer).verdict;
        let about = &case.about;
        assert!(
            case.known.agrees(verdict),
            "{about}: {verdict:?}, not {:?}",
            case.known
        );
        seen.insert(verdict[0] as usize);
    }
    assert_eq!(seen, BTreeSet::from(MAKE_NUMBERS));
}

/// Of the comparison itself: the judge agrees with itself, and the references have all numbers.
#[test]
fn the_judge_agrees_with_itself() {
    let histogram: Histogram = compare_makes(make_stage, 11, 4_000).unwrap();
    assert_eq!(lack(&histogram, &MAKE_NUMBERS), None);
}

/// The judge's answer with another stage for the same reference.
fn with_other_stage(reference: &[u8], buffer: &mut [u8], change: fn(&mut Stage)) -> Made {
    let made = make_stage(reference, buffer);
    if made.verdict == ACCEPTED {
        let mut stage = read_stage_within(WHOLE_LIMITS, &buffer[..made.len]).unwrap();
        change(&mut stage);
        buffer[..made.len].copy_from_slice(&write_stage(&stage));
    }
    made
}

/// Stages that are wrong in one way each are told from the judge's.
#[test]
fn wrong_stages_are_told() {
    let wrong: [(&str, Make); 8] = [
        ("25 not looked for", |reference, buffer| {
            let made = make_stage(reference, buffer);
            match made.verdict {
                [25, ..] => Made {
                    verdict: ACCEPTED,
                    len: 0,
                },
                _ => made,
            }
        }),
        ("25 of gates only", |reference, buffer| {
            let made = make_stage(reference, buffer);
            let inputs = reference.get(1).map_or(0, |&count| u64::from(count));
            match made.verdict {
                [25, _, at, _] if at < inputs => Made {
                    verdict: ACCEPTED,
                    len: 0,
                },
                _ => made,
            }
        }),
        ("26 counts operations", |reference, buffer| {
            let mut made = make_stage(reference, buffer);
            if made.verdict[0] == 26 {
                made.verdict[2] /= 2;
            }
            made
        }),
        ("27 before 25 and 26", |reference, buffer| {
            let empty = buffer.len() < 8;
            let mut made = make_stage(reference, buffer);
            if empty && made.verdict[0] >= 25 {
                made.verdict = [27, 3, 0, 0];
            }
            made
        }),
        ("the operands' pins exchanged", |reference, buffer| {
            with_other_stage(reference, buffer, |stage| {
                for gate in &mut stage.gates {
                    gate.pins.swap(0, 1);
                }
            })
        }),
        ("the two gates of XOR exchanged", |reference, buffer| {
            with_other_stage(reference, buffer, |stage| {
                for gate in &mut stage.gates {
                    gate.kind = match gate.kind {
                        25 => 27,
                        27 => 25,
                        kind => kind,
                    };
                }
            })
        }),
        ("the outputs in another order", |reference, buffer| {
            with_other_stage(reference, buffer, |stage| stage.outputs.reverse())
        }),
        ("a byte past the end", |reference, buffer| {
            let made = make_stage(reference, buffer);
            if made.verdict == ACCEPTED && buffer.len() > made.len {
                buffer[made.len] ^= 1;
            }
            made
        }),
    ];
    for (about, make_stage) in wrong {
        assert!(compare_makes(make_stage, 107, 2_000).is_err(), "{about}");
    }
}
