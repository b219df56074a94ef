//! The cases of stages from references (document 02, M-107): a reference, and the buffer that is
//! lent.
//!
//! Verdicts are also written by hand.

use crate::catalogue::examples;
use crate::circuits::ReferenceBuilder;
use crate::files::{unhex, write_reference};
use crate::generate::made::{make_case, MakeCase};
use crate::generate::Known;
use crate::judge::{Reference, Verdict, ACCEPTED, AND, NAND, NOR, NOT, OR, REFERENCE, ROW, XOR};
use crate::make::make_stage;
use crate::suite::{check, join, numbers, report, spelt, Stored};
use std::collections::BTreeSet;

pub struct Case {
    pub about: String,
    pub case: MakeCase,
    /// What is known of the verdict without the judge.
    pub known: Known,
}

/// A line is the judge's four numbers, how many bytes it writes, and the bytes of the buffer after
/// its call.
pub fn stored() -> Vec<Stored> {
    let stored = cases().into_iter().map(|case| {
        let MakeCase { reference, buffer } = case.case;
        let mut stage = buffer.clone();
        let made = make_stage(&reference, &mut stage);
        Stored {
            about: case.about,
            operands: vec![reference, buffer],
            lines: vec![numbers(made.verdict, &[made.len]) + &spelt(&stage)],
        }
    });
    stored.collect()
}

/// The references of all stored pairs, joins and examples.
pub fn all_references() -> BTreeSet<Vec<u8>> {
    let pairs = check::cases().into_iter().map(|case| case.pair.reference);
    let reports = report::cases().into_iter().map(|case| case.pair.reference);
    let parts = join::cases().into_iter().flat_map(|case| {
        let join = case.case;
        [join.first.reference, join.second.reference]
    });
    let examples = examples().into_iter().map(|example| example.pair.reference);
    pairs.chain(reports).chain(parts).chain(examples).collect()
}

struct Cases(Vec<Case>);

impl Cases {
    /// A reference with a buffer of this length; it holds rising numbers.
    fn push(&mut self, about: impl Into<String>, reference: Vec<u8>, room: usize, known: Known) {
        self.0.push(Case {
            about: about.into(),
            case: MakeCase {
                reference,
                buffer: (0..room).map(|place| 100 + (place % 100) as u8).collect(),
            },
            known,
        });
    }

    fn add(&mut self, about: &str, reference: &Reference, room: usize, verdict: Verdict) {
        let file = write_reference(reference);
        self.push(about, file, room, Known::Verdict(verdict));
    }
}

pub fn cases() -> Vec<Case> {
    let mut cases = Cases(Vec::new());
    operations(&mut cases);
    odd_references(&mut cases);
    idle_signals(&mut cases);
    limits(&mut cases);
    refused_references(&mut cases);
    stored_references(&mut cases);
    generated(&mut cases);
    cases.0
}

/// A reference of inputs, gates and outputs.
fn reference(inputs: usize, gates: &[(usize, &[usize])], outputs: &[usize]) -> Reference {
    let mut builder = ReferenceBuilder::new(inputs);
    for (operation, operands) in gates {
        builder.gate(*operation, operands);
    }
    for &output in outputs {
        builder.output(output);
    }
    builder.reference
}

/// Each operation by itself, in a buffer of just the length, with room to spare, and one short.
fn operations(cases: &mut Cases) {
    for (name, operation) in [
        ("AND", AND),
        ("OR", OR),
        ("XOR", XOR),
        ("NAND", NAND),
        ("NOR", NOR),
    ] {
        let one = reference(2, &[(operation, &[0, 1])], &[2]);
        cases.add(name, &one, 28, ACCEPTED);
        cases.add(&format!("{name}, two bytes to spare"), &one, 30, ACCEPTED);
        cases.add(&format!("27: {name}"), &one, 27, [27, ROW, 0, 0]);
        let twice = reference(1, &[(operation, &[0, 0])], &[1]);
        cases.add(&format!("{name} of one signal twice"), &twice, 28, ACCEPTED);
        let turned = reference(2, &[(operation, &[1, 0])], &[2]);
        cases.add(
            &format!("{name}, operands exchanged"),
            &turned,
            28,
            ACCEPTED,
        );
    }
    let not = reference(1, &[(NOT, &[0])], &[1]);
    cases.add("NOT", &not, 8, ACCEPTED);
    cases.add("27: NOT", &not, 7, [27, ROW, 0, 0]);
    cases.add("27: no buffer", &not, 0, [27, ROW, 0, 0]);
}

/// Outputs that are inputs, NOT of NOT, one signal at several outputs, outputs before gates.
fn odd_references(cases: &mut Cases) {
    cases.add("a wire", &reference(1, &[], &[0]), 8, ACCEPTED);
    let wires: Vec<usize> = (0..10).collect();
    cases.add("ten wires", &reference(10, &[], &wires), 53, ACCEPTED);
    cases.add(
        "one input at sixteen outputs",
        &reference(1, &[], &[0; 16]),
        83,
        ACCEPTED,
    );
    let not_of_not = reference(1, &[(NOT, &[0]), (NOT, &[1])], &[2]);
    cases.add("NOT of NOT", &not_of_not, 8, ACCEPTED);
    let all_three = reference(1, &[(NOT, &[0]), (NOT, &[1])], &[2, 0, 1]);
    cases.add("an input, NOT and NOT of NOT", &all_three, 18, ACCEPTED);
    let both = reference(
        2,
        &[(AND, &[0, 1]), (NOT, &[2]), (OR, &[2, 3])],
        &[4, 2, 2, 3],
    );
    cases.add("a signal with its NOT", &both, 63, ACCEPTED);
    let constant = reference(1, &[(XOR, &[0, 0]), (AND, &[1, 0])], &[2]);
    cases.add("a rail that never rises", &constant, 48, ACCEPTED);
    let of_nots = reference(
        2,
        &[(NOT, &[0]), (NOT, &[1]), (NOR, &[2, 3]), (XOR, &[4, 2])],
        &[5],
    );
    cases.add("operations on NOTs", &of_nots, 48, ACCEPTED);
    let file = unhex("01 02 12 03 00 11 04 00 00 01 00 12 00 00 11 05 02 00 01 00 12 02 00 00");
    cases.push(
        "outputs between the gates",
        file,
        58,
        Known::Verdict(ACCEPTED),
    );
}

/// 25, of inputs and gates, before 26 and 27.
fn idle_signals(cases: &mut Cases) {
    let mut add = |about: &str, reference: &Reference, signal: u64| {
        let about = format!("25: {about}");
        cases.add(&about, reference, 0, [25, REFERENCE, signal, 0]);
    };
    add("input 1 of two", &reference(2, &[], &[0]), 1);
    add("input 0 of two", &reference(2, &[], &[1]), 0);
    add("a gate", &reference(1, &[(NOT, &[0])], &[0]), 1);
    let chain: [(usize, &[usize]); 4] = [(NOT, &[0]), (NOT, &[1]), (AND, &[2, 0]), (NOT, &[0])];
    add("a chain of gates", &reference(1, &chain, &[4]), 1);
    add("the end of it", &reference(1, &chain, &[2, 4]), 3);
    add(
        "an input that feeds such a gate only",
        &reference(3, &[(OR, &[1, 2])], &[0, 2]),
        1,
    );
    let many: Vec<(usize, &[usize])> = vec![(AND, &[0, 0]); 200];
    add("before 26", &reference(1, &many, &[200]), 1);
}

/// A chain of so many ANDs of one input, then so many NOTs.
fn chain(operations: usize, nots: usize) -> Reference {
    let mut builder = ReferenceBuilder::new(1);
    let mut signal = 0;
    for _ in 0..operations {
        signal = builder.gate(AND, &[signal, 0]);
    }
    for _ in 0..nots {
        signal = builder.not(signal);
    }
    builder.output(signal);
    builder.reference
}

/// 26 and 6: 128 operations, and 512 gates of the reference.
fn limits(cases: &mut Cases) {
    cases.add("128 operations", &chain(128, 0), 2568, ACCEPTED);
    cases.add(
        "128 operations and 384 NOTs",
        &chain(128, 384),
        2568,
        ACCEPTED,
    );
    cases.add("512 NOTs", &chain(0, 512), 8, ACCEPTED);
    cases.add(
        "26: 129 operations",
        &chain(129, 0),
        2600,
        [26, REFERENCE, 258, 0],
    );
    cases.add("26 before 27", &chain(129, 3), 0, [26, REFERENCE, 258, 0]);
    cases.add(
        "26: 512 operations",
        &chain(512, 0),
        0,
        [26, REFERENCE, 1024, 0],
    );
    let at = 2 + 6 * 512;
    cases.add("6: 513 gates", &chain(0, 513), 8, [6, REFERENCE, at, 0]);
    cases.add("6 before 26", &chain(500, 13), 0, [6, REFERENCE, at, 0]);
}

/// For each refusal of reading the first reference among the cases of the check that it refuses so.
fn refused_references(cases: &mut Cases) {
    let mut seen = BTreeSet::new();
    for case in check::cases() {
        let Known::Verdict(verdict @ [number, REFERENCE, ..]) = case.known else {
            continue;
        };
        // A reference here may have more gates.
        if number != 6 && seen.insert(number) {
            let about = format!("refused, {}", case.about);
            cases.push(about, case.pair.reference, 9, Known::Verdict(verdict));
        }
    }
    cases.push(
        "refused, an empty file and no buffer",
        vec![],
        0,
        Known::Verdict([1, 2, 0, 0]),
    );
}

/// The references of the stored examples that are short.
fn stored_references(cases: &mut Cases) {
    let mut seen = BTreeSet::new();
    for example in examples() {
        let file = example.pair.reference;
        if file.len() <= 150 && seen.insert(file.clone()) {
            let about = format!("the reference of {}", example.name);
            cases.push(about, file, 500, Known::Nothing);
        }
    }
}

/// Generated references of few bytes.
fn generated(cases: &mut Cases) {
    for index in 0..60 {
        let generated = make_case(2026, index);
        if generated.family != "any" && generated.case.buffer.len() <= 400 {
            cases.0.push(Case {
                about: format!("generated, {}, number {index}", generated.family),
                case: generated.case,
                known: generated.known,
            });
        }
    }
}
