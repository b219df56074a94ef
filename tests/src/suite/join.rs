//! The cases of the join (document 02, M-105): the four files of two parts, and the two buffers that
//! are lent.
//!
//! Verdicts are also written by hand.

use crate::catalogue::examples;
use crate::catalogue::joins::joints;
use crate::circuits::{dual_rail, ReferenceBuilder};
use crate::files::{
    care_word, file_of, reference_output, stage_output, unhex, write_reference, write_stage,
    FilePair,
};
use crate::generate::joins::{any_join, JoinCase};
use crate::generate::Known;
use crate::join::{join_in_order, PART_LIMITS};
use crate::judge::{
    Boolean, Gate, Reference, Stage, Verdict, WordOrder, ACCEPTED, AND, NONE, NOT, ORDERS, ROW,
};
use crate::suite::{check, numbers, spelt, Stored, WITH_PARTS};
use std::collections::BTreeSet;

pub struct Case {
    pub about: String,
    pub case: JoinCase,
    /// What is known of the verdict without the judge.
    pub known: Known,
}

/// A line is the judge's four numbers, how many bytes of each buffer it writes, and the bytes of the
/// stage's and of the reference's buffer after its call.
pub fn stored() -> Vec<Stored> {
    let stored = cases().into_iter().map(|case| {
        let lines = ORDERS.map(|order| line(order, &case.case)).into();
        let join = case.case;
        Stored {
            about: case.about,
            operands: vec![
                join.first.stage,
                join.first.reference,
                join.second.stage,
                join.second.reference,
                join.stage,
                join.reference,
            ],
            lines,
        }
    });
    stored.collect()
}

fn line(order: WordOrder, case: &JoinCase) -> String {
    let (mut stage, mut reference) = (case.stage.clone(), case.reference.clone());
    let joined = join_in_order(order, &case.first, &case.second, &mut stage, &mut reference);
    let numbers = numbers(joined.verdict, &[joined.stage_len, joined.reference_len]);
    numbers + &spelt(&stage) + &spelt(&reference)
}

struct Cases(Vec<Case>);

impl Cases {
    /// A join with buffers of these lengths; they hold rising numbers.
    fn push(
        &mut self,
        about: impl Into<String>,
        (first, second): (&FilePair, &FilePair),
        [stage, reference]: [usize; 2],
        known: Known,
    ) {
        let buffer = |length: usize| (0..length).map(|place| 100 + (place % 100) as u8).collect();
        self.0.push(Case {
            about: about.into(),
            case: JoinCase {
                first: first.clone(),
                second: second.clone(),
                stage: buffer(stage),
                reference: buffer(reference),
            },
            known,
        });
    }

    fn add(
        &mut self,
        about: &str,
        parts: (&FilePair, &FilePair),
        room: [usize; 2],
        verdict: Verdict,
    ) {
        self.push(about, parts, room, Known::Verdict(verdict));
    }
}

pub fn cases() -> Vec<Case> {
    let mut cases = Cases(Vec::new());
    by_hand(&mut cases);
    short_buffers(&mut cases);
    seams(&mut cases);
    stored_joins(&mut cases);
    refused_parts(&mut cases);
    part_limits(&mut cases);
    generated(&mut cases);
    registers(&mut cases);
    cases.0
}

/// Document 02, M-111: a part with a register or a C-element answers 2.
fn registers(cases: &mut Cases) {
    for with in &WITH_PARTS {
        let part = pair(with.stage, "01 01 12 00 00 00");
        let about = format!("the first part has {}", with.about);
        cases.add(&about, (&part, &wire()), [9, 9], [2, 1, with.part, 0]);
        let about = format!("the second part has {}", with.about);
        cases.add(&about, (&wire(), &part), [9, 9], [2, 4, with.part, 0]);
    }
}

fn pair(stage: &str, reference: &str) -> FilePair {
    FilePair {
        stage: unhex(stage),
        reference: unhex(reference),
    }
}

fn wire() -> FilePair {
    pair("01 01 03 00 00 01 00 00", "01 01 12 00 00 00")
}

fn inverter() -> FilePair {
    pair(
        "01 01 03 01 00 00 00 00",
        "01 01 11 01 00 00 FF FF 12 01 00 00",
    )
}

/// The whole case of document 01.
fn and() -> FilePair {
    pair(
        "01 02 02 02 01 00 03 00 FF FF FF FF 02 1A 00 00 02 00 01 00 03 00 03 05 00 04 00 00",
        "01 02 11 02 00 00 01 00 12 02 00 00",
    )
}

/// So many wires.
fn wires(count: usize, care: &[u64]) -> FilePair {
    let mut commands: Vec<Vec<u8>> = care.iter().map(|&word| care_word(word)).collect();
    commands.extend((0..count).map(|input| stage_output([2 * input, 2 * input + 1])));
    let signals: Vec<Vec<u8>> = (0..count).map(reference_output).collect();
    FilePair {
        stage: file_of(count, &commands),
        reference: file_of(count, &signals),
    }
}

/// Joins whose files are known byte by byte, in buffers of just their length and with some room.
fn by_hand(cases: &mut Cases) {
    for more in [0, 3] {
        let mut add =
            |about: &str, first: &FilePair, second: &FilePair, [stage, reference]: [usize; 2]| {
                let about = format!("{about}, {more} bytes to spare");
                cases.add(
                    &about,
                    (first, second),
                    [stage + more, reference + more],
                    ACCEPTED,
                );
            };
        add("two wires", &wire(), &wire(), [8, 6]);
        add("two inverters", &inverter(), &inverter(), [8, 18]);
        add("AND and an inverter", &and(), &inverter(), [28, 18]);
        add("two wires and AND", &wires(2, &[]), &and(), [28, 12]);
        add(
            "three care words, and AND of them",
            &wires(2, &[0, 1, 3]),
            &and(),
            [37, 12],
        );
        add(
            "a list of the second part is not written",
            &wires(2, &[1]),
            &wires(2, &[1, 2]),
            [16, 9],
        );
        add(
            "ten wires twice",
            &wires(10, &[]),
            &wires(10, &[]),
            [53, 33],
        );
    }
    let all: Vec<u64> = (0..1024).collect();
    cases.add(
        "1,024 care words, which are all",
        (&wires(10, &all), &wires(10, &all)),
        [3125, 33],
        ACCEPTED,
    );
}

/// 24, of either buffer, and after 22 and 23.
fn short_buffers(cases: &mut Cases) {
    for (about, room) in [
        ("the stage's buffer one byte short", [27, 18]),
        ("the reference's buffer one byte short", [28, 17]),
        ("both buffers one byte short", [27, 17]),
        ("an empty buffer for the stage", [0, 18]),
        ("an empty buffer for the reference", [28, 0]),
        ("no buffers", [0, 0]),
    ] {
        let about = format!("24: {about}");
        cases.add(&about, (&and(), &inverter()), room, [24, ROW, 0, 0]);
    }
    cases.add("22 before 24", (&and(), &and()), [0, 0], [22, NONE, 1, 2]);
    cases.add(
        "23 before 24",
        (&wires(2, &[]), &wires(2, &[0, 1, 3])),
        [0, 0],
        [23, NONE, 0, 2],
    );
}

/// 22 and 23.
fn seams(cases: &mut Cases) {
    for (first, second) in [(1, 2), (2, 1), (1, 10), (10, 1), (9, 10)] {
        let parts = (&wires(first, &[]), &wires(second, &[]));
        let verdict = [22, NONE, first as u64, second as u64];
        cases.add("22: unequal counts", parts, [64, 64], verdict);
    }
    let mut sixteen = ReferenceBuilder::new(2);
    for output in 0..16 {
        sixteen.output(output % 2);
    }
    let sixteen = FilePair {
        stage: write_stage(&dual_rail(&sixteen.reference)),
        reference: write_reference(&sixteen.reference),
    };
    let parts = (&sixteen, &wires(10, &[]));
    cases.add("22: sixteen outputs", parts, [64, 64], [22, NONE, 16, 10]);
    let strays: [(&[u64], &[u64], u64); 7] = [
        (&[], &[1], 0),
        (&[], &[0], 1),
        (&[], &[0, 1, 2], 3),
        (&[1, 2], &[0, 1, 3], 2),
        (&[3], &[0, 1, 2], 3),
        (&[0, 2], &[2], 0),
        (&[0, 1, 2, 3], &[0, 3], 1),
    ];
    for (first, second, word) in strays {
        let parts = (&wires(2, first), &wires(2, second));
        let about = format!("23: words {first:?} into {second:?}");
        cases.add(&about, parts, [64, 64], [23, NONE, 0, word]);
    }
    // The answers of AND are 0, 0, 0, 1: word 3 is the first whose answer is 1.
    let only_0 = pair("01 01 06 00 00 03 00 00 01 00 00", "01 01 12 00 00 00");
    cases.add(
        "23: a 1 in word 3",
        (&and(), &only_0),
        [64, 64],
        [23, NONE, 0, 3],
    );
    let only_1 = pair("01 01 06 01 00 03 00 00 01 00 00", "01 01 12 00 00 00");
    cases.add(
        "23: a 0 in word 0",
        (&and(), &only_1),
        [64, 64],
        [23, NONE, 0, 0],
    );
    cases.add(
        "22 before 23",
        (&wires(1, &[]), &wires(2, &[3])),
        [64, 64],
        [22, NONE, 1, 2],
    );
    // The second cares for the words 1 and 2, which two wires that are exchanged give.
    let exchanged = FilePair {
        stage: file_of(
            2,
            &[care_word(1), stage_output([2, 3]), stage_output([0, 1])],
        ),
        reference: file_of(2, &[reference_output(1), reference_output(0)]),
    };
    cases.add(
        "1 is given as 2",
        (&exchanged, &wires(2, &[2])),
        [16, 9],
        ACCEPTED,
    );
    cases.add(
        "23: 1 is given as 2",
        (&exchanged, &wires(2, &[1])),
        [16, 9],
        [23, NONE, 0, 1],
    );
}

/// The joins that examples/JOINS.md lists.
fn stored_joins(cases: &mut Cases) {
    let examples = examples();
    let find = |name: &str| {
        let example = examples.iter().find(|example| example.name == name);
        &example.expect("a stored pair").pair
    };
    for joint in joints() {
        let room = joint.whole.map_or([40, 20], |name| {
            let whole = find(name);
            [whole.stage.len() + 2, whole.reference.len() + 1]
        });
        let about = format!("{} and {}: {}", joint.first, joint.second, joint.about);
        let parts = (find(joint.first), find(joint.second));
        cases.push(about, parts, room, Known::Number(joint.number));
    }
}

/// For each number and file one pair that the check refuses so, as the first part and as the
/// second: "the second's with 3 added to its file".
fn refused_parts(cases: &mut Cases) {
    let mut seen = BTreeSet::new();
    for case in check::cases() {
        let Known::Verdict([number, file, at, word]) = case.known else {
            continue;
        };
        // The gates of a part have limits of their own, and it has no registers.
        if matches!(number, 0 | 6 | 33..=35) || !seen.insert((number, file)) {
            continue;
        }
        let first = format!("the first part is refused, {}", case.about);
        cases.add(
            &first,
            (&case.pair, &wire()),
            [9, 9],
            [number, file, at, word],
        );
        let second = format!("the second part is refused, {}", case.about);
        let moved = [number, file + 3, at, word];
        cases.add(&second, (&wire(), &case.pair), [9, 9], moved);
    }
    let swapped = pair("01 01 03 01 00 00 00 00", "01 01 12 00 00 00");
    let empty = pair("", "");
    cases.add(
        "both parts are refused",
        (&swapped, &empty),
        [9, 9],
        [13, 1, 0, 0],
    );
    cases.add(
        "both parts are refused, the other way",
        (&empty, &swapped),
        [9, 9],
        [1, 1, 0, 0],
    );
    cases.add("all files empty", (&empty, &empty), [0, 0], [1, 1, 0, 0]);
}

/// A wire behind so many gates on each rail, and a reference with so many NOTs that lead to nothing.
fn long_wire(gates: [usize; 2], nots: usize) -> FilePair {
    let mut stage = Stage {
        inputs: 1,
        ..Stage::default()
    };
    let mut rails = [0, 1];
    for (rail, net) in rails.iter_mut().enumerate() {
        for _ in 0..gates[rail] {
            stage.gates.push(Gate {
                kind: 2,
                pins: vec![*net, *net],
            });
            *net = stage.nets() - 1;
        }
    }
    stage.outputs.push(rails);
    let not = Boolean {
        operation: NOT,
        operands: vec![0],
    };
    let reference = Reference {
        inputs: 1,
        gates: vec![not; nots],
        outputs: vec![0],
    };
    FilePair {
        stage: write_stage(&stage),
        reference: write_reference(&reference),
    }
}

/// "Parts are still held to 128 and 256."
fn part_limits(cases: &mut Cases) {
    let (gates, operations) = (PART_LIMITS.stage_gates, PART_LIMITS.reference_gates);
    let full = long_wire([gates / 2, gates / 2], operations);
    let room = [2 + 20 * gates + 5 + 1, 2 + 12 * operations + 3 + 1];
    cases.add("two full parts", (&full, &full), room, ACCEPTED);
    let more = long_wire([gates / 2 + 1, gates / 2], operations);
    let at = 2 + 10 * gates as u64;
    cases.add("129 gates first", (&more, &full), room, [6, 1, at, 0]);
    cases.add("129 gates second", (&full, &more), room, [6, 4, at, 0]);
    let more = long_wire([gates / 2, gates / 2], operations + 1);
    let at = 2 + 6 * operations as u64;
    cases.add(
        "257 operations first",
        (&more, &wire()),
        room,
        [6, 2, at, 0],
    );
    cases.add(
        "257 operations second",
        (&wire(), &more),
        room,
        [6, 5, at, 0],
    );
    let mut outputs = ReferenceBuilder::new(2);
    let and = outputs.gate(AND, &[0, 1]);
    for _ in 0..17 {
        outputs.output(and);
    }
    let outputs = FilePair {
        stage: write_stage(&dual_rail(&outputs.reference)),
        reference: write_reference(&outputs.reference),
    };
    cases.add(
        "17 outputs first",
        (&outputs, &wire()),
        room,
        [6, 1, 102, 0],
    );
    cases.add(
        "17 outputs second",
        (&wire(), &outputs),
        room,
        [6, 4, 102, 0],
    );
}

/// Generated joins of few bytes, of the families that are made for joins.
fn generated(cases: &mut Cases) {
    for index in 0..80 {
        let generated = any_join(2026, index);
        let case = generated.case;
        let longest = case.stage.len().max(case.reference.len());
        if !generated.family.starts_with("any") && longest <= 400 {
            cases.0.push(Case {
                about: format!("generated, {}, number {index}", generated.family),
                case,
                known: generated.known,
            });
        }
    }
}
