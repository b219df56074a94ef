//! The cases of the check: pairs of a stage and a reference.
//!
//! The verdicts of the paper's examples and of the cases made here are also written by
//! hand from document 01.

use crate::catalogue::pipelines::pipelines;
use crate::catalogue::{
    care_examples, examples_of_document_01, low_examples, pair_examples, relaxed_examples,
    retired_examples, Example, MARKED,
};
use crate::circuits::{dual_rail, kind_named, ReferenceBuilder, Signal, StageBuilder};
use crate::files::{
    care_word, file_of, reference_gate, reference_output, unhex, write_pair, FilePair,
};
use crate::generate::pipelines::pipeline_pair;
use crate::generate::{self, Known};
use crate::judge::{
    expression_holds, is_retired, pin_count, Boolean, Reference, Stage, Verdict, ACCEPTED, AND,
    KINDS, NONE, NOR, NOT, OR, ORDERS, REFERENCE, STAGE, XOR,
};
use crate::suite::row::{self, cut, gate, output};
use crate::suite::{numbers, verdict_in, Stored, WITH_PARTS};

pub struct Case {
    pub about: String,
    pub pair: FilePair,
    /// What is known of the verdict without the judge.
    pub known: Known,
}

/// A line is the judge's four numbers.
pub fn stored() -> Vec<Stored> {
    let stored = cases().into_iter().map(|case| Stored {
        about: case.about,
        lines: ORDERS
            .map(|order| numbers(verdict_in(order, &case.pair), &[]))
            .into(),
        operands: vec![case.pair.stage, case.pair.reference],
    });
    stored.collect()
}

struct Cases(Vec<Case>);

impl Cases {
    /// A pair that is there already is left out.
    fn push(&mut self, about: impl Into<String>, pair: FilePair, known: Known) {
        if self.0.iter().all(|case| case.pair != pair) {
            self.0.push(Case {
                about: about.into(),
                pair,
                known,
            });
        }
    }

    fn add(&mut self, about: &str, stage: &[u8], reference: &[u8], verdict: Verdict) {
        let pair = FilePair {
            stage: stage.to_vec(),
            reference: reference.to_vec(),
        };
        self.push(about, pair, Known::Verdict(verdict));
    }

    /// A stage that is refused, against a wire.
    fn stage(&mut self, about: &str, stage: &[u8], number: u64, at: u64) {
        self.add(about, stage, &wire_reference(), [number, STAGE, at, 0]);
    }

    /// A reference that is refused, against a wire.
    fn reference(&mut self, about: &str, reference: &[u8], number: u64, at: u64) {
        self.add(about, &wire(), reference, [number, REFERENCE, at, 0]);
    }
}

fn wire() -> Vec<u8> {
    unhex("01 01 03 00 00 01 00 00")
}

fn wire_reference() -> Vec<u8> {
    unhex("01 01 12 00 00 00")
}

/// A reference gate.
fn op(operation: usize, operands: &[usize]) -> Vec<u8> {
    reference_gate(&Boolean {
        operation,
        operands: operands.to_vec(),
    })
}

/// A reference's gate command with its operands spelt out.
fn raw_op(operation: u8, first: u16, second: u16) -> Vec<u8> {
    let mut bytes = vec![0x11, operation];
    bytes.extend(first.to_le_bytes());
    bytes.extend(second.to_le_bytes());
    bytes
}

fn signal(signal: usize) -> Vec<u8> {
    reference_output(signal)
}

/// An input as an output.
fn through(input: usize) -> Vec<u8> {
    output(2 * input, 2 * input + 1)
}

const TH12: usize = 1;
const TH22: usize = 2;
const TH33: usize = 5;
const TH44: usize = 11;
const X: u16 = 0xFFFF;

pub fn cases() -> Vec<Case> {
    let mut cases = Cases(Vec::new());
    marked_cases(&mut cases);
    table_of_verdicts(&mut cases);
    stored_examples(&mut cases, examples_of_document_01());
    refusals_of_the_stage(&mut cases, row::cases_of_document_01());
    refusals_of_the_reference(&mut cases);
    two_faults_in_the_reference(&mut cases);
    one_check_before_another(&mut cases);
    wrong_outputs(&mut cases);
    incomplete_stages(&mut cases);
    unobservable_stages(&mut cases);
    limits(&mut cases);
    all_kinds(&mut cases);
    generated(&mut cases);
    // What document 02 adds stands behind, so that the cases above keep their numbers.
    stored_examples(&mut cases, care_examples());
    refusals_of_the_stage(&mut cases, row::care_cases());
    care_words(&mut cases);
    stored_examples(&mut cases, relaxed_examples());
    refusals_of_the_stage(&mut cases, row::relaxed_cases());
    relaxed_kinds(&mut cases);
    stored_examples(&mut cases, pair_examples());
    stored_examples(&mut cases, retired_examples());
    refusals_of_the_stage(&mut cases, row::retired_cases());
    retired_kinds(&mut cases);
    stored_examples(&mut cases, low_examples());
    gates_that_never_rise(&mut cases);
    registers(&mut cases);
    cases.0
}

fn marked_cases(cases: &mut Cases) {
    for (case, (about, stage, reference, verdict)) in MARKED.into_iter().enumerate() {
        let about = format!("marked case {}: {about}", case + 1);
        cases.add(&about, &unhex(stage), &unhex(reference), verdict);
    }
}

/// The examples of the table of verdicts; those of 14 and 15 are marked cases.
fn table_of_verdicts(cases: &mut Cases) {
    cases.stage("1: empty stage", &[], 1, 0);
    cases.stage("2: a gate first", &unhex("02"), 2, 0);
    cases.stage("3: eleven inputs", &unhex("01 0B"), 3, 1);
    cases.stage(
        "4: kind 28",
        &unhex("01 01 02 1C 00 00 01 00 FF FF FF FF"),
        4,
        3,
    );
    cases.stage(
        "5: TH22 without pin B",
        &unhex("01 01 02 02 00 00 FF FF FF FF FF FF"),
        5,
        6,
    );
    cases.stage(
        "6: one input, then 17 outputs",
        &file_of(1, &vec![output(0, 1); 17]),
        6,
        82,
    );
    cases.stage(
        "7: a byte after end",
        &unhex("01 01 03 00 00 01 00 00 00"),
        7,
        8,
    );
    cases.stage("8: no output", &unhex("01 01 00"), 8, 2);
    cases.stage(
        "9: net 2 of a wire",
        &unhex("01 01 03 00 00 02 00 00"),
        9,
        5,
    );
    cases.add(
        "10: 1 against 2",
        &wire(),
        &file_of(2, &[signal(0)]),
        [10, NONE, 1, 2],
    );
    cases.add(
        "11: 1 against 3",
        &wire(),
        &file_of(1, &vec![signal(0); 3]),
        [11, NONE, 1, 3],
    );
    cases.stage(
        "12: gate 0 with pin A on its own net",
        &file_of(1, &[gate(TH12, &[2, 0]), output(0, 1)]),
        12,
        0,
    );
    cases.add(
        "13: swapped rails against a wire",
        &file_of(1, &[output(1, 0)]),
        &wire_reference(),
        [13, STAGE, 0, 0],
    );
}

/// All pairs under examples/.
fn stored_examples(cases: &mut Cases, examples: Vec<Example>) {
    for example in examples {
        cases.push(
            format!("{}: {}", example.name, example.about),
            example.pair,
            Known::Number(example.number),
        );
    }
}

/// Document 02, M-111: registers and C-elements.
fn registers(cases: &mut Cases) {
    for with in &WITH_PARTS {
        cases.add(
            with.about,
            &unhex(with.stage),
            &wire_reference(),
            with.verdict,
        );
    }
    for part in ["04", "05"] {
        cases.reference(
            &format!("2: {part} in a reference"),
            &unhex(&format!("01 01 {part} 00 00 00 00 FF FF FF FF")),
            2,
            2,
        );
    }
    stored_examples(cases, pipelines());
    for index in 0..120 {
        let generated = pipeline_pair(2026, index);
        cases.push(
            format!("generated, {}, number {index}", generated.family),
            generated.pair,
            generated.known,
        );
    }
}

/// The stages that the settled-row call refuses by 1 to 9 and 12 are refused here in
/// the same words, where the reference is readable and has as many inputs and outputs.
fn refusals_of_the_stage(cases: &mut Cases, rows: Vec<row::Case>) {
    for case in rows {
        if case.verdict[1] != STAGE {
            continue;
        }
        let reference = match crate::judge::read_stage(&case.stage) {
            Ok(stage) => file_of(stage.inputs, &vec![signal(0); stage.outputs.len()]),
            Err(_) => wire_reference(),
        };
        cases.add(&case.about, &case.stage, &reference, case.verdict);
    }
}

/// Each of 1 to 9 in the reference, at several places.
fn refusals_of_the_reference(cases: &mut Cases) {
    cases.reference("1: empty reference", &[], 1, 0);
    cases.reference("1: the count is missing", &unhex("01"), 1, 1);
    cases.reference("1: only the count", &unhex("01 01"), 1, 2);
    cases.reference("1: only a gate's command", &unhex("01 01 11"), 1, 3);
    let not = file_of(1, &[op(NOT, &[0]), signal(1)]);
    cases.reference("1: a gate without its last byte", &not[..7], 1, 7);
    cases.reference("1: an output without its last byte", &not[..10], 1, 10);
    cases.reference("1: all but the end", &not[..11], 1, 11);

    cases.reference("2: end first", &unhex("00"), 2, 0);
    cases.reference("2: an output first", &unhex("12 00 00 00"), 2, 0);
    cases.reference("2: inputs again", &unhex("01 01 01 01 12 00 00 00"), 2, 2);
    cases.reference(
        "2: inputs again after an output",
        &unhex("01 01 12 00 00 01 01 00"),
        2,
        5,
    );
    cases.reference(
        "2: a stage's gate",
        &file_of(1, &[gate(TH12, &[0, 1]), signal(0)]),
        2,
        2,
    );
    cases.reference("2: a stage", &wire(), 2, 2);
    cases.reference(
        "2: no command, after a gate",
        &file_of(1, &[op(NOT, &[0]), vec![0xFF], signal(1)]),
        2,
        8,
    );

    for count in [0, 11, 255] {
        let about = format!("3: a count of {count}");
        cases.reference(&about, &file_of(count, &[signal(0)]), 3, 1);
    }

    for operation in [0, 7, 255] {
        let about = format!("4: operation {operation}");
        let file = file_of(1, &[raw_op(operation, 0, 0), signal(0)]);
        cases.reference(&about, &file, 4, 3);
    }
    cases.reference(
        "4: operation 7 in the second gate, after an output",
        &file_of(1, &[op(NOT, &[0]), signal(1), raw_op(7, 0, 0)]),
        4,
        12,
    );

    for operation in AND..=NOR {
        let about = format!("5: operation {operation} without its first operand");
        let file = file_of(1, &[raw_op(operation as u8, X, 0), signal(0)]);
        cases.reference(&about, &file, 5, 4);
        let about = format!("5: operation {operation} without its second operand");
        let file = file_of(1, &[raw_op(operation as u8, 0, X), signal(0)]);
        cases.reference(&about, &file, 5, 6);
    }
    cases.reference(
        "5: NOT without its operand",
        &file_of(1, &[raw_op(1, X, X), signal(0)]),
        5,
        4,
    );
    cases.reference(
        "5: NOT with a second operand, in the second gate",
        &file_of(1, &[op(NOT, &[0]), raw_op(1, 0, 0), signal(0)]),
        5,
        12,
    );

    let mut many = vec![op(NOT, &[0]); 513];
    many.push(signal(0));
    cases.reference("6: 513 gates", &file_of(1, &many), 6, 3074);
    cases.reference("6: 17 outputs", &file_of(1, &vec![signal(0); 17]), 6, 50);
    let mut outputs = vec![signal(0); 16];
    outputs.extend([op(NOT, &[0]), op(NOT, &[1]), signal(0)]);
    cases.reference(
        "6: the 17th output after two gates",
        &file_of(1, &outputs),
        6,
        62,
    );

    cases.reference("7: a byte after end", &unhex("01 01 12 00 00 00 00"), 7, 6);
    cases.reference(
        "7: a whole second reference after end",
        &[wire_reference(), wire_reference()].concat(),
        7,
        6,
    );
    cases.reference("8: no output", &unhex("01 01 00"), 8, 2);
    cases.reference(
        "8: a gate and no output",
        &file_of(1, &[op(NOT, &[0])]),
        8,
        8,
    );

    cases.reference("9: signal 1 of a wire", &unhex("01 01 12 01 00 00"), 9, 3);
    cases.reference("9: FFFF in an output", &unhex("01 01 12 FF FF 00"), 9, 3);
    cases.reference(
        "9: signal 256, whose low byte is 0",
        &unhex("01 01 12 00 01 00"),
        9,
        3,
    );
    cases.reference(
        "9: a gate on its own signal",
        &file_of(1, &[op(NOT, &[1]), signal(1)]),
        9,
        4,
    );
    cases.reference(
        "9: a gate on a later gate's signal",
        &file_of(1, &[op(AND, &[0, 2]), op(NOT, &[0]), signal(1)]),
        9,
        6,
    );
    cases.reference(
        "9: a gate on an absent signal, in the second gate",
        &file_of(1, &[op(NOT, &[0]), op(XOR, &[1, 9]), signal(1)]),
        9,
        12,
    );
}

/// Two faults in the reference: the first in the order of the paper is named.
fn two_faults_in_the_reference(cases: &mut Cases) {
    cases.reference("2 before 1: inputs again, cut", &unhex("01 01 01"), 2, 2);
    cases.reference(
        "1 before 4: operation 0, cut",
        &unhex("01 01 11 00 00"),
        1,
        5,
    );
    let mut outputs = vec![signal(0); 17];
    let file = cut(file_of(1, &outputs), 52);
    cases.reference("1 before 6: the 17th output, cut", &file, 1, 52);
    outputs[0] = signal(9);
    cases.reference(
        "6 before 9: an absent signal, then 17 outputs",
        &file_of(1, &outputs),
        6,
        50,
    );
    let mut many = vec![op(NOT, &[0]); 512];
    many.extend([raw_op(0, X, X), signal(0)]);
    cases.reference(
        "6 before 4: the 513th gate is of operation 0",
        &file_of(1, &many),
        6,
        3074,
    );
    cases.reference(
        "4 before 5: operation 0 without operands",
        &file_of(1, &[raw_op(0, X, X), signal(0)]),
        4,
        3,
    );
    cases.reference(
        "5 by operand: AND with neither",
        &file_of(1, &[raw_op(2, X, X), signal(0)]),
        5,
        4,
    );
    cases.reference(
        "the earlier command first: 5 in gate 0, operation 7 in gate 1",
        &file_of(1, &[raw_op(1, 0, 0), raw_op(7, 0, 0), signal(0)]),
        5,
        6,
    );
    cases.reference("8 before 7: a byte after end", &unhex("01 01 00 00"), 8, 2);
    cases.reference(
        "8 before 9: an absent signal",
        &file_of(1, &[op(NOT, &[5])]),
        8,
        8,
    );
    cases.reference(
        "7 before 9: an absent signal",
        &unhex("01 01 12 01 00 00 FF"),
        7,
        6,
    );
    cases.reference(
        "9 in file order: an output before a gate",
        &file_of(1, &[signal(5), op(NOT, &[9])]),
        9,
        3,
    );
    cases.reference(
        "9 in file order: a gate before an output",
        &file_of(1, &[op(NOT, &[9]), signal(5)]),
        9,
        4,
    );
}

/// Two faults that different checks find: the earlier check is named.
fn one_check_before_another(cases: &mut Cases) {
    cases.add(
        "the stage before the reference: 9 and 1",
        &file_of(1, &[output(0, 9)]),
        &[],
        [9, STAGE, 5, 0],
    );
    cases.add(
        "the stage before the reference: 7 and 2",
        &[wire(), vec![0]].concat(),
        &[0xFF],
        [7, STAGE, 8, 0],
    );
    cases.add(
        "the two files exchanged",
        &wire_reference(),
        &wire(),
        [2, STAGE, 2, 0],
    );
    let looped = file_of(1, &[gate(TH12, &[2, 0]), output(0, 1)]);
    cases.add(
        "a refused reference before 12",
        &looped,
        &unhex("01 01 12 01 00 00"),
        [9, REFERENCE, 3, 0],
    );
    cases.add(
        "10 before 12",
        &looped,
        &file_of(2, &[signal(0)]),
        [10, NONE, 1, 2],
    );
    cases.add(
        "11 before 12",
        &looped,
        &file_of(1, &[signal(0), signal(0)]),
        [11, NONE, 1, 2],
    );
    cases.add(
        "10 before 11: ten inputs and outputs against one",
        &file_of(10, &(0..10).map(through).collect::<Vec<_>>()),
        &wire_reference(),
        [10, NONE, 10, 1],
    );
    cases.add(
        "10: one input against ten",
        &wire(),
        &file_of(10, &[signal(0)]),
        [10, NONE, 1, 10],
    );
    cases.add(
        "11: sixteen outputs against one",
        &file_of(1, &vec![through(0); 16]),
        &wire_reference(),
        [11, NONE, 16, 1],
    );
    cases.add(
        "11: one output against sixteen",
        &wire(),
        &file_of(1, &vec![signal(0); 16]),
        [11, NONE, 1, 16],
    );
    cases.add(
        "12 before 13: a loop, and rails swapped",
        &file_of(1, &[gate(TH12, &[0, 1]), gate(TH22, &[3, 3]), output(1, 0)]),
        &wire_reference(),
        [12, STAGE, 1, 0],
    );
    cases.add(
        "13 before 14: wrong in word 3, an input that counts for nothing",
        &file_of(2, &[through(0)]),
        &file_of(2, &[op(AND, &[0, 1]), op(XOR, &[0, 2]), signal(3)]),
        [13, STAGE, 0, 3],
    );
    cases.add(
        "13 before 15: wrong in word 1, a gate that feeds nothing in word 0",
        &file_of(1, &[gate(TH22, &[0, 0]), output(0, 0)]),
        &file_of(1, &[op(XOR, &[0, 0]), signal(1)]),
        [13, STAGE, 0, 0],
    );
    cases.add(
        "14 before 15: an input and a gate that count for nothing",
        &file_of(2, &[gate(TH12, &[0, 1]), through(0)]),
        &file_of(2, &[signal(0)]),
        [14, STAGE, 1, 0],
    );
    cases.add(
        "14 before 15: the input in word 1, the gate in word 0",
        &file_of(
            2,
            &[
                gate(TH22, &[0, 2]),
                gate(TH12, &[1, 3]),
                gate(TH22, &[0, 0]),
                output(4, 5),
            ],
        ),
        &file_of(2, &[op(OR, &[0, 1]), signal(2)]),
        [14, STAGE, 1, 1],
    );
}

/// 13: the least word, then the least output.
fn wrong_outputs(cases: &mut Cases) {
    let two = file_of(2, &[signal(0), signal(1)]);
    let mut wrong = |about: &str, stage: Vec<u8>, reference: &[u8], at: u64, word: u64| {
        cases.add(about, &stage, reference, [13, STAGE, at, word]);
    };
    wrong(
        "13: the second of two wires swapped",
        file_of(2, &[through(0), output(3, 2)]),
        &two,
        1,
        0,
    );
    wrong(
        "13: both wires swapped, the least output",
        file_of(2, &[output(1, 0), output(3, 2)]),
        &two,
        0,
        0,
    );
    wrong(
        "13: the wires exchanged, the least word",
        file_of(2, &[through(1), through(0)]),
        &two,
        0,
        1,
    );
    wrong(
        "13: a wire for AND",
        file_of(2, &[through(0)]),
        &file_of(2, &[op(AND, &[0, 1]), signal(2)]),
        0,
        1,
    );
    wrong(
        "13: a wire for OR",
        file_of(2, &[through(0)]),
        &file_of(2, &[op(OR, &[0, 1]), signal(2)]),
        0,
        2,
    );
    wrong(
        "13: output 0 wrong in word 3, output 1 in word 2: the least word first",
        file_of(2, &[through(0), through(0)]),
        &file_of(
            2,
            &[
                op(AND, &[0, 1]),
                op(XOR, &[0, 2]),
                op(OR, &[0, 1]),
                signal(3),
                signal(4),
            ],
        ),
        1,
        2,
    );
    wrong(
        "13: NULL in word 1",
        file_of(1, &[gate(TH22, &[0, 1]), output(0, 2)]),
        &wire_reference(),
        0,
        1,
    );
    wrong(
        "13: both rails high in word 1, with the right one among them",
        file_of(1, &[gate(TH12, &[0, 1]), output(2, 1)]),
        &wire_reference(),
        0,
        1,
    );
    wrong(
        "13: NULL in every word, from word 0 on",
        file_of(1, &[gate(TH22, &[0, 1]), output(2, 2)]),
        &wire_reference(),
        0,
        0,
    );
    let mut outputs: Vec<Vec<u8>> = (0..10).map(through).collect();
    outputs.extend(vec![through(9); 6]);
    let mut r = ReferenceBuilder::new(10);
    let all = r.chain(AND, &[0, 1, 2, 3, 4, 5, 6, 7, 8, 9]);
    let last = r.xor(9, all);
    for signal in [0, 1, 2, 3, 4, 5, 6, 7, 8, 9, 9, 9, 9, 9, 9, last] {
        r.output(signal);
    }
    wrong(
        "13: the last output in the last word",
        file_of(10, &outputs),
        &crate::files::write_reference(&r.reference),
        15,
        1023,
    );
}

/// 14: the least word, then the least input.
fn incomplete_stages(cases: &mut Cases) {
    let unread = |inputs: usize, wired: &[usize]| {
        (
            file_of(
                inputs,
                &wired.iter().map(|&i| through(i)).collect::<Vec<_>>(),
            ),
            file_of(
                inputs,
                &wired.iter().map(|&i| signal(i)).collect::<Vec<_>>(),
            ),
        )
    };
    for (inputs, wired, least) in [
        (3, vec![0, 1], 2),
        (3, vec![1], 0),
        (3, vec![0, 2], 1),
        (10, vec![0, 1, 2, 3, 4, 5, 6, 7, 8], 9),
    ] {
        let (stage, reference) = unread(inputs, &wired);
        let about = format!("14: of {inputs} inputs only {wired:?} are wired out");
        cases.add(&about, &stage, &reference, [14, STAGE, least, 0]);
    }
    cases.add(
        "14: OR by TH22 and TH12: word 1 and input 1 before word 2 and input 0",
        &file_of(2, &[gate(TH22, &[0, 2]), gate(TH12, &[1, 3]), output(4, 5)]),
        &file_of(2, &[op(OR, &[0, 1]), signal(2)]),
        [14, STAGE, 1, 1],
    );
    // Output 0 is input i or all others together; it does not wait for input i where all others are 1.
    for (n, i) in [(3, 1), (4, 0), (5, 4), (10, 0), (10, 9)] {
        let mut s = StageBuilder::new(n);
        let mut r = ReferenceBuilder::new(n);
        let inputs = s.inputs();
        let others: Vec<usize> = (0..n).filter(|&other| other != i).collect();
        let low: Vec<usize> = others.iter().map(|&other| inputs[other].rail_0).collect();
        let some_low = s.any_of(&low).expect("other inputs");
        let mut all_high = inputs[others[0]].rail_1;
        for &other in &others[1..] {
            all_high = s.gate("TH22", &[all_high, inputs[other].rail_1]);
        }
        let rail_0 = s.gate("TH22", &[inputs[i].rail_0, some_low]);
        let rail_1 = s.gate("TH12", &[inputs[i].rail_1, all_high]);
        s.output(Signal { rail_0, rail_1 });
        let all = r.chain(AND, &others);
        let either = r.or(i, all);
        r.output(either);
        for other in others {
            s.output(inputs[other]);
            r.output(other);
        }
        let word = (1 << n) - 1 - (1 << i);
        cases.push(
            format!("14: of {n} inputs {i} counts for nothing where all others are 1"),
            write_pair(&s.stage, &r.reference),
            Known::Verdict([14, STAGE, i as u64, word]),
        );
    }
}

/// 15: the least word, then the least gate.
fn unobservable_stages(cases: &mut Cases) {
    let mut idle = |about: &str, inputs: usize, gates: &[Vec<u8>], rails: [usize; 2], at, word| {
        let mut commands = gates.to_vec();
        commands.push(output(rails[0], rails[1]));
        commands.extend((1..inputs).map(through));
        let outputs: Vec<Vec<u8>> = (0..inputs).map(signal).collect();
        let verdict = match (at, word) {
            (Some(at), word) => [15, STAGE, at, word],
            _ if about.starts_with("32") => [32, STAGE, 0, 0],
            _ => ACCEPTED,
        };
        let reference = file_of(inputs, &outputs);
        cases.add(about, &file_of(inputs, &commands), &reference, verdict);
    };
    idle(
        "15: gate 1 feeds nothing, gate 0 is a rail of the output",
        1,
        &[gate(TH22, &[0, 0]), gate(TH12, &[0, 1])],
        [2, 1],
        Some(1),
        0,
    );
    idle(
        "15: a gate that rises in word 1",
        1,
        &[gate(TH22, &[1, 1])],
        [0, 1],
        Some(0),
        1,
    );
    idle(
        "15: gate 0 rises in word 1, gate 1 in word 0: the least word first",
        1,
        &[gate(TH22, &[1, 1]), gate(TH22, &[0, 0])],
        [0, 1],
        Some(1),
        0,
    );
    idle(
        "15: two gates in word 0: the least gate",
        1,
        &[gate(TH22, &[0, 0]), gate(TH12, &[0, 1])],
        [0, 1],
        Some(0),
        0,
    );
    idle(
        "15: a chain of two that feeds nothing",
        1,
        &[gate(TH12, &[0, 1]), gate(TH22, &[2, 2])],
        [0, 1],
        Some(0),
        0,
    );
    idle(
        "15: two gates that stand in for each other, before the last one",
        1,
        &[
            gate(TH22, &[1, 1]),
            gate(TH22, &[1, 1]),
            gate(TH12, &[2, 3]),
        ],
        [0, 4],
        Some(0),
        1,
    );
    idle(
        "15: the same, the later gates first in the file",
        1,
        &[
            gate(TH12, &[3, 4]),
            gate(TH22, &[1, 1]),
            gate(TH22, &[1, 1]),
        ],
        [0, 2],
        Some(1),
        1,
    );
    idle(
        "15: a gate that rises from word 960 on",
        10,
        &[gate(TH44, &[13, 15, 17, 19])],
        [0, 1],
        Some(0),
        960,
    );
    idle(
        "32: a gate that rises in no word",
        1,
        &[gate(TH22, &[0, 1])],
        [0, 1],
        None,
        0,
    );
    idle(
        "both of two that do not stand in for each other",
        1,
        &[
            gate(TH22, &[1, 1]),
            gate(TH22, &[1, 1]),
            gate(TH22, &[2, 3]),
        ],
        [0, 4],
        None,
        0,
    );
    let mut chain: Vec<Vec<u8>> = vec![gate(TH22, &[1, 1])];
    chain.extend((1..256).map(|k| gate(TH22, &[1 + k, 1 + k])));
    idle("a chain of 256 gates", 1, &chain, [0, 257], None, 0);
    idle(
        "15: the last of 256 gates",
        1,
        &chain,
        [0, 256],
        Some(255),
        1,
    );
    let backward: Vec<Vec<u8>> = (0..256)
        .map(|k| match k {
            255 => gate(TH33, &[1, 1, 1]),
            _ => gate(TH22, &[3 + k, 3 + k]),
        })
        .collect();
    idle(
        "a chain of 256 gates, each naming the next",
        1,
        &backward,
        [0, 2],
        None,
        0,
    );
}

fn limits(cases: &mut Cases) {
    cases.add(
        "sixteen outputs, one net in many of them",
        &file_of(1, &vec![through(0); 16]),
        &file_of(1, &vec![signal(0); 16]),
        ACCEPTED,
    );
    let mut nots: Vec<Vec<u8>> = (0..512).map(|k| op(NOT, &[k])).collect();
    nots.push(signal(512));
    cases.add(
        "a reference of 512 gates",
        &wire(),
        &file_of(1, &nots),
        ACCEPTED,
    );
    cases.add(
        "the same against the rails swapped",
        &file_of(1, &[output(1, 0)]),
        &file_of(1, &nots),
        [13, STAGE, 0, 0],
    );
    nots[512] = signal(511);
    cases.add(
        "the last but one of 512 gates",
        &file_of(1, &[output(1, 0)]),
        &file_of(1, &nots),
        ACCEPTED,
    );
    let zeros = vec![0; 8192];
    cases.stage("8,192 bytes 0", &zeros, 2, 0);
    let mut long = wire();
    long.resize(8192, 0xFF);
    cases.stage("8,192 bytes, a wire at their start", &long, 7, 8);
    let mut long = wire_reference();
    long.resize(8192, 0xFF);
    cases.reference("8,192 bytes, a wire at their start", &long, 7, 6);
}

/// A gate of each kind on the rails 1 of as many inputs as it has pins, as rail 1 of
/// an output; rail 0 is high in all other words. It is the kind's function, so it is
/// not refused by 13, and a wire for each input makes it input-complete.
fn all_kinds(cases: &mut Cases) {
    for (index, (name, expression)) in KINDS.iter().enumerate() {
        let kind = index + 1;
        let (stage, reference) = kind_as_rail_1(name, expression);
        assert_eq!(kind_named(name), kind);
        let known = |verdict| match is_retired(kind) {
            true => Known::Verdict([28, STAGE, 0, 0]),
            false => Known::Verdict(verdict),
        };
        cases.push(
            format!("{name} as rail 1 of its function"),
            write_pair(&stage, &reference),
            known(ACCEPTED),
        );
        // The same with its least word of value 1 taken for 0 by the reference.
        let n = pin_count(kind);
        let value = |word: usize| {
            expression_holds(expression, [0, 1, 2, 3].map(|pin| word >> pin & 1 == 1))
        };
        let least = (0..1 << n)
            .find(|&word| value(word))
            .expect("all pins high");
        let mut r = ReferenceBuilder::new(n);
        let values: Vec<bool> = (0..1 << n).map(|w| value(w) && w != least).collect();
        let function = r.by_words(&values);
        r.output(function);
        for input in 0..n {
            r.output(input);
        }
        cases.push(
            format!("13: {name} against its function less word {least}"),
            write_pair(&stage, &r.reference),
            known([13, STAGE, 0, least as u64]),
        );
    }
}

fn kind_as_rail_1(name: &str, expression: &str) -> (Stage, Reference) {
    let n = pin_count(kind_named(name));
    let value =
        |word: usize| expression_holds(expression, [0, 1, 2, 3].map(|pin| word >> pin & 1 == 1));
    let mut s = StageBuilder::new(n);
    let inputs = s.inputs();
    let pins: Vec<usize> = inputs.iter().map(|input| input.rail_1).collect();
    let rail_1 = s.gate(name, &pins);
    let others: Vec<usize> = (0..1 << n)
        .filter(|&word| !value(word))
        .map(|word| {
            let rails: Vec<usize> = (0..n).map(|i| 2 * i + (word >> i & 1)).collect();
            s.gate(["TH22", "TH33", "TH44"][n - 2], &rails)
        })
        .collect();
    let rail_0 = s.any_of(&others).expect("word 0 is one of them");
    s.output(Signal { rail_0, rail_1 });
    let mut r = ReferenceBuilder::new(n);
    let values: Vec<bool> = (0..1 << n).map(value).collect();
    let function = r.by_words(&values);
    r.output(function);
    for (input, &wire) in inputs.iter().enumerate() {
        s.output(wire);
        r.output(input);
    }
    (s.stage, r.reference)
}

/// Pairs of all families of the generator.
fn generated(cases: &mut Cases) {
    for index in 0..160 {
        let generated = generate::pair_of_document_01(2026, index);
        let known = generate::known_with_retired(&generated);
        let known = generate::known_with_low_gates(&generate::Generated {
            known,
            ..generated.clone()
        });
        if generated
            .pair
            .stage
            .len()
            .max(generated.pair.reference.len())
            <= 8192
        {
            cases.push(
                format!("generated, {}, number {index}", generated.family),
                generated.pair,
                known,
            );
        }
    }
}

/// Document 02, M-101: the checks go over the words cared for, and name the least of these.
fn care_words(cases: &mut Cases) {
    let not = |list: &[u64]| {
        let mut commands: Vec<Vec<u8>> = list.iter().map(|&word| care_word(word)).collect();
        commands.push(output(1, 0));
        file_of(1, &commands)
    };
    cases.reference(
        "2: a care word in a reference",
        &file_of(1, &[care_word(0), signal(0)]),
        2,
        2,
    );
    cases.add(
        "13: wire swapped, word 1 cared for",
        &not(&[1]),
        &wire_reference(),
        [13, STAGE, 0, 1],
    );
    cases.add(
        "13: wire swapped, a list of both words",
        &not(&[0, 1]),
        &wire_reference(),
        [13, STAGE, 0, 0],
    );
    cases.add(
        "wire swapped against NOT, one word",
        &not(&[0]),
        &file_of(1, &[op(NOT, &[0]), signal(1)]),
        ACCEPTED,
    );
    cases.add(
        "10 with a care list",
        &not(&[1]),
        &file_of(2, &[signal(0)]),
        [10, NONE, 1, 2],
    );
    cases.add(
        "18 before a refused reference",
        &not(&[2]),
        &[],
        [18, STAGE, 3, 0],
    );
    cases.add(
        "a refused reference behind a care list",
        &not(&[1]),
        &[],
        [1, REFERENCE, 0, 0],
    );
    // Rail 0 is input 0's, rail 1 never rises: right in words 0 and 2 only.
    let constant = |list: &[u64]| {
        let mut commands: Vec<Vec<u8>> = list.iter().map(|&word| care_word(word)).collect();
        commands.extend([gate(TH22, &[0, 1]), output(0, 4), through(1)]);
        file_of(2, &commands)
    };
    let zero = file_of(2, &[op(XOR, &[0, 0]), signal(2), signal(1)]);
    let low = [32, STAGE, 0, 0];
    cases.add("32: 0 in words 0 and 2", &constant(&[0, 2]), &zero, low);
    cases.add("32: 0 in word 2 alone", &constant(&[2]), &zero, low);
    cases.add(
        "13: 0 in words 1 and 3, the least cared for is 3",
        &constant(&[0, 3]),
        &zero,
        [13, STAGE, 0, 3],
    );
    cases.add(
        "13: 0 without a list",
        &constant(&[]),
        &zero,
        [13, STAGE, 0, 1],
    );
    // Of two inputs one is wired out.
    let unread = |list: &[u64]| {
        let mut commands: Vec<Vec<u8>> = list.iter().map(|&word| care_word(word)).collect();
        commands.push(through(0));
        file_of(2, &commands)
    };
    cases.add(
        "14: an unread input, the least word cared for is 2",
        &unread(&[2, 3]),
        &file_of(2, &[signal(0)]),
        [14, STAGE, 1, 2],
    );
    // AND by TH12 and TH22: incomplete where an input is 0.
    let and = |list: &[u64]| {
        let mut commands = vec![gate(TH12, &[0, 2]), gate(TH22, &[1, 3]), output(4, 5)];
        commands.extend(list.iter().map(|&word| care_word(word)));
        file_of(2, &commands)
    };
    let and_reference = file_of(2, &[op(AND, &[0, 1]), signal(2)]);
    cases.add(
        "32: AND by TH12, only word 3 cared for",
        &and(&[3]),
        &and_reference,
        [32, STAGE, 0, 0],
    );
    cases.add(
        "14: AND by TH12, words 1 and 3: only input 1 may be missing in word 1",
        &and(&[1, 3]),
        &and_reference,
        [14, STAGE, 0, 1],
    );
    cases.add(
        "14: AND by TH12, words 2 and 3",
        &and(&[2, 3]),
        &and_reference,
        [14, STAGE, 1, 2],
    );
    // A gate that rises in word 0 only, and one that rises in word 1 only; both feed nothing.
    let idle = |list: &[u64]| {
        let mut commands = vec![gate(TH22, &[0, 0]), gate(TH22, &[1, 1]), output(0, 1)];
        let places = list.iter().enumerate();
        for (place, &word) in places {
            commands.insert(2 * place, care_word(word));
        }
        file_of(1, &commands)
    };
    for (list, at, word) in [
        (vec![], 0, 0),
        (vec![0, 1], 0, 0),
        (vec![0], 0, 0),
        (vec![1], 1, 1),
    ] {
        cases.add(
            &format!("15: an idle gate for each word, list {list:?}"),
            &idle(&list),
            &wire_reference(),
            [15, STAGE, at, word],
        );
    }
    let one_idle = |list: &[u64]| {
        let mut commands: Vec<Vec<u8>> = list.iter().map(|&word| care_word(word)).collect();
        commands.extend([gate(TH22, &[1, 1]), output(0, 1)]);
        file_of(1, &commands)
    };
    cases.add(
        "32: an idle gate that rises in no word cared for",
        &one_idle(&[0]),
        &wire_reference(),
        [32, STAGE, 0, 0],
    );
    cases.add(
        "15: the same with both words",
        &one_idle(&[0, 1]),
        &wire_reference(),
        [15, STAGE, 0, 1],
    );
    // Ten wires, the last output turned over in word 1000 by the reference.
    let ten = |list: &[u64]| {
        let mut commands: Vec<Vec<u8>> = list.iter().map(|&word| care_word(word)).collect();
        commands.extend((0..10).map(through));
        file_of(10, &commands)
    };
    let mut r = ReferenceBuilder::new(10);
    let one = r.one_word(1000);
    let turned = r.xor(9, one);
    for signal in (0..9).chain([turned]) {
        r.output(signal);
    }
    let turned = crate::files::write_reference(&r.reference);
    let all: Vec<u64> = (0..1024).collect();
    let others: Vec<u64> = (0..1024).filter(|&word| word != 1000).collect();
    let wrong = [13, STAGE, 9, 1000];
    cases.add(
        "13: ten wires, all words listed",
        &ten(&all),
        &turned,
        wrong,
    );
    cases.add(
        "13: ten wires, word 1000 alone",
        &ten(&[1000]),
        &turned,
        wrong,
    );
    cases.add(
        "13: ten wires, the last of three words",
        &ten(&[0, 512, 1000]),
        &turned,
        wrong,
    );
    cases.add(
        "ten wires, all words but 1000",
        &ten(&others),
        &turned,
        ACCEPTED,
    );
    cases.add(
        "ten wires, word 1023 alone",
        &ten(&[1023]),
        &turned,
        ACCEPTED,
    );
}

/// Document 02, M-102: checks 20 and 21, after 15, the least word and index; rises as before.
fn relaxed_kinds(cases: &mut Cases) {
    const R: usize = 128;
    for (name, expression) in KINDS {
        let (stage, reference) = kind_as_rail_1(&format!("r{name}"), expression);
        let verdict = match is_retired(stage.gates[0].kind) {
            true => [28, STAGE, 0, 0],
            false => ACCEPTED,
        };
        cases.push(
            format!("r{name} as rail 1 of its function, the inputs wired out"),
            write_pair(&stage, &reference),
            Known::Verdict(verdict),
        );
    }
    // AND of TH22(1, 3) and THand0(0, 2, 1, 3), either relaxed or not.
    let and_gates = |first: usize, second: usize| {
        vec![
            gate(TH22 + first, &[1, 3]),
            gate(26 + second, &[0, 2, 1, 3]),
        ]
    };
    let and = |list: &[u64], first, second| {
        let mut commands: Vec<Vec<u8>> = list.iter().map(|&word| care_word(word)).collect();
        commands.extend(and_gates(first, second));
        commands.push(output(5, 4));
        file_of(2, &commands)
    };
    let and_reference = file_of(2, &[op(AND, &[0, 1]), signal(2)]);
    for (list, first, second, verdict) in [
        (vec![], R, 0, [20, STAGE, 0, 3]),
        (vec![], 0, R, [20, STAGE, 0, 0]),
        (vec![], R, R, [20, STAGE, 0, 0]),
        (vec![3], R, R, [20, STAGE, 0, 3]),
        (vec![1, 3], R, R, [20, STAGE, 0, 1]),
        (vec![0, 1, 2], R, 0, [32, STAGE, 0, 0]),
        (vec![3], 0, R, [32, STAGE, 1, 0]),
        (vec![2, 3], R, 0, [20, STAGE, 0, 3]),
    ] {
        let about = format!("20: AND, rails relaxed {first} {second}, care list {list:?}");
        cases.add(&about, &and(&list, first, second), &and_reference, verdict);
    }
    // With one input wired out the other one is named.
    for input in 0..2 {
        let mut commands = and_gates(R, R);
        commands.extend([output(5, 4), through(input)]);
        cases.add(
            &format!("20: relaxed AND, input {input} wired out"),
            &file_of(2, &commands),
            &file_of(2, &[op(AND, &[0, 1]), signal(2), signal(input)]),
            [20, STAGE, 1 - input as u64, 0],
        );
    }
    let mut commands = and_gates(R, R);
    commands.extend([output(5, 4), through(0), through(1)]);
    cases.add(
        "relaxed AND, both inputs wired out",
        &file_of(2, &commands),
        &file_of(2, &[op(AND, &[0, 1]), signal(2), signal(0), signal(1)]),
        ACCEPTED,
    );
    // Rises are judged as before, and first.
    let mut commands = and_gates(R, R);
    commands.push(output(4, 5));
    cases.add(
        "13 before 20: relaxed AND, rails swapped",
        &file_of(2, &commands),
        &and_reference,
        [13, STAGE, 0, 0],
    );
    cases.add(
        "14 before 20: AND by relaxed TH12 and TH22",
        &file_of(
            2,
            &[
                gate(TH12 + R, &[0, 2]),
                gate(TH22 + R, &[1, 3]),
                output(4, 5),
            ],
        ),
        &and_reference,
        [14, STAGE, 0, 0],
    );
    let mut commands = and_gates(R, R);
    commands.extend([output(5, 4), gate(TH22, &[1, 3])]);
    cases.add(
        "15 before 20: relaxed AND and a gate that feeds nothing",
        &file_of(2, &commands),
        &and_reference,
        [15, STAGE, 2, 3],
    );
    cases.add(
        "12 before 20: a relaxed gate on its own net",
        &file_of(1, &[gate(TH12 + R, &[2, 0]), output(0, 1)]),
        &wire_reference(),
        [12, STAGE, 0, 0],
    );
    cases.add(
        "15: wire and a relaxed gate that rises in word 1 and feeds nothing",
        &file_of(1, &[gate(TH22 + R, &[1, 1]), output(0, 1)]),
        &wire_reference(),
        [15, STAGE, 0, 1],
    );
    // One input whose rails wait for a TH12 of both; rails relaxed or not.
    let joined = |list: &[u64], here: usize, first: usize, second: usize| {
        let mut commands: Vec<Vec<u8>> = list.iter().map(|&word| care_word(word)).collect();
        commands.extend([
            gate(TH12 + here, &[0, 1]),
            gate(TH22 + first, &[2, 0]),
            gate(TH22 + second, &[2, 1]),
            output(3, 4),
        ]);
        file_of(1, &commands)
    };
    for (list, here, first, second, verdict) in [
        (vec![], 0, 0, 0, ACCEPTED),
        (vec![], R, 0, 0, ACCEPTED),
        (vec![], 0, R, R, [21, STAGE, 0, 0]),
        (vec![], R, R, R, [21, STAGE, 0, 0]),
        (vec![], 0, R, 0, [21, STAGE, 0, 0]),
        (vec![], 0, 0, R, [21, STAGE, 0, 1]),
        (vec![1], 0, R, 0, [32, STAGE, 1, 0]),
        (vec![0], 0, 0, R, [32, STAGE, 2, 0]),
        (vec![1], 0, R, R, [21, STAGE, 0, 1]),
    ] {
        let about = format!(
            "21: rails that wait for a TH12, relaxed {here} {first} {second}, care list {list:?}"
        );
        let stage = joined(&list, here, first, second);
        cases.add(&about, &stage, &wire_reference(), verdict);
    }
    // A chain of two before the rails, and the gates in another order.
    cases.add(
        "21: two gates may stay high, the least is named",
        &file_of(
            1,
            &[
                gate(TH22 + R, &[3, 0]),
                gate(TH12, &[4, 4]),
                gate(TH12, &[0, 1]),
                gate(TH22 + R, &[3, 1]),
                output(2, 5),
            ],
        ),
        &wire_reference(),
        [21, STAGE, 1, 0],
    );
    cases.add(
        "21: only the last of the chain is let go early",
        &file_of(
            1,
            &[
                gate(TH12, &[0, 1]),
                gate(TH22 + R, &[2, 2]),
                gate(TH22, &[3, 0]),
                gate(TH22, &[3, 1]),
                output(4, 5),
            ],
        ),
        &wire_reference(),
        ACCEPTED,
    );
    // 20 in word 3, 21 in word 0 of another pair: 20 sweeps all words first.
    let mut commands = and_gates(R, 0);
    commands.extend([
        gate(TH12, &[4, 5]),
        gate(TH22 + R, &[6, 5]),
        gate(TH22, &[6, 4]),
        output(7, 8),
    ]);
    cases.add(
        "20 before 21: in a later word",
        &file_of(2, &commands),
        &and_reference,
        [20, STAGE, 0, 3],
    );
    let mut commands = and_gates(0, 0);
    commands.extend([
        gate(TH12, &[4, 5]),
        gate(TH22 + R, &[6, 5]),
        gate(TH22, &[6, 4]),
        output(7, 8),
    ]);
    cases.add(
        "21: the same with its first gate holding",
        &file_of(2, &commands),
        &and_reference,
        [21, STAGE, 2, 0],
    );
    let mut chain: Vec<Vec<u8>> = vec![gate(TH22 + R, &[1, 1])];
    chain.extend((1..256).map(|k| gate(TH22 + R, &[1 + k, 1 + k])));
    chain.push(output(0, 257));
    cases.add(
        "a chain of 256 relaxed gates",
        &file_of(1, &chain),
        &wire_reference(),
        ACCEPTED,
    );
}

/// Document 02, M-108: 28 stands after 12 and before 13, and names the least such gate.
fn retired_kinds(cases: &mut Cases) {
    let retired = |kind: usize| gate(kind, &[1, 1, 1, 1]);
    let wire_by = |gates: &[Vec<u8>], rail_1: usize| {
        let mut commands = gates.to_vec();
        commands.push(output(0, rail_1));
        file_of(1, &commands)
    };
    for kind in [24, 152] {
        cases.add(
            &format!("28: kind {kind}, right in all but that"),
            &wire_by(&[retired(kind)], 2),
            &wire_reference(),
            [28, STAGE, 0, 0],
        );
        cases.add(
            &format!("28 before 13: kind {kind}, rails swapped"),
            &file_of(1, &[retired(kind), output(2, 0)]),
            &wire_reference(),
            [28, STAGE, 0, 0],
        );
        cases.add(
            &format!("28 before 14: kind {kind}, an input that nothing reads"),
            &file_of(2, &[retired(kind), output(0, 4)]),
            &file_of(2, &[signal(0)]),
            [28, STAGE, 0, 0],
        );
        cases.add(
            &format!("28 before 15: kind {kind} feeding nothing"),
            &wire_by(&[gate(TH22, &[1, 1]), retired(kind)], 2),
            &wire_reference(),
            [28, STAGE, 1, 0],
        );
        cases.add(
            &format!("28: kind {kind} that rises in no word"),
            &wire_by(&[gate(kind, &[0, 1, 1, 0]), gate(kind, &[0, 0, 1, 1])], 1),
            &wire_reference(),
            [28, STAGE, 0, 0],
        );
        cases.add(
            &format!("12 before 28: kind {kind} and a later loop"),
            &wire_by(&[retired(kind), gate(TH12, &[3, 0])], 2),
            &wire_reference(),
            [12, STAGE, 1, 0],
        );
        cases.add(
            &format!("12 before 28: kind {kind} on its own net"),
            &wire_by(&[gate(kind, &[2, 1, 1, 1])], 1),
            &wire_reference(),
            [12, STAGE, 0, 0],
        );
        cases.add(
            &format!("10 before 28: kind {kind}"),
            &wire_by(&[retired(kind)], 2),
            &file_of(2, &[signal(0)]),
            [10, NONE, 1, 2],
        );
        cases.add(
            &format!("11 before 28: kind {kind}"),
            &wire_by(&[retired(kind)], 2),
            &file_of(1, &[signal(0), signal(0)]),
            [11, NONE, 1, 2],
        );
        cases.add(
            &format!("a refused reference before 28: kind {kind}"),
            &wire_by(&[retired(kind)], 2),
            &[],
            [1, REFERENCE, 0, 0],
        );
    }
    cases.add(
        "28: the least of gates 2 and 3, the relaxed one first",
        &wire_by(
            &[
                gate(TH22, &[1, 1]),
                gate(23, &[2, 2, 2, 2]),
                gate(152, &[3, 3, 3, 3]),
                gate(24, &[4, 4, 4, 4]),
            ],
            5,
        ),
        &wire_reference(),
        [28, STAGE, 2, 0],
    );
    let mut chain: Vec<Vec<u8>> = vec![gate(TH22, &[1, 1])];
    chain.extend((1..127).map(|k| gate(TH22, &[1 + k, 1 + k])));
    chain.push(gate(24, &[128, 128, 128, 128]));
    cases.add(
        "28: the last of 128 gates",
        &wire_by(&chain, 129),
        &wire_reference(),
        [28, STAGE, 127, 0],
    );
    for kind in [23, 25, 151, 153] {
        let gates = [gate(kind, &[1, 1, 1, 1])];
        let about = format!("kind {kind} is still cast");
        cases.add(&about, &wire_by(&gates, 2), &wire_reference(), ACCEPTED);
    }
    let mut listed = wire_by(&[gate(24, &[1, 1, 1, 1])], 2);
    listed.splice(2..2, care_word(0));
    cases.add(
        "28: a gate that rises in no word cared for",
        &listed,
        &wire_reference(),
        [28, STAGE, 0, 0],
    );
}

/// 32: the least gate that rises in no care word, after all other checks.
fn gates_that_never_rise(cases: &mut Cases) {
    let low = || gate(TH22, &[0, 1]);
    let mut one = |about: &str, gates: &[Vec<u8>], verdict| {
        let commands = [gates, &[through(0)]].concat();
        cases.add(about, &file_of(1, &commands), &wire_reference(), verdict);
    };
    one("32: gate 0 of two", &[low(), low()], [32, STAGE, 0, 0]);
    let idle = || gate(TH12, &[0, 1]);
    one("15 before 32", &[low(), idle()], [15, STAGE, 1, 0]);
    one(
        "15 before 32, the other way round",
        &[idle(), low()],
        [15, STAGE, 0, 0],
    );
    one(
        "12 before 32",
        &[low(), gate(TH12, &[3, 0])],
        [12, STAGE, 1, 0],
    );
    // Rail 1 of the output is a gate that is low in word 0.
    for (about, list, verdict) in [
        ("a gate that rises in word 1", vec![], ACCEPTED),
        (
            "a gate that rises in the last word cared for",
            vec![0, 1],
            ACCEPTED,
        ),
        (
            "a gate that rises in the one word cared for",
            vec![1],
            ACCEPTED,
        ),
        (
            "32: a gate that rises in word 1 alone, word 0 cared for",
            vec![0],
            [32, STAGE, 0, 0],
        ),
    ] {
        let mut commands: Vec<Vec<u8>> = list.iter().map(|&word| care_word(word)).collect();
        commands.extend([gate(TH12, &[1, 1]), output(0, 2)]);
        cases.add(about, &file_of(1, &commands), &wire_reference(), verdict);
    }
    // The conjunction of all inputs rises in the last word alone, about the blocks of 64 words.
    for inputs in [5, 6, 7, 10] {
        let mut r = ReferenceBuilder::new(inputs);
        let all = (1..inputs).fold(0, |all, input| r.gate(AND, &[all, input]));
        r.output(all);
        let last = (1 << inputs) - 1;
        let lists: [(&str, Vec<u64>, u64); 6] = [
            ("every word", vec![], 0),
            ("all but the last", (0..last).collect(), 32),
            ("the last alone", vec![last], 32),
            ("the first and the last", vec![0, last], 0),
            ("the last two", vec![last - 1, last], 0),
            ("the first alone", vec![0], 32),
        ];
        for (about, care, number) in lists {
            let stage = Stage {
                care,
                ..dual_rail(&r.reference)
            };
            cases.push(
                format!("{number}: AND of {inputs} inputs, cared for: {about}"),
                write_pair(&stage, &r.reference),
                Known::Number(number),
            );
        }
    }
}
