//! The cases of the settled-row call: stages and rows.
//!
//! A case's verdict is also written by hand from document 01.

use crate::files::{care_word, file_of, stage_gate, stage_output, unhex, write_stage};
use crate::judge::{pin_count, settled_row, Gate, Stage, Verdict, ACCEPTED, ROW, STAGE};
use crate::suite::{numbers, spelt, Stored, WITH_PARTS};

pub struct Case {
    pub about: String,
    pub stage: Vec<u8>,
    pub row: Vec<u8>,
    pub verdict: Verdict,
}

/// A line is the judge's four numbers, and the bytes of the row after its call.
pub fn stored() -> Vec<Stored> {
    let stored = cases().into_iter().map(|case| {
        let mut row = case.row.clone();
        let verdict = settled_row(&case.stage, &mut row);
        Stored {
            about: case.about,
            lines: vec![numbers(verdict, &[]) + &spelt(&row)],
            operands: vec![case.stage, case.row],
        }
    });
    stored.collect()
}

struct Cases(Vec<Case>);

impl Cases {
    fn add(&mut self, about: impl Into<String>, stage: Vec<u8>, row: Vec<u8>, verdict: Verdict) {
        self.0.push(Case {
            about: about.into(),
            stage,
            row,
            verdict,
        });
    }

    /// A refusal of the file, with a row that has to stay as it is.
    fn refused(&mut self, about: &str, stage: Vec<u8>, number: u64, at: usize) {
        self.add(about, stage, vec![1, 0, 7], [number, STAGE, at as u64, 0]);
    }

    /// A refusal of the row.
    fn row(&mut self, about: &str, stage: &[u8], row: Vec<u8>, number: u64, at: usize) {
        self.add(about, stage.to_vec(), row, [number, ROW, at as u64, 0]);
    }

    fn settles(&mut self, about: impl Into<String>, stage: &[u8], row: Vec<u8>) {
        self.add(about, stage.to_vec(), row, ACCEPTED);
    }
}

pub(crate) fn gate(kind: usize, pins: &[usize]) -> Vec<u8> {
    stage_gate(&Gate {
        kind,
        pins: pins.to_vec(),
    })
}

/// A gate command with its four operands spelt out.
fn raw_gate(kind: u8, operands: [u16; 4]) -> Vec<u8> {
    let mut bytes = vec![0x02, kind];
    bytes.extend(operands.iter().flat_map(|operand| operand.to_le_bytes()));
    bytes
}

pub(crate) fn output(rail_0: usize, rail_1: usize) -> Vec<u8> {
    stage_output([rail_0, rail_1])
}

pub(crate) fn cut(mut file: Vec<u8>, length: usize) -> Vec<u8> {
    file.truncate(length);
    file
}

const TH12: usize = 1;
const TH22: usize = 2;
const TH23: usize = 4;
const TH34W2: usize = 13;
const TH44: usize = 11;
const X: u16 = 0xFFFF;

pub fn cases() -> Vec<Case> {
    let mut cases = cases_of_document_01();
    cases.extend(care_cases());
    cases.extend(relaxed_cases());
    cases.extend(retired_cases());
    cases.extend(part_cases());
    cases
}

/// Document 02, M-111: registers and C-elements are no commands here.
pub fn part_cases() -> Vec<Case> {
    let mut cases = Cases(Vec::new());
    for with in &WITH_PARTS {
        cases.refused(with.about, unhex(with.stage), 2, with.part as usize);
    }
    cases.0
}

/// What document 02 adds: M-101, M-102, M-108.
pub fn care_cases() -> Vec<Case> {
    let mut cases = Cases(Vec::new());
    care_words(&mut cases);
    cases.0
}

pub fn relaxed_cases() -> Vec<Case> {
    let mut cases = Cases(Vec::new());
    relaxed_kinds(&mut cases);
    cases.0
}

pub fn retired_cases() -> Vec<Case> {
    let mut cases = Cases(Vec::new());
    retired_kinds(&mut cases);
    cases.0
}

pub fn cases_of_document_01() -> Vec<Case> {
    let mut cases = Cases(Vec::new());
    examples_of_the_paper(&mut cases);
    refusals_of_the_file(&mut cases);
    two_faults_in_one_file(&mut cases);
    loops(&mut cases);
    refusals_of_the_row(&mut cases);
    small_stages(&mut cases);
    all_kinds(&mut cases);
    large_stages(&mut cases);
    cases.0
}

fn wire() -> Vec<u8> {
    unhex("01 01 03 00 00 01 00 00")
}

/// "Whole case, stage 28 bytes": an AND of two inputs.
fn whole_case() -> Vec<u8> {
    unhex("01 02 02 02 01 00 03 00 FF FF FF FF 02 1A 00 00 02 00 01 00 03 00 03 05 00 04 00 00")
}

/// The examples of the table of verdicts, then the marked stages.
fn examples_of_the_paper(cases: &mut Cases) {
    cases.add("1: empty stage", vec![], vec![], [1, 1, 0, 0]);
    cases.refused("2: a gate first", unhex("02"), 2, 0);
    cases.refused("3: eleven inputs", unhex("01 0B"), 3, 1);
    cases.refused(
        "4: kind 28",
        unhex("01 01 02 1C 00 00 01 00 FF FF FF FF"),
        4,
        3,
    );
    cases.refused(
        "5: TH22 without pin B",
        unhex("01 01 02 02 00 00 FF FF FF FF FF FF"),
        5,
        6,
    );
    cases.refused(
        "6: one input, then 17 outputs",
        file_of(1, &vec![output(0, 1); 17]),
        6,
        82,
    );
    cases.refused(
        "7: a byte after end",
        unhex("01 01 03 00 00 01 00 00 00"),
        7,
        8,
    );
    cases.refused("8: no output", unhex("01 01 00"), 8, 2);
    cases.refused("9: net 2 of a wire", unhex("01 01 03 00 00 02 00 00"), 9, 5);
    cases.refused(
        "12: gate 0 with pin A on its own net (marked stage 9)",
        file_of(1, &[gate(TH12, &[2, 0]), output(0, 1)]),
        12,
        0,
    );
    cases.row("16: wire, row of 3", &wire(), vec![0, 1, 0], 16, 3);
    cases.row("17: wire, row 01 01", &wire(), vec![1, 1], 17, 0);
    cases.settles(
        "marked stage 1, word 3",
        &whole_case(),
        vec![0, 1, 0, 1, 0, 0],
    );
    cases.settles("marked stage 2, a wire without gates", &wire(), vec![1, 0]);
    cases.settles(
        "marked stage 3, its rails swapped",
        &file_of(1, &[output(1, 0)]),
        vec![0, 1],
    );
    cases.settles(
        "marked stage 5, both rails of the output on net 0",
        &file_of(1, &[output(0, 0)]),
        vec![1, 0],
    );
    let and = [gate(TH12, &[0, 2]), gate(TH22, &[1, 3]), output(4, 5)];
    cases.settles(
        "marked stage 6, input 1 NULL",
        &file_of(2, &and),
        vec![1, 0, 0, 0, 0, 0],
    );
    cases.settles(
        "marked stage 7, input 0 wired out",
        &file_of(2, &[output(0, 1)]),
        vec![0, 1, 1, 0],
    );
    cases.settles(
        "marked stage 8, a gate that feeds nothing",
        &file_of(1, &[output(0, 1), gate(TH12, &[0, 1])]),
        vec![0, 1, 0],
    );
    let wires: Vec<Vec<u8>> = (0..10).map(|i| output(2 * i, 2 * i + 1)).collect();
    cases.settles(
        "marked stage 11, ten wires, DATA and NULL",
        &file_of(10, &wires),
        vec![0, 1, 1, 0, 0, 0, 0, 1, 1, 0, 1, 0, 0, 0, 0, 0, 0, 1, 0, 1],
    );
    cases.refused(
        "marked stage 12, n = 11, the file whole",
        file_of(11, &wires),
        3,
        1,
    );
}

/// Each of 1 to 9 at more places.
fn refusals_of_the_file(cases: &mut Cases) {
    cases.refused("1: the count is missing", unhex("01"), 1, 1);
    cases.refused("1: only the count", unhex("01 0A"), 1, 2);
    let or = file_of(1, &[gate(TH12, &[0, 1]), output(2, 1)]);
    cases.refused(
        "1: a gate without its last byte",
        cut(or.clone(), 11),
        1,
        11,
    );
    cases.refused(
        "1: an output without its last byte",
        cut(or.clone(), 16),
        1,
        16,
    );
    cases.refused("1: all but the end", cut(or, 17), 1, 17);

    cases.refused("2: end first", unhex("00"), 2, 0);
    cases.refused(
        "2: inputs again",
        unhex("01 01 01 01 03 00 00 01 00 00"),
        2,
        2,
    );
    cases.refused(
        "2: inputs again after an output",
        unhex("01 01 03 00 00 01 00 01 01 00"),
        2,
        7,
    );
    cases.refused(
        "2: a reference's gate",
        unhex("01 02 11 02 00 00 01 00 12 02 00 00"),
        2,
        2,
    );
    cases.refused(
        "2: no command, after a gate",
        file_of(1, &[gate(TH12, &[0, 1]), vec![0xFF], output(0, 1)]),
        2,
        12,
    );

    cases.refused("3: no input", file_of(0, &[output(0, 1)]), 3, 1);
    cases.refused("3: 255 inputs", file_of(255, &[output(0, 1)]), 3, 1);

    cases.refused(
        "4: kind 0",
        file_of(1, &[raw_gate(0, [0, 1, X, X]), output(0, 1)]),
        4,
        3,
    );
    cases.refused(
        "4: kind 28 in the second gate, after an output",
        file_of(
            1,
            &[
                gate(TH12, &[0, 1]),
                output(0, 1),
                raw_gate(28, [0, 1, 0, 1]),
            ],
        ),
        4,
        18,
    );

    cases.refused(
        "5: TH12 without pin A",
        file_of(1, &[raw_gate(1, [X, 1, X, X]), output(0, 1)]),
        5,
        4,
    );
    cases.refused(
        "5: TH12 with a pin C",
        file_of(1, &[raw_gate(1, [0, 1, 0, X]), output(0, 1)]),
        5,
        8,
    );
    cases.refused(
        "5: TH33 with a pin D, in the second gate",
        file_of(
            2,
            &[gate(TH12, &[0, 1]), raw_gate(5, [0, 1, 2, 3]), output(0, 1)],
        ),
        5,
        20,
    );
    cases.refused(
        "5: TH44 without pin D",
        file_of(2, &[raw_gate(11, [0, 1, 2, X]), output(0, 1)]),
        5,
        10,
    );

    let mut many = vec![gate(TH12, &[0, 1]); 257];
    many.push(output(0, 1));
    cases.refused("6: 257 gates", file_of(1, &many), 6, 2562);
    let mut outputs = vec![output(2, 3); 16];
    outputs.extend([gate(TH12, &[0, 1]), gate(TH22, &[0, 1]), output(0, 1)]);
    cases.refused(
        "6: the 17th output after two gates",
        file_of(1, &outputs),
        6,
        102,
    );

    cases.refused(
        "7: a whole second stage after end",
        [whole_case(), whole_case()].concat(),
        7,
        28,
    );
    cases.refused(
        "8: a gate and no output",
        file_of(1, &[gate(TH12, &[0, 1])]),
        8,
        12,
    );

    cases.refused(
        "9: FFFF in an output",
        file_of(1, &[output(0xFFFF, 1)]),
        9,
        3,
    );
    cases.refused(
        "9: pin D names the first net past the last gate's",
        file_of(
            1,
            &[gate(TH44, &[0, 1, 3, 4]), gate(TH12, &[0, 1]), output(2, 3)],
        ),
        9,
        10,
    );
    cases.refused(
        "9: net 256, whose low byte is 0",
        file_of(1, &[gate(TH12, &[0, 256]), output(0, 1)]),
        9,
        6,
    );
}

/// Two faults: the first in the order of the paper is named.
fn two_faults_in_one_file(cases: &mut Cases) {
    cases.refused("2 before 1: inputs again, cut", unhex("01 01 01"), 2, 2);
    cases.refused("1 before 4: kind 28, cut", unhex("01 01 02 1C 00"), 1, 5);
    let mut outputs = vec![output(0, 1); 17];
    cases.refused(
        "1 before 6: the 17th output, cut",
        cut(file_of(1, &outputs), 86),
        1,
        86,
    );
    outputs[0] = output(0, 9);
    cases.refused(
        "6 before 9: an absent net, then 17 outputs",
        file_of(1, &outputs),
        6,
        82,
    );
    let mut many = vec![gate(TH12, &[0, 1]); 256];
    many.push(raw_gate(0, [X; 4]));
    many.push(output(0, 1));
    cases.refused(
        "6 before 4: the 257th gate is of kind 0",
        file_of(1, &many),
        6,
        2562,
    );
    cases.refused(
        "4 before 5: kind 0 without pins",
        file_of(1, &[raw_gate(0, [X; 4]), output(0, 1)]),
        4,
        3,
    );
    cases.refused(
        "5 by operand: pin B is missing and pin C is there",
        file_of(1, &[raw_gate(2, [0, X, 1, X]), output(0, 1)]),
        5,
        6,
    );
    cases.refused(
        "the earlier command first: 5 in gate 0, kind 28 in gate 1",
        file_of(
            1,
            &[
                raw_gate(2, [0, 1, X, 0]),
                raw_gate(28, [0, 1, X, X]),
                output(0, 1),
            ],
        ),
        5,
        10,
    );
    cases.refused(
        "8 before 7: no output, a byte after end",
        unhex("01 01 00 00"),
        8,
        2,
    );
    cases.refused(
        "8 before 9: no output, an absent net",
        file_of(1, &[gate(TH12, &[0, 3])]),
        8,
        12,
    );
    cases.refused(
        "7 before 9: an absent net, a byte after end",
        unhex("01 01 03 00 00 02 00 00 FF"),
        7,
        8,
    );
    cases.refused(
        "9 in file order: an output before a gate",
        file_of(1, &[output(0, 3), gate(TH12, &[7, 1])]),
        9,
        5,
    );
    cases.refused(
        "9 before 12: a gate on its own net, an absent net",
        file_of(1, &[gate(TH12, &[2, 0]), output(2, 3)]),
        9,
        15,
    );
}

/// 12 at more places, and what comes before and after it.
fn loops(cases: &mut Cases) {
    cases.refused(
        "12: gate 0 only leads to the loop of 1 and 2",
        file_of(
            1,
            &[
                gate(TH12, &[0, 3]),
                gate(TH22, &[1, 4]),
                gate(TH12, &[3, 0]),
                output(2, 1),
            ],
        ),
        12,
        1,
    );
    cases.refused(
        "12: gate 0 feeds the loop and is not on it",
        file_of(
            1,
            &[gate(TH12, &[0, 1]), gate(TH23, &[2, 0, 3]), output(0, 1)],
        ),
        12,
        1,
    );
    cases.refused(
        "12: two loops, good gates before, between and after",
        file_of(
            2,
            &[
                gate(TH12, &[0, 1]),
                gate(TH12, &[4, 8]),
                gate(TH22, &[0, 2]),
                gate(TH22, &[7, 0]),
                gate(TH12, &[5, 1]),
                gate(TH12, &[2, 3]),
                output(4, 5),
            ],
        ),
        12,
        1,
    );
    let mut ring: Vec<Vec<u8>> = (0..256)
        .map(|k| gate(TH12, &[0, 2 + (k + 1) % 256]))
        .collect();
    ring.push(output(0, 1));
    cases.refused("12: a ring of 256 gates", file_of(1, &ring), 12, 0);
    let own = file_of(1, &[gate(TH12, &[0, 1]), gate(TH22, &[1, 3]), output(2, 3)]);
    cases.add(
        "12 before 17: a row of the right length with both rails 1",
        own.clone(),
        vec![1, 1, 9, 9],
        [12, STAGE, 1, 0],
    );
    cases.add(
        "12 before 16 and 17: an empty row",
        own,
        vec![],
        [12, STAGE, 1, 0],
    );
}

fn refusals_of_the_row(cases: &mut Cases) {
    cases.row("16: an empty row", &wire(), vec![], 16, 0);
    cases.row(
        "16: one byte too few",
        &whole_case(),
        vec![0, 1, 0, 1, 5],
        16,
        5,
    );
    cases.row(
        "16: one byte too many",
        &whole_case(),
        vec![0, 1, 0, 1, 5, 5, 5],
        16,
        7,
    );
    cases.row(
        "16: 512 bytes",
        &whole_case(),
        (0..512).map(|i| (i % 251) as u8).collect(),
        16,
        512,
    );
    cases.row(
        "16 before 17: three rails, all 1",
        &whole_case(),
        vec![1, 1, 1],
        16,
        3,
    );
    cases.row(
        "17: rail 0 is 2",
        &whole_case(),
        vec![2, 0, 0, 1, 3, 4],
        17,
        0,
    );
    cases.row(
        "17: rail 1 is 255",
        &whole_case(),
        vec![0, 1, 0, 255, 3, 4],
        17,
        1,
    );
    cases.row(
        "17: rails 255 and 1",
        &whole_case(),
        vec![1, 0, 255, 1, 3, 4],
        17,
        1,
    );
    cases.row(
        "17: rails 128 and 128",
        &whole_case(),
        vec![128, 128, 1, 0, 0, 0],
        17,
        0,
    );
    let wires: Vec<Vec<u8>> = (0..10).map(|i| output(2 * i, 2 * i + 1)).collect();
    cases.row(
        "17: the least of the inputs 3, 4 and 9",
        &file_of(10, &wires),
        vec![0, 1, 1, 0, 0, 0, 1, 1, 2, 0, 0, 0, 0, 0, 0, 0, 0, 1, 9, 9],
        17,
        3,
    );
    cases.row(
        "17: the last input",
        &file_of(10, &wires),
        vec![0, 1, 1, 0, 0, 0, 0, 1, 1, 0, 0, 0, 0, 0, 0, 0, 0, 1, 1, 1],
        17,
        9,
    );
}

/// A full adder: inputs x, y and carry; carry out in the gates of `carry`, the sum in
/// those of `sum`, each as gate numbers.
fn full_adder(carry: [usize; 2], sum: [usize; 2]) -> Vec<u8> {
    let net = |gate: usize| 6 + gate;
    let mut gates = vec![Vec::new(); 4];
    for rail in 0..2 {
        gates[carry[rail]] = gate(TH23, &[rail, 2 + rail, 4 + rail]);
        gates[sum[rail]] = gate(TH34W2, &[net(carry[1 - rail]), rail, 2 + rail, 4 + rail]);
    }
    gates.push(output(net(sum[0]), net(sum[1])));
    gates.push(output(net(carry[0]), net(carry[1])));
    file_of(3, &gates)
}

fn small_stages(cases: &mut Cases) {
    cases.settles(
        "old gate bytes count for nothing: all inputs NULL, all gates were high",
        &whole_case(),
        vec![0, 0, 0, 0, 1, 1],
    );
    cases.settles(
        "a gate is not held: one input DATA1, its gate was high",
        &whole_case(),
        vec![0, 1, 0, 0, 1, 1],
    );
    cases.settles(
        "old gate bytes above 1",
        &whole_case(),
        vec![1, 0, 0, 1, 255, 2],
    );
    let adder = full_adder([0, 1], [2, 3]);
    cases.settles(
        "full adder, 1 + 0 + 1",
        &adder,
        vec![0, 1, 1, 0, 0, 1, 9, 9, 9, 9],
    );
    cases.settles(
        "full adder, two inputs DATA1: the carry is there, the sum is not",
        &adder,
        vec![0, 1, 0, 1, 0, 0, 1, 0, 1, 1],
    );
    let late = full_adder([3, 1], [0, 2]);
    cases.settles(
        "full adder whose sums name later gates, 1 + 1 + 1",
        &late,
        vec![0, 1, 0, 1, 0, 1, 0, 255, 0, 255],
    );
    cases.settles(
        "full adder whose sums name later gates, inputs NULL",
        &late,
        vec![0, 0, 0, 0, 0, 0, 17, 17, 17, 17],
    );
    cases.settles(
        "one net on several pins",
        &file_of(
            1,
            &[gate(TH44, &[1, 1, 1, 1]), gate(TH22, &[2, 2]), output(0, 3)],
        ),
        vec![0, 1, 0, 0],
    );
}

/// Four gates of each kind: with their pins on the rails 1 and on the rails 0 of the
/// inputs 0 to 3, and likewise of the inputs 4 to 7. Each pattern of pins comes up
/// with its complement, so four words show all 16 patterns to every kind.
fn all_kinds(cases: &mut Cases) {
    let stage = four_of_each(0);
    for low in 0..4 {
        let word = low + 16 * (low + 4);
        cases.settles(
            format!("four gates of each of the 27 kinds, word {word}"),
            &stage,
            row_of(word, 0),
        );
    }
    cases.settles(
        "four gates of each of the 27 kinds, inputs 1, 3, 4 and 7 NULL",
        &stage,
        row_of(101, 0b1001_1010),
    );
}

/// The stage, `more` added to all kinds.
fn four_of_each(more: usize) -> Vec<u8> {
    let mut commands = Vec::new();
    for kind in 1..=27 {
        for rails in [[1, 3, 5, 7], [0, 2, 4, 6], [9, 11, 13, 15], [8, 10, 12, 14]] {
            commands.push(gate(kind + more, &rails[..pin_count(kind)]));
        }
    }
    commands.push(output(16, 123));
    file_of(8, &commands)
}

/// A row of it: a word, and the inputs that are NULL; the gates' old bytes are of all sorts.
fn row_of(word: usize, null: usize) -> Vec<u8> {
    let inputs = (0..8).flat_map(|i| match (null >> i & 1, word >> i & 1) {
        (0, 0) => [1, 0],
        (0, _) => [0, 1],
        _ => [0, 0],
    });
    let old = (0..108).map(|k| (k * 7 + word) as u8);
    inputs.chain(old).collect()
}

/// Document 02, M-102: kinds 129 to 155 settle as 1 to 27 do.
fn relaxed_kinds(cases: &mut Cases) {
    for kind in [128, 156, 157, 255] {
        cases.refused(
            &format!("4: kind {kind}"),
            file_of(1, &[raw_gate(kind, [0, 1, X, X]), output(0, 1)]),
            4,
            3,
        );
    }
    cases.refused("1 before 4: kind 156, cut", unhex("01 01 02 9C 00"), 1, 5);
    cases.refused(
        "5: relaxed TH22 without pin B",
        file_of(1, &[raw_gate(130, [0, X, X, X]), output(0, 1)]),
        5,
        6,
    );
    cases.refused(
        "5: relaxed TH12 with a pin C",
        file_of(1, &[raw_gate(129, [0, 1, 0, X]), output(0, 1)]),
        5,
        8,
    );
    cases.refused(
        "5: the last relaxed kind without pin D",
        file_of(2, &[raw_gate(155, [0, 1, 2, X]), output(0, 1)]),
        5,
        10,
    );
    cases.refused(
        "9: an absent net on a relaxed gate",
        file_of(1, &[gate(130, &[0, 3]), output(0, 1)]),
        9,
        6,
    );
    cases.refused(
        "12: a loop of a relaxed gate and a holding one",
        file_of(1, &[gate(TH12, &[0, 3]), gate(129, &[2, 1]), output(0, 1)]),
        12,
        0,
    );
    let mut many = vec![gate(TH12, &[0, 1]); 256];
    many.extend([gate(129, &[0, 1]), output(0, 1)]);
    cases.refused("6: the 257th gate is relaxed", file_of(1, &many), 6, 2562);
    let stage = four_of_each(128);
    for low in 0..4 {
        let word = low + 16 * (low + 4);
        cases.settles(
            format!("four gates of each relaxed kind, word {word}"),
            &stage,
            row_of(word, 0),
        );
    }
    cases.settles(
        "four gates of each relaxed kind, inputs 1, 3, 4 and 7 NULL",
        &stage,
        row_of(101, 0b1001_1010),
    );
    let and = file_of(
        2,
        &[gate(130, &[1, 3]), gate(154, &[0, 2, 1, 3]), output(5, 4)],
    );
    cases.settles(
        "a relaxed AND, one input DATA1, its gates were high",
        &and,
        vec![0, 1, 0, 0, 1, 1],
    );
    cases.row("17: a relaxed AND", &and, vec![1, 0, 1, 1, 0, 0], 17, 1);
}

/// A stage of 10 inputs, 256 gates and 16 outputs without loops. The gates stand in
/// the file in another order than that in which they can settle, so pins name later
/// gates as well as earlier ones.
fn scattered() -> Stage {
    // The k-th gate to settle stands at place (37 k + 5) mod 256.
    let place = |k: usize| (37 * k + 5) % 256;
    let mut state = 1u32;
    let mut below = |bound: usize| {
        state = state.wrapping_mul(1_664_525).wrapping_add(1_013_904_223);
        (state >> 16) as usize % bound
    };
    let absent = Gate {
        kind: TH12,
        pins: vec![],
    };
    let mut gates = vec![absent; 256];
    for k in 0..256 {
        let kind = 1 + k % 27;
        let pins = (0..pin_count(kind))
            .map(|_| {
                let earlier = k.min(24);
                match below(20 + 2 * earlier) {
                    net @ 0..20 => net,
                    other => 20 + place(k - 1 - (other - 20) / 2),
                }
            })
            .collect();
        gates[place(k)] = Gate { kind, pins };
    }
    Stage {
        inputs: 10,
        gates,
        outputs: (0..16).map(|j| [20 + 16 * j, 28 + 16 * j]).collect(),
        care: vec![],
    }
}

fn large_stages(cases: &mut Cases) {
    // Gate k is fed by gate k + 1, the last one by input 0.
    let chain = |last: Vec<u8>| {
        let mut commands: Vec<Vec<u8>> = (0..255).map(|k| gate(TH22, &[3 + k, 3 + k])).collect();
        commands.extend([last, output(0, 2)]);
        file_of(1, &commands)
    };
    let upward = chain(gate(TH12, &[0, 1]));
    cases.settles(
        "256 gates in a chain, each naming the next: high from end to end",
        &upward,
        [vec![1, 0], vec![0; 256]].concat(),
    );
    cases.settles(
        "the same chain low, its gates were high",
        &upward,
        [vec![0, 0], vec![1; 256]].concat(),
    );
    let stage = write_stage(&scattered());
    let row = |rails: fn(usize) -> [u8; 2], old: fn(usize) -> u8| -> Vec<u8> {
        let inputs = (0..10).flat_map(rails);
        inputs.chain((0..256).map(old)).collect()
    };
    cases.settles(
        "10 inputs, 256 gates, 16 outputs: word 0",
        &stage,
        row(|_| [1, 0], |k| k as u8),
    );
    cases.settles(
        "10 inputs, 256 gates, 16 outputs: word 341",
        &stage,
        row(|i| [(i % 2) as u8, 1 - (i % 2) as u8], |_| 255),
    );
    cases.settles(
        "10 inputs, 256 gates, 16 outputs: every third input NULL",
        &stage,
        row(|i| [[0, 0], [1, 0], [0, 1]][i % 3], |k| (k % 2) as u8),
    );
    cases.settles(
        "10 inputs, 256 gates, 16 outputs: all inputs NULL",
        &stage,
        row(|_| [0, 0], |_| 1),
    );
    cases.row(
        "10 inputs, 256 gates, a row of 275",
        &stage,
        (0..275).map(|k| k as u8).collect(),
        16,
        275,
    );
}

/// Document 02, M-101: the order within the command is 2, 1, 18, 19, both at the operand; a list
/// that can be read makes no difference to the row.
fn care_words(cases: &mut Cases) {
    let wire = output(0, 1);
    cases.refused(
        "18: word 2 of one input",
        file_of(1, &[care_word(2), wire.clone()]),
        18,
        3,
    );
    cases.refused(
        "18: word FFFF, after an output",
        file_of(1, &[wire.clone(), care_word(0xFFFF)]),
        18,
        8,
    );
    cases.refused(
        "18: word 256 of two inputs, whose low byte is 0",
        file_of(2, &[care_word(256), wire.clone()]),
        18,
        3,
    );
    cases.refused(
        "18: word 1024 of ten inputs, after word 1023",
        file_of(10, &[care_word(1023), care_word(1024), wire.clone()]),
        18,
        6,
    );
    cases.refused(
        "19: word 0 twice",
        file_of(1, &[care_word(0), care_word(0), wire.clone()]),
        19,
        6,
    );
    cases.refused(
        "19: a lesser word, a gate and an output between",
        file_of(
            2,
            &[
                care_word(2),
                gate(TH12, &[0, 1]),
                wire.clone(),
                care_word(1),
            ],
        ),
        19,
        21,
    );
    cases.refused(
        "19: word 255 after word 256",
        file_of(10, &[care_word(256), care_word(255), wire.clone()]),
        19,
        6,
    );
    cases.refused(
        "2 before 1 and 18: a care word first, cut",
        unhex("06 FF"),
        2,
        0,
    );
    cases.refused("1: only the care command", unhex("01 01 06"), 1, 3);
    cases.refused("1 before 18: word FF.., cut", unhex("01 01 06 FF"), 1, 4);
    cases.refused(
        "1 before 19: word 0 after word 1, cut",
        unhex("01 02 06 01 00 06 00"),
        1,
        7,
    );
    cases.refused(
        "the earlier command first: 19, then 18",
        file_of(1, &[care_word(1), care_word(0), care_word(9), wire.clone()]),
        19,
        6,
    );
    cases.refused(
        "the earlier command first: 18, then 19",
        file_of(1, &[care_word(0), care_word(2), care_word(0), wire.clone()]),
        18,
        6,
    );
    cases.refused(
        "the earlier command first: 18, then kind 28",
        file_of(1, &[care_word(2), raw_gate(28, [0, 1, X, X]), wire.clone()]),
        18,
        3,
    );
    cases.refused("18 before 8: no output", file_of(1, &[care_word(2)]), 18, 3);
    cases.refused(
        "8: a care word and no output",
        file_of(1, &[care_word(1)]),
        8,
        5,
    );
    cases.refused(
        "19 before 7 and 9: a byte after end, an absent net",
        [
            file_of(1, &[output(0, 7), care_word(1), care_word(1)]),
            vec![0],
        ]
        .concat(),
        19,
        11,
    );
    cases.refused(
        "7: a care word after end",
        unhex("01 01 03 00 00 01 00 00 06 00 00"),
        7,
        8,
    );
    cases.refused(
        "9 behind a care word: its operand is no net",
        file_of(4, &[care_word(15), output(0, 8)]),
        9,
        8,
    );
    cases.refused(
        "12 with a care list",
        file_of(1, &[care_word(0), gate(TH12, &[2, 0]), wire.clone()]),
        12,
        0,
    );
    let mut listed = whole_case();
    listed.splice(2..2, [care_word(0), care_word(2)].concat());
    cases.row("16 with a care list", &listed, vec![0, 1, 0, 1, 5], 16, 5);
    cases.row(
        "17 with a care list",
        &listed,
        vec![1, 1, 0, 1, 5, 6],
        17,
        0,
    );
    cases.settles(
        "a word that is not cared for",
        &listed,
        vec![0, 1, 0, 1, 5, 6],
    );
    cases.settles("the same, cared for", &listed, vec![1, 0, 0, 1, 5, 6]);
    cases.settles("the same, NULL", &listed, vec![0, 0, 0, 0, 1, 1]);
    let mut all: Vec<Vec<u8>> = (0..1024).map(care_word).collect();
    all.extend((0..10).map(|i| output(2 * i, 2 * i + 1)));
    cases.settles(
        "a list of all 1,024 words",
        &file_of(10, &all),
        vec![0, 1, 1, 0, 0, 0, 0, 1, 1, 0, 1, 0, 0, 0, 0, 0, 0, 1, 0, 1],
    );
    all.insert(700, care_word(698));
    cases.refused(
        "19: word 698 after word 699 of 1,024",
        file_of(10, &all),
        19,
        2 + 3 * 700 + 1,
    );
}

/// Document 02, M-108: "old files still read, and the settled-row call still serves them".
fn retired_kinds(cases: &mut Cases) {
    for kind in [24, 152] {
        let stage = file_of(
            2,
            &[
                gate(kind, &[1, 3, 0, 2]),
                gate(kind, &[0, 2, 1, 4]),
                output(4, 5),
            ],
        );
        for rails in [[0, 1, 0, 1], [0, 1, 1, 0], [1, 0, 1, 0], [0, 0, 0, 1]] {
            let row = [&rails[..], &[9, 9]].concat();
            cases.settles(format!("kind {kind} settles, rails {rails:?}"), &stage, row);
        }
        cases.row(
            &format!("17: kind {kind}"),
            &stage,
            vec![1, 1, 0, 1, 9, 9],
            17,
            0,
        );
        cases.refused(
            &format!("12: kind {kind} on its own net"),
            file_of(1, &[gate(kind, &[0, 0, 1, 2]), output(0, 1)]),
            12,
            0,
        );
        cases.refused(
            &format!("5: kind {kind} without pin D"),
            file_of(1, &[raw_gate(kind as u8, [0, 1, 0, X]), output(0, 1)]),
            5,
            10,
        );
    }
}
