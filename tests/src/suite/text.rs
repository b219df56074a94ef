//! The cases of reading and writing texts (document 02, M-109): a text or a stage file, and the buffer
//! that is lent.
//!
//! Verdicts are also written by hand.

use crate::catalogue::examples;
use crate::catalogue::texts::texts;
use crate::compare::Convert;
use crate::files::{unhex, MOST_BYTES_READ};
use crate::generate::texts::{read_case, write_case, GeneratedText, TextCase};
use crate::generate::Known;
use crate::judge::{Verdict, ACCEPTED, ROW, STAGE};
use crate::suite::{numbers, row, spelt, Stored, WITH_PARTS};
use crate::text::{file_of_text, read_text, text_of_file, write_text};
use std::collections::BTreeSet;

pub struct Case {
    pub about: String,
    pub case: TextCase,
    /// What is known of the verdict without the judge, and of what is written.
    pub known: Known,
    pub written: Option<Vec<u8>>,
}

/// A line is the judge's four numbers, how many bytes it writes, and the bytes of the buffer after
/// its call.
fn stored(call: Convert, cases: Vec<Case>) -> Vec<Stored> {
    let stored = cases.into_iter().map(|case| {
        let TextCase { source, buffer } = case.case;
        let mut written = buffer.clone();
        let made = call(&source, &mut written);
        Stored {
            about: case.about,
            operands: vec![source, buffer],
            lines: vec![numbers(made.verdict, &[made.len]) + &spelt(&written)],
        }
    });
    stored.collect()
}

pub fn stored_reads() -> Vec<Stored> {
    stored(read_text, read_cases())
}

pub fn stored_writes() -> Vec<Stored> {
    stored(write_text, write_cases())
}

struct Cases(Vec<Case>);

impl Cases {
    /// With a buffer of this length; it holds rising numbers.
    fn push(&mut self, about: impl Into<String>, source: Vec<u8>, room: usize, known: Known) {
        self.0.push(Case {
            about: about.into(),
            case: TextCase {
                source,
                buffer: (0..room).map(|place| 100 + (place % 100) as u8).collect(),
            },
            known,
            written: None,
        });
    }

    /// What is refused, and not for its buffer.
    fn refused(&mut self, about: impl Into<String>, source: &[u8], verdict: Verdict) {
        self.push(about, source.to_vec(), 3, Known::Verdict(verdict));
    }

    /// What is accepted: in a buffer of just the length, with two bytes to spare, and one short.
    fn accepted(&mut self, about: &str, source: &[u8], written: &[u8]) {
        let n = written.len();
        for (about, room, verdict) in [
            (about.to_string(), n, ACCEPTED),
            (format!("{about}, two bytes to spare"), n + 2, ACCEPTED),
            (format!("24: {about}"), n - 1, [24, ROW, 0, 0]),
        ] {
            self.push(about, source.to_vec(), room, Known::Verdict(verdict));
            let case = self.0.last_mut().expect("the case");
            case.written = (verdict == ACCEPTED).then(|| written.to_vec());
        }
    }
}

// ---------------------------------------------------------------------------
// Reading.

pub fn read_cases() -> Vec<Case> {
    let mut cases = Cases(Vec::new());
    accepted_texts(&mut cases);
    refused_texts(&mut cases);
    numbers_of_the_file(&mut cases);
    stored_texts(&mut cases);
    generated(&mut cases, read_case, 70);
    cases.0
}

const WIRE: &str = "01 01 03 00 00 01 00 00";

/// Texts and the files that they give.
const READ: [(&str, &str, &str); 9] = [
    ("a wire", "a\na\n", WIRE),
    ("a wire called _", "_\n_\n", WIRE),
    (
        "an AND",
        "a,b\nz\nTH22 a_1,b_1 z_1\nTHand0 a_0,b_0,a_1,b_1 z_0\n",
        "01 02 02 02 01 00 03 00 FF FF FF FF 02 1A 00 00 02 00 01 00 03 00 03 05 00 04 00 00",
    ),
    (
        "an output again",
        "a\na,a\n",
        "01 01 03 00 00 01 00 03 00 00 01 00 00",
    ),
    (
        "a gate with an input's name",
        "a\na\nTH12 a_0,a_1 a\n",
        "01 01 02 01 00 00 01 00 FF FF FF FF 03 00 00 01 00 00",
    ),
    (
        "a relaxed gate",
        "a\na\nrTH12 a_0,a_1 g\n",
        "01 01 02 81 00 00 01 00 FF FF FF FF 03 00 00 01 00 00",
    ),
    (
        "retired kinds",
        "a\na\nTH54w322 a_0,a_0,a_1,a_1 g\nrTH54w322 g,a_0,a_1,g h\n",
        "01 01 02 18 00 00 00 00 01 00 01 00 02 98 02 00 00 00 01 00 02 00 03 00 00 01 00 00",
    ),
    (
        "pins on later gates, and a loop",
        "a\nb\nTH12 h,a_1 b_0\nTH12 b_0,b_1 b_1\nTH22 b_1,a_0 h\n",
        "01 01 02 01 04 00 01 00 FF FF FF FF 02 01 02 00 03 00 FF FF FF FF \
         02 02 03 00 00 00 FF FF FF FF 03 02 00 03 00 00",
    ),
    (
        "names like rails and numbers",
        "a,a_0,7\na_0,7\nTH12 a_0,a_0_1 a_0_0_0\n",
        "01 03 02 01 00 00 03 00 FF FF FF FF 03 02 00 03 00 03 04 00 05 00 00",
    ),
];

fn accepted_texts(cases: &mut Cases) {
    for (about, text, file) in READ {
        cases.accepted(about, text.as_bytes(), &unhex(file));
    }
    let kinds = ["TH12", "TH23", "TH34w2", "TH24comp", "THxor0", "TH44w322"];
    for kind in kinds {
        let pins = ["a_0,a_1", "a_0,a_1,b_0", "a_0,a_1,b_0,b_1"];
        let pins = match kind {
            "TH12" => pins[0],
            "TH23" => pins[1],
            _ => pins[2],
        };
        let text = format!("a,b\nb,a\n{kind} {pins} g\nr{kind} {pins} h\n");
        cases.push(kind, text.into(), 40, Known::Verdict(ACCEPTED));
    }
}

/// 29: texts with a line that is not of the form, and its number.
pub const OTHER_FORM: [(&str, u64); 40] = [
    ("", 0),
    ("a", 0),
    ("\n", 0),
    ("\na\n", 0),
    ("a\n", 1),
    ("a\na", 1),
    ("a\n\n", 1),
    ("a\na\n\n", 2),
    ("a\na\nTH12 a_0,a_1 g", 2),
    ("a\na\nTH12 a_0,a_1 g\n\n", 3),
    ("a\na\n\nTH12 a_0,a_1 g\n", 2),
    ("a\r\na\r\n", 0),
    ("a\na\nTH12 a_0,a_1 g\r\n", 2),
    (",a\na\n", 0),
    ("a,\na\n", 0),
    ("a,,b\na\n", 0),
    ("a, b\na\n", 0),
    (" a\na\n", 0),
    ("a\na \n", 1),
    ("a-b\na\n", 0),
    ("a\u{e9}\na\n", 0),
    ("a\na\nTH12  a_0,a_1 g\n", 2),
    ("a\na\nTH12 a_0,a_1  g\n", 2),
    ("a\na\nTH12 a_0,a_1 g \n", 2),
    ("a\na\n TH12 a_0,a_1 g\n", 2),
    ("a\na\nTH12\ta_0,a_1 g\n", 2),
    ("a\na\nTH12 ,a_0,a_1 g\n", 2),
    ("a\na\nTH12 a_0,a_1, g\n", 2),
    ("a\na\nTH12 a_0 a_1 g\n", 2),
    ("a\na\nTH12 g\n", 2),
    ("a\na\nTH12  g\n", 2),
    ("a\na\nTH14 a_0,a_0,a_0,a_0,a_0 g\n", 2),
    ("a\na\nth12 a_0,a_1 g\n", 2),
    ("a\na\nTH11 a_0,a_1 g\n", 2),
    ("a\na\nRTH12 a_0,a_1 g\n", 2),
    ("a\na\nrrTH12 a_0,a_1 g\n", 2),
    ("a\na\nTHXOR0 a_0,a_1,a_0,a_1 g\n", 2),
    ("a\na\nReg_NULL 1 a_0 a_1 Ki ko b_0 b_1\n", 2),
    ("a\na\nC2 a_0,a_1 g\n", 2),
    // The least such line, whatever else is wrong in earlier lines.
    ("a,a\nb\nTH12 c,d e\nx\ny\n", 3),
];

/// 30: texts with a name that nobody drives, and its line.
pub const UNDRIVEN: [(&str, u64); 14] = [
    ("a\nb\n", 1),
    ("a\na,b\n", 1),
    ("A\na\n", 1),
    // Only one rail is driven.
    ("a\nb\nTH12 a_0,a_1 b_0\n", 1),
    ("a\nb\nTH12 a_0,a_1 b_1\n", 1),
    ("a\na\nTH12 a_0,b_1 g\n", 2),
    ("a\na\nTH12 a_0,A_1 g\n", 2),
    // A signal is no net, and an output drives nothing.
    ("a\na\nTH12 a,a_1 g\n", 2),
    ("a\na\nTH12 a_0,a_1 g\nTH12 g_0,a_1 h\n", 3),
    ("a,b\na\nTH12 a_0,c_1 g\nTH12 b_0,d_1 h\n", 2),
    // Before 31 at an earlier line, and before 3.
    ("a,a\na\nTH12 a_0,b_1 g\n", 2),
    ("a\na\nTH12 a_0,a_1 a_0\nTH12 a_0,b_1 g\n", 3),
    ("a,a\nb\n", 1),
    ("a,b,c,d,e,f,g,h,i,j,k\nl\n", 1),
];

/// 31: texts with a name that is driven again, and the line that does so.
pub const AGAIN: [(&str, u64); 8] = [
    ("a,a\na\n", 0),
    ("a,b,c,b\na\n", 0),
    ("a\na\nTH12 a_0,a_1 a_0\n", 2),
    ("a\na\nTH12 a_0,a_1 a_1\n", 2),
    ("a\na\nTH12 a_0,a_1 g\nTH22 a_0,a_1 g\n", 3),
    (
        "a\na\nTH12 a_0,a_1 g\nTH12 g,a_1 h\nTH12 a_0,a_1 g\nTH12 g,a_1 h\n",
        4,
    ),
    // Before the numbers of the reader: eleven inputs, and a pin too few.
    ("a,b,c,d,e,f,g,h,i,j,j\na\n", 0),
    ("a\na\nTH12 a_0 g\nTH12 a_0,a_1 g\n", 3),
];

fn refused_texts(cases: &mut Cases) {
    for (number, texts) in [(29, &OTHER_FORM[..]), (30, &UNDRIVEN), (31, &AGAIN)] {
        for &(text, line) in texts {
            let about = format!("{number}: {}", text.escape_debug());
            cases.refused(about, text.as_bytes(), [number, STAGE, line, 0]);
        }
    }
    // Bytes beside those of names.
    for byte in *b"/:@[^`{\x00\x7F\x80\xFF" {
        let text = [b"a\na\nTH12 a_0,a_1 g", &[byte][..], b"h\n"].concat();
        let about = format!("29: byte {byte} in a name");
        cases.refused(about, &text, [29, STAGE, 2, 0]);
    }
}

/// A text of so many inputs i0, i1 .., so many gates g0, g1 .. and the output i0 so many times.
pub fn many(inputs: usize, gates: usize, outputs: usize) -> String {
    let names: Vec<String> = (0..inputs).map(|i| format!("i{i}")).collect();
    let gates: String = (0..gates)
        .map(|k| format!("TH12 i0_0,i0_1 g{k}\n"))
        .collect();
    let outputs = vec!["i0"; outputs].join(",");
    format!("{}\n{outputs}\n{gates}", names.join(","))
}

/// 3, 5 and 6: the numbers of the file that is made.
fn numbers_of_the_file(cases: &mut Cases) {
    let full = many(10, 256, 16);
    let file = file_of_text(full.as_bytes()).expect("a text within the limits");
    cases.accepted("ten inputs, 256 gates, 16 outputs", full.as_bytes(), &file);
    for (inputs, gates, outputs, verdict) in [
        (11, 0, 1, [3, STAGE, 1, 0]),
        (60, 300, 60, [3, STAGE, 1, 0]),
        (10, 257, 1, [6, STAGE, 2562, 0]),
        (1, 300, 17, [6, STAGE, 2562, 0]),
        (1, 0, 17, [6, STAGE, 82, 0]),
        (1, 3, 17, [6, STAGE, 112, 0]),
        (1, 100, 1_500, [6, STAGE, 1082, 0]),
    ] {
        let about = format!("{inputs} inputs, {gates} gates, {outputs} outputs");
        cases.refused(about, many(inputs, gates, outputs).as_bytes(), verdict);
    }
    for (text, at) in [
        ("a\na\nTH12 a_0,a_1,a_0 g\n", 8),
        ("a\na\nTH12 a_0,a_1,a_0,a_1 g\n", 8),
        ("a\na\nTH12 a_0 g\n", 6),
        ("a\na\nTH44 a_0,a_1 g\n", 8),
        ("a\na\nTH44 a_0 g\n", 6),
        ("a\na\nrTH33 a_0,a_0,a_1,a_1 g\n", 10),
        ("a\na\nTH12 a_0,a_1 g\nTH23 g,g h\n", 18),
    ] {
        let about = format!("5: {}", text.escape_debug());
        cases.refused(about, text.as_bytes(), [5, STAGE, at, 0]);
    }
    // 6 for the 257th gate comes before an earlier gate's 5, that for a 17th output after it.
    let gates = many(1, 257, 1).replacen("i0_0,i0_1 g0", "i0_0 g0", 1);
    let about = "6 before an earlier 5";
    cases.refused(about, gates.as_bytes(), [6, STAGE, 2562, 0]);
    let outputs = many(1, 1, 17).replacen("i0_0,i0_1 g0", "i0_0 g0", 1);
    cases.refused("5 before 6", outputs.as_bytes(), [5, STAGE, 6, 0]);
}

/// The texts of the examples that the program reads whole.
fn stored_texts(cases: &mut Cases) {
    for example in texts() {
        if example.text.len() as u64 <= MOST_BYTES_READ {
            let room = file_of_text(&example.text).map_or(3, |file| file.len());
            let about = format!("examples/text/{}", example.name);
            cases.push(about, example.text, room, Known::Verdict(example.verdict));
        }
    }
}

/// Generated cases of few bytes.
fn generated(cases: &mut Cases, case: fn(u64, u64) -> GeneratedText, count: u64) {
    for index in 0..count {
        let generated = case(2026, index);
        let lengths = [generated.case.source.len(), generated.case.buffer.len()];
        if lengths.iter().all(|&length| length <= 400) {
            cases.0.push(Case {
                about: format!("generated, {}, number {index}", generated.family),
                case: generated.case,
                known: generated.known,
                written: generated.written,
            });
        }
    }
}

// ---------------------------------------------------------------------------
// Writing.

pub fn write_cases() -> Vec<Case> {
    let mut cases = Cases(Vec::new());
    accepted_stages(&mut cases);
    refused_stages(&mut cases);
    unreadable_stages(&mut cases);
    stored_stages(&mut cases);
    generated(&mut cases, write_case, 70);
    for with in &WITH_PARTS {
        let about = format!("refused, {}", with.about);
        cases.refused(about, &unhex(with.stage), [2, STAGE, with.part, 0]);
    }
    cases.0
}

/// TH12 and TH22 on the rails of input 0 of one.
const GATES: &str = "02 01 00 00 01 00 FF FF FF FF 02 02 00 00 01 00 FF FF FF FF";

fn accepted_stages(cases: &mut Cases) {
    let gates = |outputs: &str| unhex(&format!("01 01 {GATES} {outputs} 00"));
    let two = "TH12 x0_0,x0_1 y1_0\nTH22 x0_0,x0_1 y1_1\n";
    for (about, file, text) in [
        ("a wire", unhex(WIRE), "x0\nx0\n".to_string()),
        (
            "an output that is an input, again",
            gates("03 00 00 01 00 03 02 00 03 00 03 00 00 01 00"),
            format!("x0\nx0,y1,x0\n{two}"),
        ),
        (
            "outputs before gates",
            unhex(&format!("01 01 03 00 00 01 00 {GATES} 03 02 00 03 00 00")),
            format!("x0\nx0,y1\n{two}"),
        ),
        (
            "an output's rails in the other order",
            gates("03 03 00 02 00"),
            "x0\ny0\nTH12 x0_0,x0_1 y0_1\nTH22 x0_0,x0_1 y0_0\n".to_string(),
        ),
        (
            "gates that are no outputs",
            gates("03 00 00 01 00"),
            "x0\nx0\nTH12 x0_0,x0_1 g0\nTH22 x0_0,x0_1 g1\n".to_string(),
        ),
        (
            "a relaxed gate on its own net",
            unhex("01 01 02 81 02 00 00 00 FF FF FF FF 03 00 00 01 00 00"),
            "x0\nx0\nrTH12 g0,x0_0 g0\n".to_string(),
        ),
    ] {
        cases.accepted(about, &file, text.as_bytes());
    }
    let full = file_of_text(many(10, 256, 16).as_bytes()).expect("a text within the limits");
    let text = text_of_file(&full).expect("a stage that can be written");
    cases.push(
        "ten inputs, 256 gates, 16 outputs",
        full,
        text.len(),
        Known::Verdict(ACCEPTED),
    );
}

/// 29 for a care list, 31, and their order.
fn refused_stages(cases: &mut Cases) {
    for (about, outputs, least) in [
        ("a swapped input pair", "03 01 00 00 00", 0),
        ("rail 0 of an input and a gate", "03 00 00 02 00", 0),
        ("a gate and rail 1 of an input", "03 02 00 01 00", 0),
        ("rail 0 of an input twice", "03 00 00 00 00", 0),
        ("a gate twice", "03 02 00 02 00", 0),
        (
            "two outputs on one pair",
            "03 02 00 03 00 03 02 00 03 00",
            1,
        ),
        (
            "the same in the other order, behind an input",
            "03 00 00 01 00 03 02 00 03 00 03 03 00 02 00",
            2,
        ),
        (
            "a gate of an earlier output and a rail of an input",
            "03 02 00 03 00 03 03 00 01 00",
            1,
        ),
    ] {
        let file = unhex(&format!("01 01 {GATES} {outputs} 00"));
        cases.refused(format!("31: {about}"), &file, [31, STAGE, least, 0]);
    }
    for (about, file, verdict) in [
        (
            "rails 0 of two inputs",
            "01 02 03 00 00 02 00 00",
            [31, STAGE, 0, 0],
        ),
        (
            "rail 1 of an input and rail 0 of the next",
            "01 02 03 01 00 02 00 00",
            [31, STAGE, 0, 0],
        ),
        (
            "a care list",
            "01 01 06 00 00 03 00 00 01 00 00",
            [29, STAGE, 0, 0],
        ),
        (
            "a care list before 31",
            "01 01 03 01 00 00 00 06 01 00 00",
            [29, STAGE, 0, 0],
        ),
        (
            "18 before a care list",
            "01 01 06 02 00 03 00 00 01 00 00",
            [18, STAGE, 3, 0],
        ),
        (
            "19 before a care list",
            "01 01 06 01 00 06 01 00 03 00 00 01 00 00",
            [19, STAGE, 6, 0],
        ),
        (
            "9 before a care list",
            "01 01 06 00 00 03 00 00 02 00 00",
            [9, STAGE, 8, 0],
        ),
    ] {
        cases.refused(about, &unhex(file), verdict);
    }
}

/// For each refusal of reading the first stage among the cases of the settled-row call that it refuses so.
fn unreadable_stages(cases: &mut Cases) {
    let mut seen = BTreeSet::new();
    for case in row::cases() {
        let refused = matches!(case.verdict, [1..=9 | 18 | 19, STAGE, ..]);
        if refused && seen.insert(case.verdict[0]) {
            let about = format!("refused, {}", case.about);
            cases.refused(about, &case.stage, case.verdict);
        }
    }
    cases.push(
        "refused, an empty file and no buffer",
        vec![],
        0,
        Known::Verdict([1, STAGE, 0, 0]),
    );
}

/// The stages of the stored examples that are short.
fn stored_stages(cases: &mut Cases) {
    let mut seen = BTreeSet::new();
    for example in examples() {
        let file = example.pair.stage;
        if file.len() <= 110 && seen.insert(file.clone()) {
            let room = text_of_file(&file).map_or(3, |text| text.len());
            let about = format!("the stage of {}", example.name);
            cases.push(about, file, room, Known::Nothing);
        }
    }
}
