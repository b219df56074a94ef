//! The stored cases of the public calls: the files in which the program `suite` finds them, and the
//! lines that it has to print. Also what the crates of the other programs hold.
//!
//! The lines are the judge's. What is known of a case without the judge is written by hand from the
//! papers, and the tests hold the judge to it.

pub mod check;
pub mod join;
pub mod make;
pub mod report;
pub mod row;
pub mod text;

use crate::catalogue::examples;
use crate::compare::expected_report;
use crate::files::{verdict_line, FilePair};
use crate::join::join_in_order;
use crate::judge::{check_pipeline, Verdict, WordOrder};
use crate::make::make_stage;
use crate::next::{next_stage, FAMILY};
use crate::text::{read_text, text_of_file, write_text};
use std::collections::BTreeSet;
use std::fs;
use std::io;
use std::path::{Path, PathBuf};

/// A case as the program `suite` has it.
pub struct Stored {
    pub about: String,
    /// The arguments of the call, in their order: files, and buffers as they are lent.
    pub operands: Vec<Vec<u8>>,
    /// What stands behind the case's number, in each order of words in which the call is made.
    pub lines: Vec<String>,
}

/// The stored cases of one public call.
pub struct Call {
    /// Its name, which is also that of its file.
    pub name: &'static str,
    /// The byte before each of its cases.
    pub byte: u8,
    pub cases: Vec<Stored>,
}

/// The public calls in the order in which the program makes them.
pub fn calls() -> Vec<Call> {
    let list = [
        ("check", 1, check::stored()),
        ("report", 2, report::stored()),
        ("settled_row", 3, row::stored()),
        ("join", 4, join::stored()),
        ("make_stage", 5, make::stored()),
        ("read_text", 6, text::stored_reads()),
        ("write_text", 7, text::stored_writes()),
    ];
    list.into_iter()
        .map(|(name, byte, cases)| Call { name, byte, cases })
        .collect()
}

/// The byte after the last case of a file.
const END: u8 = 0;

impl Call {
    /// Its cases one after the other, each as the call's byte and the operands, each behind its
    /// length in two bytes.
    pub fn packed(&self) -> Vec<u8> {
        let mut bytes = Vec::new();
        for case in &self.cases {
            bytes.push(self.byte);
            for operand in &case.operands {
                let length =
                    u16::try_from(operand.len()).expect("an operand of at most 8,192 bytes");
                bytes.extend(length.to_le_bytes());
                bytes.extend(operand);
            }
        }
        bytes.push(END);
        bytes
    }

    /// What the program prints, in one order of words and, of calls that name words, in the other:
    /// the call's name, a line for each case, and `end`.
    pub fn printed(&self) -> String {
        let orders = self.cases[0].lines.len();
        let mut text = String::new();
        for (order, mark) in ["", " lowest"].iter().enumerate().take(orders) {
            text += &format!("{}{mark}\n", self.name);
            for (number, case) in self.cases.iter().enumerate() {
                text += &format!("{number:03} {}\n", case.lines[order]);
            }
            text += "end\n";
        }
        text
    }
}

/// The four numbers of a verdict, and other numbers behind them.
fn numbers(verdict: Verdict, others: &[usize]) -> String {
    let others: String = others.iter().map(|number| format!(" {number}")).collect();
    format!("{}{others}", verdict_line(verdict).trim_end())
}

/// A colon and the bytes of a buffer after a call, each after a space.
fn spelt(buffer: &[u8]) -> String {
    let bytes: String = buffer.iter().map(|byte| format!(" {byte}")).collect();
    format!(":{bytes}")
}

/// The judge's verdict in an order of words.
pub fn verdict_in(order: WordOrder, pair: &FilePair) -> Verdict {
    check_pipeline(order, &pair.stage, &pair.reference)
}

/// A stage with a register or a C-element.
struct WithPart {
    about: &'static str,
    stage: &'static str,
    /// What the check says of it, against a wire.
    verdict: Verdict,
    /// Where its first such command stands: "every other call answers 2".
    part: u64,
}

const WITH_PARTS: [WithPart; 8] = [
    WithPart {
        about: "a wire through a register",
        stage: "01 01 04 00 00 01 00 FE FF 03 02 00 03 00 00",
        verdict: [0, 0, 0, 0],
        part: 2,
    },
    WithPart {
        about: "a register behind the output that names it",
        stage: "01 01 03 02 00 03 00 04 00 00 01 00 FE FF 00",
        verdict: [0, 0, 0, 0],
        part: 7,
    },
    WithPart {
        about: "a wire, and a C-element behind no Ki",
        stage: "01 01 05 00 00 01 00 FF FF FF FF 03 00 00 01 00 00",
        verdict: [0, 0, 0, 0],
        part: 2,
    },
    WithPart {
        about: "a register cut off: 2 comes before 1",
        stage: "01 01 04",
        verdict: [1, 1, 3, 0],
        part: 2,
    },
    WithPart {
        about: "a C-element without its pin A",
        stage: "01 01 03 00 00 01 00 05 FF FF 01 00 FF FF FF FF 00",
        verdict: [5, 1, 8, 0],
        part: 7,
    },
    WithPart {
        about: "a Ki that is not there",
        stage: "01 01 04 00 00 01 00 05 00 03 02 00 03 00 00",
        verdict: [9, 1, 7, 0],
        part: 2,
    },
    WithPart {
        about: "a register on its own rails",
        stage: "01 01 04 02 00 03 00 FE FF 03 02 00 03 00 00",
        verdict: [33, 1, 0, 0],
        part: 2,
    },
    WithPart {
        about: "a care list, then a register with its own Ko as Ki",
        stage: "01 01 06 01 00 04 00 00 01 00 04 00 03 02 00 03 00 00",
        verdict: [35, 1, 0, 0],
        part: 5,
    },
];

/// What a program reads in its folder, by name, and what it prints.
pub struct Program {
    pub name: &'static str,
    pub data: Vec<(&'static str, Vec<u8>)>,
    pub stdout: String,
}

/// All programs.
pub fn programs() -> Vec<Program> {
    vec![
        suite(),
        ncl_check(),
        ncl_report(),
        ncl_join(),
        ncl_make(),
        ncl_next(),
        ncl_read_text(),
        ncl_write_text(),
    ]
}

fn suite() -> Program {
    let calls = calls();
    Program {
        name: "suite",
        data: calls
            .iter()
            .map(|call| (call.name, call.packed()))
            .collect(),
        stdout: calls.iter().map(Call::printed).collect(),
    }
}

/// One of the pairs under examples/.
fn example(name: &str) -> FilePair {
    let example = examples().into_iter().find(|example| example.name == name);
    example.expect("an example").pair
}

/// A program that reads a stage and its reference, on one of the examples.
fn on_a_pair(name: &'static str, printed: fn(&FilePair) -> String) -> Program {
    let pair = example("full-adder");
    let stdout = printed(&pair);
    Program {
        name,
        data: vec![("stage.ncl", pair.stage), ("reference.ncl", pair.reference)],
        stdout,
    }
}

fn ncl_check() -> Program {
    on_a_pair("ncl_check", |pair| {
        verdict_line(verdict_in(WordOrder::default(), pair))
    })
}

fn ncl_report() -> Program {
    on_a_pair("ncl_report", |pair| {
        expected_report(WordOrder::default(), &pair.stage, &pair.reference)
    })
}

fn ncl_join() -> Program {
    let (first, second) = (example("half-adder-relaxed"), example("half-adder"));
    let order = WordOrder::default();
    let joined = join_in_order(order, &first, &second, &mut [0; 8192], &mut [0; 8192]);
    Program {
        name: "ncl_join",
        data: vec![
            ("stage1.ncl", first.stage),
            ("reference1.ncl", first.reference),
            ("stage2.ncl", second.stage),
            ("reference2.ncl", second.reference),
        ],
        stdout: verdict_line(joined.verdict),
    }
}

fn ncl_make() -> Program {
    let reference = example("full-adder").reference;
    let made = make_stage(&reference, &mut [0; 8192]);
    Program {
        name: "ncl_make",
        data: vec![("reference.ncl", reference)],
        stdout: verdict_line(made.verdict),
    }
}

fn ncl_read_text() -> Program {
    let text = text_of_file(&example("full-adder").stage).expect("a stage that can be written");
    let read = read_text(&text, &mut [0; 8192]);
    Program {
        name: "ncl_read_text",
        data: vec![("stage.txt", text)],
        stdout: verdict_line(read.verdict),
    }
}

fn ncl_write_text() -> Program {
    let stage = example("full-adder").stage;
    let written = write_text(&stage, &mut [0; 16384]);
    Program {
        name: "ncl_write_text",
        data: vec![("stage.ncl", stage)],
        stdout: verdict_line(written.verdict),
    }
}

/// The last file with one input, after which comes the first with two.
fn ncl_next() -> Program {
    let last = FAMILY.iter().rfind(|file| file[1] == 1).expect("some");
    let made = next_stage(last, &mut [0; 28]);
    Program {
        name: "ncl_next",
        data: vec![("stage.ncl", last.clone())],
        stdout: verdict_line(made.verdict),
    }
}

impl Program {
    /// The folder of its crate.
    fn folder(&self) -> PathBuf {
        crate::root().join("crates").join(self.name)
    }

    /// Writes its files into its crate.
    pub fn store(&self) -> io::Result<()> {
        let folder = self.folder().join("data");
        if folder.exists() {
            fs::remove_dir_all(&folder)?;
        }
        fs::create_dir_all(&folder)?;
        for (name, bytes) in &self.data {
            fs::write(folder.join(name), bytes)?;
        }
        fs::write(self.folder().join("stdout"), &self.stdout)
    }

    /// Fails unless its crate holds these files, and no other data.
    pub fn is_stored(&self) {
        let folder = self.folder().join("data");
        for (name, bytes) in &self.data {
            holds(&folder.join(name), bytes);
        }
        holds(&self.folder().join("stdout"), self.stdout.as_bytes());
        let described: BTreeSet<_> = self.data.iter().map(|(name, _)| name.into()).collect();
        let stored: BTreeSet<_> = fs::read_dir(folder)
            .unwrap()
            .map(|entry| entry.unwrap().file_name())
            .collect();
        assert_eq!(stored, described, "{}", self.name);
    }
}

fn holds(path: &Path, bytes: &[u8]) {
    let stored = fs::read(path).unwrap_or_else(|error| {
        panic!(
            "{}: {error}; the program suite of the tests stores it",
            path.display()
        )
    });
    assert!(stored == bytes, "{} is not as described", path.display());
}
