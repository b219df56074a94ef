//! The cases of the switching report (document 02, M-100): pairs of a stage and a reference.
//!
//! What a case prints is also written by hand where it is short.

use crate::catalogue::{
    care_examples, examples_of_document_01, low_examples, relaxed_examples, retired_examples,
    Example, MARKED,
};
use crate::circuits::{ReferenceBuilder, Signal, StageBuilder};
use crate::files::{unhex, write_pair, FilePair};
use crate::generate;
use crate::judge::{report_in_order, WordOrder, ACCEPTED, ORDERS};
use crate::suite::{numbers, Stored, WITH_PARTS};

pub struct Case {
    pub about: String,
    pub pair: FilePair,
    /// The line without the case's number, where it is known without the judge: of a caller that
    /// sets the mark.
    pub known: Option<&'static str>,
}

/// A pair's report in one line, in either order of words: each word, a colon and its number, each
/// followed by a space, then `total` and the total; of a refused pair the four numbers.
pub fn line(order: WordOrder, pair: &FilePair) -> String {
    let report = report_in_order(order, &pair.stage, &pair.reference);
    if report.verdict != ACCEPTED {
        return numbers(report.verdict, &[]);
    }
    let lines = report.lines.iter();
    let lines: String = lines
        .map(|(word, high)| format!("{word}:{high} "))
        .collect();
    format!("{lines}total {}", report.total)
}

pub fn stored() -> Vec<Stored> {
    let stored = cases().into_iter().map(|case| Stored {
        about: case.about,
        lines: ORDERS.map(|order| line(order, &case.pair)).into(),
        operands: vec![case.pair.stage, case.pair.reference],
    });
    stored.collect()
}

struct Cases(Vec<Case>);

impl Cases {
    /// A pair that is there already is left out.
    fn add(&mut self, about: impl Into<String>, pair: FilePair, known: Option<&'static str>) {
        if self.0.iter().all(|case| case.pair != pair) {
            self.0.push(Case {
                about: about.into(),
                pair,
                known,
            });
        }
    }
}

pub fn cases() -> Vec<Case> {
    let mut cases = Cases(Vec::new());
    marked_cases(&mut cases);
    refused(&mut cases);
    stored_examples(&mut cases, examples_of_document_01());
    unequal_words(&mut cases);
    // What document 02 adds stands behind, so that the cases above keep their numbers.
    stored_examples(&mut cases, care_examples());
    care_words(&mut cases);
    stored_examples(&mut cases, relaxed_examples());
    stored_examples(&mut cases, retired_examples());
    stored_examples(&mut cases, low_examples());
    registers(&mut cases);
    cases.0
}

/// Document 02, M-111: only the check reads registers and C-elements.
fn registers(cases: &mut Cases) {
    for with in &WITH_PARTS {
        let pair = FilePair {
            stage: unhex(with.stage),
            reference: unhex("01 01 12 00 00 00"),
        };
        let known = match with.part {
            2 => "2 1 2 0",
            5 => "2 1 5 0",
            _ => "2 1 7 0",
        };
        cases.add(with.about, pair, Some(known));
    }
}

/// What the marked cases of document 01 report; the words of case 11 are 1,024 lines.
const MARKED_LINES: [Option<&str>; 12] = [
    Some("0:1 1:1 2:1 3:1 total 4"),
    Some("0:0 1:0 total 0"),
    Some("13 1 0 0"),
    Some("0:0 1:0 total 0"),
    Some("13 1 0 0"),
    Some("14 1 0 0"),
    Some("14 1 1 0"),
    Some("15 1 0 0"),
    Some("12 1 0 0"),
    Some("1 1 0 0"),
    None,
    Some("3 1 1 0"),
];

fn marked_cases(cases: &mut Cases) {
    for (case, (about, stage, reference, _)) in MARKED.into_iter().enumerate() {
        let pair = FilePair {
            stage: unhex(stage),
            reference: unhex(reference),
        };
        let about = format!("marked case {}: {about}", case + 1);
        cases.add(about, pair, MARKED_LINES[case]);
    }
}

/// Refusals of either file and of their counts.
fn refused(cases: &mut Cases) {
    const WIRE: &str = "01 01 03 00 00 01 00 00";
    for (about, stage, reference, known) in [
        (
            "2: the files exchanged",
            "01 01 12 00 00 00",
            WIRE,
            "2 1 2 0",
        ),
        (
            "7: a byte after the stage",
            "01 01 03 00 00 01 00 00 00",
            "",
            "7 1 8 0",
        ),
        ("9: an absent net", "01 01 03 00 00 02 00 00", "", "9 1 5 0"),
        ("1: an empty reference", WIRE, "", "1 2 0 0"),
        ("9: an absent signal", WIRE, "01 01 12 01 00 00", "9 2 3 0"),
        ("10: 1 against 2", WIRE, "01 02 12 00 00 00", "10 0 1 2"),
        (
            "11: 1 against 3",
            WIRE,
            "01 01 12 00 00 12 00 00 12 00 00 00",
            "11 0 1 3",
        ),
    ] {
        let pair = FilePair {
            stage: unhex(stage),
            reference: unhex(reference),
        };
        cases.add(about, pair, Some(known));
    }
}

/// The examples of at most six inputs, and few larger ones: their reports have up to 1,024 words.
fn stored_examples(cases: &mut Cases, examples: Vec<Example>) {
    for example in examples {
        let inputs = example.pair.stage.get(1).copied().unwrap_or(0);
        let large = [
            "timing-network",
            "timing-network-last-word",
            "multiplier-4x4",
        ];
        if inputs <= 6 || large.contains(&example.name.as_str()) {
            let about = format!("{}: {}", example.name, example.about);
            cases.add(about, example.pair, None);
        }
    }
}

fn chains(inputs: usize, care: &[u64]) -> FilePair {
    let mut s = StageBuilder::new(inputs);
    let mut r = ReferenceBuilder::new(inputs);
    for (i, input) in s.inputs().into_iter().enumerate() {
        let mut rail_1 = input.rail_1;
        for _ in 0..=i {
            rail_1 = s.gate("TH22", &[rail_1, rail_1]);
        }
        s.output(Signal { rail_1, ..input });
        r.output(i);
    }
    s.stage.care = care.to_vec();
    write_pair(&s.stage, &r.reference)
}

/// Lists of care words: the lines are theirs, and a refused list prints its verdict.
fn care_words(cases: &mut Cases) {
    let mut add = |inputs, care: &[u64], known| {
        let about = format!("{inputs} inputs, {} care words", care.len());
        cases.add(about, chains(inputs, care), known);
    };
    add(3, &[0, 5, 6], Some("0:0 5:4 6:5 total 9"));
    add(3, &[7], Some("7:6 total 6"));
    add(3, &[0], Some("32 1 0 0"));
    let all: Vec<u64> = (0..8).collect();
    add(3, &all, Some("0:0 1:1 2:2 3:3 4:3 5:4 6:5 7:6 total 24"));
    add(3, &[8], Some("18 1 3 0"));
    add(3, &[1, 1], Some("19 1 6 0"));
    add(10, &[1023], Some("1023:55 total 55"));
    add(10, &[512, 1000, 1001], Some("32 1 1 0"));
    let all: Vec<u64> = (0..1024).collect();
    add(10, &all, None);
    let odd: Vec<u64> = (0..1024).filter(|word| word % 2 == 1).collect();
    add(10, &odd, None);
}

/// Stages whose words report unequal numbers: a chain of gates on rail 1 of each input, of i + 1
/// gates for input i, so that a word reports the sum over its bits; and generated ones.
fn unequal_words(cases: &mut Cases) {
    for inputs in [1, 3, 10] {
        let about = format!("{inputs} inputs, i + 1 gates on rail 1 of input i");
        let known = (inputs == 3).then_some("0:0 1:1 2:2 3:3 4:3 5:4 6:5 7:6 total 24");
        cases.add(about, chains(inputs, &[]), known);
    }
    for index in GENERATED {
        let pair = generate::pair_of_document_01(2026, index).pair;
        cases.add(format!("generated, number {index}"), pair, None);
    }
}

/// Generated pairs that are accepted but for 28, with words of unequal numbers.
const GENERATED: [u64; 21] = [
    1, 15, 16, 25, 35, 47, 67, 113, 146, 173, 190, 228, 243, 247, 253, 286, 287, 288, 292, 294, 295,
];
