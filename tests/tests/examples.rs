//! The stored example pairs: their files are those described, and their verdicts those
//! of the judge.

use fovaheju_tests::catalogue::joins::{self, joined, joints};
use fovaheju_tests::catalogue::texts::{self, texts};
use fovaheju_tests::catalogue::{
    address_compare_reference, comparator_reference, examples, listing, mac_of_the_source,
    mac_reference, multiplier_of_the_source, parity_reference, MARKED,
};
use fovaheju_tests::circuits::{multiplier_reference, ripple_adder_reference};
use fovaheju_tests::files::{
    examples_folder, load_example, load_text, pipelines_folder, stored_examples, stored_texts,
};
use fovaheju_tests::judge::{answer, rails_of_word, read_stage, settle, Stage, ACCEPTED, ORDERS};
use fovaheju_tests::read;
use fovaheju_tests::suite::verdict_in;
use fovaheju_tests::text::{file_of_text, text_of_file};
use std::collections::BTreeSet;

#[test]
fn stored_files_and_verdicts() {
    let folder = examples_folder();
    let mut described = Vec::new();
    for example in examples() {
        let (pair, verdicts) = load_example(&folder, &example.name).unwrap_or_else(|error| {
            panic!(
                "{}: {error}; the program write_examples stores it",
                example.name
            )
        });
        assert_eq!(pair, example.pair, "{}", example.name);
        for (order, verdict) in ORDERS.into_iter().zip(verdicts) {
            assert_eq!(verdict[0], example.number, "{}", example.name);
            assert_eq!(verdict_in(order, &pair), verdict, "{}", example.name);
        }
        described.push(example.name);
    }
    described.sort();
    assert_eq!(stored_examples(&folder).unwrap(), described);
    let list = std::fs::read_to_string(folder.join("LIST.md")).unwrap();
    assert_eq!(list, listing(), "examples/LIST.md");
}

/// The joins of stored pairs have the verdicts that they are meant to have, and write the pairs
/// that are stored for them.
#[test]
fn joins_of_stored_pairs() {
    let examples = examples();
    let mut numbers = BTreeSet::new();
    for joint in joints() {
        let about = format!("{} and {}: {}", joint.first, joint.second, joint.about);
        let folder = examples_folder();
        let whole = joint
            .whole
            .map(|name| load_example(&folder, name).unwrap().0);
        for order in ORDERS {
            let (verdict, written) = joined(order, &joint, &examples);
            assert_eq!(verdict[0], joint.number, "{about}");
            numbers.insert((verdict[0], verdict[1]));
            assert_eq!(written, whole, "{about}");
        }
    }
    for place in [
        (0, 0),
        (22, 0),
        (23, 0),
        (14, 1),
        (32, 1),
        (9, 2),
        (10, 0),
        (14, 4),
        (32, 4),
        (9, 5),
        (10, 3),
        (11, 3),
    ] {
        assert!(numbers.contains(&place), "{place:?}");
    }
    let list = std::fs::read_to_string(examples_folder().join("JOINS.md")).unwrap();
    assert_eq!(list, joins::listing(), "examples/JOINS.md");
}

/// The stored texts are those described, have the verdicts that they are meant to have, and give the
/// stages of the pairs that they are texts of.
#[test]
fn texts_of_stages() {
    let folder = examples_folder();
    let mut described = Vec::new();
    let mut numbers = BTreeSet::new();
    for example in texts() {
        let name = example.name;
        let (text, read) = load_text(&folder, name).unwrap_or_else(|error| {
            panic!("{name}: {error}; the program write_examples stores it")
        });
        assert_eq!(text, example.text, "{name}");
        assert_eq!(file_of_text(&text), read, "{name}");
        let verdict = read.as_ref().map_or_else(|verdict| *verdict, |_| ACCEPTED);
        assert_eq!(verdict, example.verdict, "{name}");
        numbers.insert(verdict[0]);
        if let Some(pair) = example.stage {
            let (pair, _) = load_example(&folder, pair).unwrap();
            assert_eq!(read, Ok(pair.stage), "{name}");
        }
        described.push(name);
    }
    described.sort();
    assert_eq!(stored_texts(&folder).unwrap(), described);
    assert_eq!(numbers, BTreeSet::from([0, 3, 5, 6, 29, 30, 31]));
    let list = std::fs::read_to_string(folder.join("TEXTS.md")).unwrap();
    assert_eq!(list, texts::listing(), "examples/TEXTS.md");
}

/// The bytes that the blocks of a document spell: in each line the pairs of hexadecimal digits at its
/// start, or after its first word. A block that begins with a command shows what that prints.
fn spelt(document: &str) -> Vec<u8> {
    let byte = |word: &str| {
        let digits = word.len() == 2 && !word.contains(|c: char| c.is_ascii_lowercase());
        u8::from_str_radix(word, 16).ok().filter(|_| digits)
    };
    let blocks = document.split("```").skip(1).step_by(2);
    let blocks = blocks.filter(|block| !block.trim_start().starts_with('$'));
    let lines = blocks.flat_map(|block| block.lines().skip(1));
    lines
        .flat_map(|line| {
            let words: Vec<&str> = line.split_whitespace().collect();
            let label = words.first().is_some_and(|word| byte(word).is_none());
            let bytes = words.into_iter().skip(label as usize).map_while(byte);
            bytes.collect::<Vec<u8>>()
        })
        .collect()
}

#[test]
fn the_documents_spell_the_and() {
    let (pair, _) = load_example(&examples_folder(), "and").unwrap();
    let and = [pair.stage, pair.reference].concat();
    assert_eq!(spelt(&read("README.md")), and, "README.md");
    // Behind it a stage with registers.
    let folder = pipelines_folder(&examples_folder());
    let (pair, _) = load_example(&folder, "registers-2x2").unwrap();
    let both = [and, pair.stage].concat();
    assert_eq!(spelt(&read("docs/FILES.md")), both, "docs/FILES.md");
}

/// The blocks of a document that are texts.
fn spelt_texts(document: &str) -> Vec<String> {
    let blocks = document.split("```\n").skip(1).step_by(2);
    blocks
        .filter(|block| block.contains("TH22 "))
        .filter(|block| !block.contains("FF FF"))
        .map(str::to_string)
        .collect()
}

#[test]
fn the_documents_spell_the_and_as_text() {
    let (pair, _) = load_example(&examples_folder(), "and").unwrap();
    let texts = spelt_texts(&read("docs/FILES.md"));
    assert_eq!(texts.len(), 2);
    for text in &texts {
        assert_eq!(file_of_text(text.as_bytes()), Ok(pair.stage.clone()));
    }
    assert_eq!(text_of_file(&pair.stage), Ok(texts[1].clone().into_bytes()));
}

#[test]
fn marked_cases_are_stored_with_the_papers_verdicts() {
    for (case, (about, _, _, verdict)) in MARKED.into_iter().enumerate() {
        let name = format!("marked-{:02}", case + 1);
        let (_, [_, lowest]) = load_example(&examples_folder(), &name).unwrap();
        assert_eq!(lowest, verdict, "{about}");
    }
}

fn number(bits: &[bool]) -> u64 {
    bits.iter()
        .enumerate()
        .map(|(place, &bit)| u64::from(bit) << place)
        .sum()
}

/// The references compute what their names say.
#[test]
fn references_compute() {
    for (a, b) in [
        (1, 1),
        (2, 2),
        (3, 3),
        (4, 4),
        (2, 8),
        (3, 7),
        (4, 6),
        (5, 5),
    ] {
        let reference = multiplier_reference(a, b);
        for word in 0..1u64 << (a + b) {
            let (x, y) = (word & ((1 << a) - 1), word >> a);
            assert_eq!(number(&answer(&reference, word)), x * y);
        }
    }
    for bits in 1..=5 {
        for carry_in in [false, true] {
            if 2 * bits + usize::from(carry_in) > 10 {
                continue;
            }
            let reference = ripple_adder_reference(bits, carry_in);
            for word in 0..1u64 << reference.inputs {
                let mask = (1 << bits) - 1;
                let sum = (word & mask) + (word >> bits & mask) + (word >> (2 * bits));
                assert_eq!(number(&answer(&reference, word)), sum);
            }
        }
    }
    for word in 0..1024u64 {
        assert_eq!(
            answer(&parity_reference(), word),
            [word.count_ones() % 2 == 1]
        );
        assert_eq!(
            answer(&address_compare_reference(), word),
            [word & 31 == word >> 5]
        );
    }
    for word in 0..256u64 {
        let (a, b) = (word & 15, word >> 4);
        assert_eq!(
            answer(&comparator_reference(), word),
            [a < b, a == b, a > b]
        );
        let (x, y, acc) = (word & 3, word >> 2 & 3, word >> 4);
        assert_eq!(number(&answer(&mac_reference(), word)), (acc + x * y) % 16);
    }
}

/// The netlists of source document 001 have as many gates as lines.
#[test]
fn netlists_of_the_source() {
    // Lines 3 to 44 of Figure 12(a), lines 3 to 38 of Figure 15(a).
    assert_eq!(multiplier_of_the_source().gates.len(), 42);
    assert_eq!(mac_of_the_source().gates.len(), 36);
}

/// The pairs that a loop looks at which ends at the first that is not DATA.
fn looked_at(stage: &Stage, row: &[bool]) -> usize {
    let mut pairs = stage.outputs.iter();
    let first = pairs.position(|&[rail_0, rail_1]| row[rail_0] == row[rail_1]);
    first.map_or(stage.outputs.len(), |pair| pair + 1)
}

/// M-104: in one stage the first pair alone is NULL whichever input is, in the other the last. How
/// many pairs 14 and 15 look at in all words.
#[test]
fn one_null_pair() {
    let cases = [
        ("null-pair-first", 0, [10_240, 162_816]),
        ("null-pair-last", 15, [163_840, 516_096]),
    ];
    for (name, null, pairs) in cases {
        let (pair, verdicts) = load_example(&examples_folder(), name).unwrap();
        assert_eq!(verdicts, [[32, 1, 10, 0]; 2]);
        let stage = read_stage(&pair.stage).unwrap();
        assert_eq!((stage.inputs, stage.outputs.len()), (10, 16));
        let mut looked = [0, 0];
        for word in 0..1024 {
            for input in 0..10 {
                let mut rails = rails_of_word(10, word);
                rails[2 * input] = false;
                rails[2 * input + 1] = false;
                let row = settle(&stage, &rails, None);
                for (output, &[rail_0, rail_1]) in stage.outputs.iter().enumerate() {
                    assert_eq!(row[rail_0] || row[rail_1], output != null);
                }
                looked[0] += looked_at(&stage, &row);
            }
            let rails = rails_of_word(10, word);
            let rest = settle(&stage, &rails, None);
            for gate in (0..stage.gates.len()).filter(|gate| rest[20 + gate]) {
                looked[1] += looked_at(&stage, &settle(&stage, &rails, Some(gate)));
            }
        }
        assert_eq!(looked, pairs, "{name}");
    }
}
