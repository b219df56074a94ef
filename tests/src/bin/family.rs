//! family: goes through the whole family of small stages (document 02, M-112) with the proved library: its call writes each file
//! after the one before; the settled-row call gives the function that the stage computes, 0 where an output is not DATA; the check
//! sets the stage against a reference of that function. The judge does the same beside it, and the first difference ends the run.
//! Prints, by inputs and gates, how many files are accepted and how many are refused by each number. On a terminal it shows how far
//! it has come.

use fovaheju_tests::files::{hex, write_reference};
use fovaheju_tests::judge::{
    self, answer, check_in_order, rails_of_word, Boolean, Reference, Verdict, ACCEPTED, AND,
    LIMITS, NOT, OR, ORDERS, XOR,
};
use fovaheju_tests::library;
use fovaheju_tests::next::{member, FAMILY, NONE_FURTHER};
use std::collections::{BTreeMap, BTreeSet};
use std::io::{stderr, IsTerminal, Write};
use std::process::ExitCode;

/// The function that a stage with one output computes, read off its settled row for each word: true for DATA1, and false for DATA0 and
/// what is not DATA.
fn function_of(
    settled_row: fn(&[u8], &mut [u8]) -> Verdict,
    file: &[u8],
) -> Result<Vec<bool>, String> {
    let stage = member(file).ok_or("the judge does not know this file")?;
    let [rail_0, rail_1] = stage.outputs[0];
    let mut values = Vec::new();
    for word in 0..1 << stage.inputs {
        let rails = rails_of_word(stage.inputs, word);
        let mut row: Vec<u8> = rails.into_iter().map(u8::from).collect();
        row.resize(stage.nets(), 7);
        let verdict = settled_row(file, &mut row);
        if verdict != ACCEPTED {
            return Err(format!("the settled row of word {word} is {verdict:?}"));
        }
        values.push(row[rail_0] == 0 && row[rail_1] == 1);
    }
    Ok(values)
}

/// A reference of a function: OR of a product for each word in which it is 1, on 0, which is XOR of an input with itself.
fn reference_of(inputs: usize, values: &[bool]) -> Reference {
    let mut reference = Reference {
        inputs,
        ..Reference::default()
    };
    let mut put = |operation: usize, operands: Vec<usize>| {
        reference.gates.push(Boolean {
            operation,
            operands,
        });
        reference.signals() - 1
    };
    let mut sum = put(XOR, vec![0, 0]);
    let nots: Vec<usize> = (0..inputs).map(|input| put(NOT, vec![input])).collect();
    for word in (0..values.len()).filter(|&word| values[word]) {
        let literal = |input: usize| {
            if word >> input & 1 == 1 {
                input
            } else {
                nots[input]
            }
        };
        let product = (1..inputs).fold(literal(0), |product, input| {
            put(AND, vec![product, literal(input)])
        });
        sum = put(OR, vec![sum, product]);
    }
    reference.outputs.push(sum);
    reference
}

/// The number on which library and judge agree, in either order of words.
fn number_of(file: &[u8]) -> Result<u64, String> {
    let values = function_of(library::settled_row, file)?;
    if values != function_of(judge::settled_row, file)? {
        return Err("the settled rows differ".to_string());
    }
    let inputs = values.len().trailing_zeros() as usize;
    let reference = reference_of(inputs, &values);
    let spelt = (0..values.len()).all(|word| answer(&reference, word as u64) == [values[word]]);
    assert!(spelt, "the reference is not that of the function");
    let reference = write_reference(&reference);
    let mut number = 0;
    for (mark, order) in ORDERS.into_iter().enumerate() {
        let given = library::check(mark as u64, file, &reference);
        let judged = check_in_order(order, LIMITS, file, &reference);
        if given != judged {
            return Err(format!("judge {judged:?}, library {given:?}, {order:?}"));
        }
        number = given[0];
    }
    Ok(number)
}

/// How often each number came, by inputs and gates.
type Table = BTreeMap<(u8, usize), BTreeMap<u64, u64>>;

/// All files from the empty one to 36.
fn walk() -> Result<Table, String> {
    let mut table = Table::new();
    let mut file = Vec::new();
    let shown = stderr().is_terminal();
    for (place, expected) in FAMILY.iter().enumerate() {
        let mut buffer = vec![0; 28];
        let made = library::next_stage(&file, &mut buffer);
        buffer.truncate(made.len);
        if made.verdict != ACCEPTED || buffer != *expected {
            let (after, expected) = (hex(&file), hex(expected));
            return Err(format!(
                "after '{after}' came {:?} '{}', not '{expected}'",
                made.verdict,
                hex(&buffer)
            ));
        }
        file = buffer;
        let number = number_of(&file).map_err(|what| format!("'{}': {what}", hex(&file)))?;
        let shape = (file[1], (file.len() - 8) / 10);
        *table.entry(shape).or_default().entry(number).or_default() += 1;
        if shown && (place % 512 == 0 || place + 1 == FAMILY.len()) {
            eprint!("\r{} of {} files", place + 1, FAMILY.len());
            let _ = stderr().flush();
        }
    }
    if shown {
        eprintln!();
    }
    let end = library::next_stage(&file, &mut [0; 28]);
    if end.verdict != NONE_FURTHER || end.len != 0 {
        return Err(format!("after the last file came {:?}", end.verdict));
    }
    Ok(table)
}

/// A number with its thousands set apart.
fn grouped(number: u64) -> String {
    let digits = number.to_string();
    let mut text = String::new();
    for (place, digit) in digits.chars().enumerate() {
        if place > 0 && (digits.len() - place).is_multiple_of(3) {
            text.push(',');
        }
        text.push(digit);
    }
    text
}

fn row(cells: impl IntoIterator<Item = String>) {
    let cells: Vec<String> = cells.into_iter().collect();
    println!("| {} |", cells.join(" | "));
}

fn print(table: &Table) {
    let numbers: BTreeSet<u64> = table.values().flat_map(BTreeMap::keys).copied().collect();
    let name = |number: &u64| match number {
        0 => "accepted".to_string(),
        _ => format!("refused by {number}"),
    };
    let names = ["inputs", "gates", "files"].map(str::to_string);
    row(names.into_iter().chain(numbers.iter().map(name)));
    row((0..3 + numbers.len()).map(|_| "---".to_string()));
    let counts = |counts: &BTreeMap<u64, u64>| {
        let count = |number: &u64| grouped(counts.get(number).copied().unwrap_or(0));
        let sum = grouped(counts.values().sum());
        let each: Vec<String> = numbers.iter().map(count).collect();
        std::iter::once(sum).chain(each)
    };
    let mut all: BTreeMap<u64, u64> = BTreeMap::new();
    for ((inputs, gates), line) in table {
        row([inputs.to_string(), gates.to_string()]
            .into_iter()
            .chain(counts(line)));
        for (number, count) in line {
            *all.entry(*number).or_default() += count;
        }
    }
    row(["all".to_string(), String::new()]
        .into_iter()
        .chain(counts(&all)));
}

fn main() -> ExitCode {
    match walk() {
        Ok(table) => {
            print(&table);
            ExitCode::SUCCESS
        }
        Err(what) => {
            eprintln!("\nfamily: {what}");
            ExitCode::FAILURE
        }
    }
}
