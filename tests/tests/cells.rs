//! The 27 cells of the crate `gates` against the papers' own words: names, pins, set expressions and the table of 432 entries.

use fovaheju_tests::{holds, pins, read};

/// The gate kinds as the scope document writes them.
const KINDS: &str = "1 TH12 A+B. 2 TH22 AB. 3 TH13 A+B+C. 4 TH23 AB+AC+BC. 5 TH33 ABC. 6 TH23w2 A+BC. 7 TH33w2 AB+AC. \
8 TH14 A+B+C+D. 9 TH24 AB+AC+AD+BC+BD+CD. 10 TH34 ABC+ABD+ACD+BCD. 11 TH44 ABCD. 12 TH24w2 A+BC+BD+CD. \
13 TH34w2 AB+AC+AD+BCD. 14 TH44w2 ABC+ABD+ACD. 15 TH34w3 A+BCD. 16 TH44w3 AB+AC+AD. 17 TH24w22 A+B+CD. \
18 TH34w22 AB+AC+AD+BC+BD. 19 TH44w22 AB+ACD+BCD. 20 TH54w22 ABC+ABD. 21 TH34w32 A+BC+BD. 22 TH54w32 AB+ACD. \
23 TH44w322 AB+AC+AD+BC. 24 TH54w322 AB+AC+BCD. 25 THxor0 AB+CD. 26 THand0 AB+BC+AD. 27 TH24comp AC+BC+AD+BD.";

/// Table 2 of the source document on NCL, row by row.
const TABLE_2: &str = "TH12 A + B|TH22 AB|TH13 A + B + C|TH23 AB + AC + BC|TH33 ABC|TH23w2 A + BC|TH33w2 AB + AC|\
TH14 A + B + C + D|TH24 AB + AC + AD + BC + BD + CD|TH34 ABC + ABD + ACD + BCD|TH44 ABCD|TH24w2 A + BC + BD + CD|\
TH34w2 AB + AC + AD + BCD|TH44w2 ABC + ABD + ACD|TH34w3 A + BCD|TH44w3 AB + AC + AD|TH24w22 A + B + CD|\
TH34w22 AB + AC + AD + BC + BD|TH44w22 AB + ACD + BCD|TH54w22 ABC + ABD|TH34w32 A + BC + BD|TH54w32 AB + ACD|\
TH44w322 AB + AC + AD + BC|TH54w322 AB + AC + BCD|THxor0 AB + CD|THand0 AB + BC + AD|TH24comp AC + BC + AD + BD";

struct Kind {
    name: String,
    expression: String,
}

fn kinds() -> Vec<Kind> {
    KINDS
        .split(". ")
        .enumerate()
        .map(|(i, text)| {
            let mut words = text.trim_end_matches('.').split(' ');
            assert_eq!(words.next().unwrap(), (i + 1).to_string());
            Kind {
                name: words.next().unwrap().into(),
                expression: words.next().unwrap().into(),
            }
        })
        .collect()
}

/// Of this file's own constants: document 01 and source document 001 give the same cells.
#[test]
fn the_two_papers_agree() {
    let kinds = kinds();
    let rows: Vec<&str> = TABLE_2.split('|').collect();
    assert_eq!((kinds.len(), rows.len()), (27, 27));
    for (kind, row) in kinds.iter().zip(rows) {
        let (name, expression) = row.split_once(' ').unwrap();
        assert_eq!(kind.name, name);
        assert_eq!(kind.expression, expression.replace(' ', ""));
    }
}

#[test]
fn the_definitions_spell_the_papers_cells() {
    let specs = read("crates/gates/specs/Cell.antt");
    let cells: Vec<&str> = specs
        .lines()
        .filter_map(|l| l.trim().strip_prefix("cell \""))
        .filter(|l| l.starts_with("TH"))
        .collect();
    let kinds = kinds();
    assert_eq!(cells.len(), kinds.len());
    for (cell, kind) in cells.iter().zip(&kinds) {
        let (name, rest) = cell.split_once("\" ").unwrap();
        let (count, rest) = rest.split_once(" (").unwrap();
        let expression = rest
            .split_once(')')
            .unwrap()
            .0
            .replace(" · ", "")
            .replace(" ∔ ", "+");
        assert_eq!(name, kind.name);
        assert_eq!(count, pins(&kind.expression).to_string(), "{name}");
        assert_eq!(expression, kind.expression, "{name}");
    }
}

/// docs/FILES.md has a row for each kind: number, byte, name, pins and set expression.
#[test]
fn the_table_of_the_files_is_the_papers() {
    let text = read("docs/FILES.md");
    let rows: Vec<&str> = text.lines().filter(|l| l.contains(" | TH")).collect();
    let kinds = kinds();
    assert_eq!(rows.len(), kinds.len());
    for (i, (row, kind)) in rows.iter().zip(&kinds).enumerate() {
        let letters = ["A", "B", "C", "D"][..pins(&kind.expression) as usize].join(" ");
        let expression = kind.expression.replace('+', " + ");
        assert_eq!(
            row,
            &format!(
                "| {} | {:02X} | {} | {letters} | {expression} |",
                i + 1,
                i + 1,
                kind.name
            )
        );
    }
}

#[test]
fn the_table_holds_the_papers_expressions() {
    let source = read("crates/gates/src/lib.rt");
    let body = source
        .split_once("const TABLE: [[u8; 16]; 27] = [")
        .unwrap()
        .1
        .split_once("];")
        .unwrap()
        .0;
    let rows: Vec<Vec<u8>> = body
        .lines()
        .filter_map(|l| l.trim().strip_prefix('[')?.strip_suffix("],"))
        .map(|l| l.split(", ").map(|n| n.parse().unwrap()).collect())
        .collect();
    assert_eq!(rows.len(), 27);
    for (row, kind) in rows.iter().zip(kinds()) {
        let expected: Vec<u8> = (0..16).map(|p| holds(&kind.expression, p) as u8).collect();
        assert_eq!(row, &expected, "{}", kind.name);
    }
}

/// Of this file's own constants: the paper's sentence on THmn holds of its expressions.
#[test]
fn an_unweighted_gate_counts_its_pins() {
    for kind in kinds() {
        let digits: Vec<u32> = kind.name[2..]
            .chars()
            .map_while(|c| c.to_digit(10))
            .collect();
        if kind.name.contains('w') || digits.len() != 2 || kind.name.len() != 4 {
            continue;
        }
        assert_eq!(
            digits[1],
            u32::from(pins(&kind.expression)),
            "{}",
            kind.name
        );
        for pattern in 0..(1u8 << digits[1]) {
            assert_eq!(
                holds(&kind.expression, pattern),
                pattern.count_ones() >= digits[0],
                "{} {pattern}",
                kind.name
            );
        }
    }
}
