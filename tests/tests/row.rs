//! The stored cases of the settled-row call: the judge's verdicts are those written by hand, and what the cases cover.

use fovaheju_tests::judge::{cell, is_settled, pin_count, read_stage, settled_row, SET};
use fovaheju_tests::suite::row::cases;
use std::collections::BTreeSet;

/// The judge's verdicts are those written by hand, and its rows are what the paper says.
#[test]
fn verdicts_and_rows() {
    for case in cases() {
        let mut row = case.row.clone();
        let verdict = settled_row(&case.stage, &mut row);
        assert_eq!(verdict, case.verdict, "{}", case.about);
        if verdict[0] != 0 {
            assert_eq!(row, case.row, "{}", case.about);
            continue;
        }
        let stage = read_stage(&case.stage).unwrap();
        let rails = 2 * stage.inputs;
        assert_eq!(row[..rails], case.row[..rails], "{}", case.about);
        assert!(row.iter().all(|&byte| byte <= 1), "{}", case.about);
        let levels: Vec<bool> = row.iter().map(|&byte| byte == 1).collect();
        assert!(is_settled(&stage, &levels, None), "{}", case.about);
    }
}

/// Each verdict that the call can give has several cases, and each entry of the table
/// of kinds is met by a gate of a settled row.
#[test]
fn what_the_cases_cover() {
    let cases = cases();
    for number in [0, 1, 2, 3, 4, 5, 6, 7, 8, 9, 18, 19, 12, 16, 17] {
        let count = cases.iter().filter(|c| c.verdict[0] == number).count();
        assert!(count >= 3, "{count} cases of {number}");
    }
    let mut met = BTreeSet::new();
    for case in cases.iter().filter(|case| case.verdict[0] == 0) {
        let mut row = case.row.clone();
        settled_row(&case.stage, &mut row);
        for gate in read_stage(&case.stage).unwrap().gates {
            let pins = gate.pins.iter().enumerate();
            let pattern: usize = pins.map(|(pin, &net)| usize::from(row[net]) << pin).sum();
            met.insert((gate.kind, pattern));
        }
    }
    for kind in (1..=27).chain(129..=155) {
        for pattern in 0..1 << pin_count(kind) {
            assert!(
                met.contains(&(kind, pattern)),
                "kind {kind}, pattern {pattern}, level {}",
                SET[cell(kind)][pattern]
            );
        }
    }
}
