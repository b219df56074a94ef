//! The stored cases of the check: the judge's verdicts are those written by hand, and what the cases cover.

use fovaheju_tests::judge::{check, ORDERS};
use fovaheju_tests::suite::check::cases;
use fovaheju_tests::suite::verdict_in;
use std::collections::BTreeSet;

/// The judge's verdicts with the mark are those written by hand. By default they have the same number
/// and file, and differ at most where they name a word; each of these numbers has a case that does.
#[test]
fn verdicts() {
    let mut turned = BTreeSet::new();
    for case in cases() {
        let [by_default, verdict] = ORDERS.map(|order| verdict_in(order, &case.pair));
        assert!(
            case.known.agrees(verdict),
            "{}: {verdict:?}, not {:?}",
            case.about,
            case.known
        );
        assert_eq!(by_default[..2], verdict[..2], "{}", case.about);
        if by_default != verdict {
            turned.insert(verdict[0]);
        }
    }
    assert_eq!(turned, BTreeSet::from([13, 14, 15, 20, 21]));
}

/// Each verdict has several cases, 1 to 9 in either file.
#[test]
fn what_the_cases_cover() {
    let verdicts: Vec<_> = cases()
        .iter()
        .map(|case| check(&case.pair.stage, &case.pair.reference))
        .collect();
    let count = |number, file| {
        let alike = verdicts.iter().filter(|v| v[0] == number && v[1] == file);
        alike.count()
    };
    for number in 1..=9 {
        for file in [1, 2] {
            let count = count(number, file);
            assert!(count >= 3, "{count} cases of {number} in file {file}");
        }
    }
    let others = [
        (0, 0),
        (10, 0),
        (11, 0),
        (12, 1),
        (13, 1),
        (14, 1),
        (15, 1),
        (20, 1),
        (21, 1),
        (32, 1),
        (33, 1),
        (34, 1),
        (35, 1),
        (28, 1),
        (18, 1),
        (19, 1),
    ];
    for (number, file) in others {
        let count = count(number, file);
        assert!(count >= 5, "{count} cases of {number}");
    }
    // Several words and places are named by each of 13, 14 and 15.
    for number in [13, 14, 15, 20, 21] {
        for field in [2, 3] {
            let named: BTreeSet<u64> = verdicts
                .iter()
                .filter(|verdict| verdict[0] == number)
                .map(|verdict| verdict[field])
                .collect();
            let least = if number < 20 { 4 } else { 2 };
            assert!(named.len() >= least, "{number}: {named:?}");
        }
    }
}
