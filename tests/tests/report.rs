//! The switching report (M-100 of document 02): the judge's reports, and the stored cases.

use fovaheju_tests::catalogue::MARKED;
use fovaheju_tests::compare::{
    compare_reports, expected_report, judged_counts, run_program, Counts, Difference, ReportInOrder,
};
use fovaheju_tests::files::{report_text, unhex};
use fovaheju_tests::generate::pair;
use fovaheju_tests::judge::{
    cell, check_within, pin_count, read_stage, report, report_lines, settled_row, Gate, Stage,
    WordOrder, ACCEPTED, KINDS, LIMITS, ORDERS,
};
use fovaheju_tests::suite::report::{cases, line};
use std::fs;
use std::path::Path;

/// "The whole case of document 01 prints `0 1`, `1 1`, `2 1`, `3 1`, `total 4`."
#[test]
fn the_whole_case() {
    let (_, stage, reference, _) = MARKED[0];
    let report = report(&unhex(stage), &unhex(reference));
    assert_eq!(report_text(&report), "0 1\n1 1\n2 1\n3 1\ntotal 4\n");
}

/// A gate that is set in a word, by the letters of its expression.
fn gate_is_set(gate: &Gate, high: &dyn Fn(usize) -> bool) -> bool {
    assert_eq!(gate.pins.len(), pin_count(gate.kind));
    let products = KINDS[cell(gate.kind) - 1].1.split('+');
    let mut products = products.map(|product| product.bytes().map(|letter| letter - b'A'));
    products.any(|mut product| product.all(|pin| high(gate.pins[usize::from(pin)])))
}

/// The gates high in a word, by recursion from a gate to its pins.
fn is_high(stage: &Stage, net: usize, word: u64) -> bool {
    if net < 2 * stage.inputs {
        return (word >> (net / 2) & 1) as usize == net % 2;
    }
    let gate = &stage.gates[net - 2 * stage.inputs];
    gate_is_set(gate, &|pin| is_high(stage, pin, word))
}

/// Refused pairs have a verdict and nothing else; accepted ones a line for each word, with the
/// gates that the settled-row call finds high, and that are set as their expressions say.
#[test]
fn generated_pairs() {
    let (mut accepted, mut refused) = (0, 0);
    for index in 0..1_500 {
        let pair = pair(100, index).pair;
        let report = report(&pair.stage, &pair.reference);
        let checked = check_within(LIMITS, &pair.stage, &pair.reference);
        assert_eq!(report.verdict, checked);
        if report.verdict != ACCEPTED {
            refused += 1;
            assert_eq!((report.lines.len(), report.total), (0, 0));
            continue;
        }
        accepted += 1;
        let stage = read_stage(&pair.stage).unwrap();
        let words: Vec<u64> = report.lines.iter().map(|line| line.0).collect();
        assert_eq!(words, stage.words());
        assert_eq!(report.total, report.lines.iter().map(|line| line.1).sum());
        for &(word, high) in &report.lines {
            let mut row = vec![0; stage.nets()];
            for input in 0..stage.inputs {
                row[2 * input + (word >> input & 1) as usize] = 1;
            }
            assert_eq!(settled_row(&pair.stage, &mut row), ACCEPTED);
            let settled = row[2 * stage.inputs..].iter().filter(|&&byte| byte == 1);
            assert_eq!(settled.count() as u64, high);
            if stage.gates.len() <= 8 {
                let gates = 2 * stage.inputs..stage.nets();
                let set = gates.filter(|&net| is_high(&stage, net, word));
                assert_eq!(set.count() as u64, high);
            }
        }
    }
    assert!(accepted >= 300 && refused >= 500, "{accepted}, {refused}");
}

/// The comparison tells reports that are wrong in one way each.
#[test]
fn wrong_reports_are_told() {
    assert!(compare_reports(judged_counts, 7, 300).is_ok());
    let wrong: [(&str, ReportInOrder); 9] = [
        ("goes on after 32", |order, stage, reference| {
            let mut counts = judged_counts(order, stage, reference);
            if counts.verdict[0] == 32 {
                let lines = report_lines(order, &read_stage(stage).unwrap());
                for (place, &(_, high)) in lines.iter().enumerate() {
                    counts.lines[place] = high as u16;
                    counts.total += high;
                }
                counts.words = lines.len() as u64;
            }
            counts
        }),
        (
            "all words where a list is given",
            |order, stage, reference| {
                let counts = judged_counts(order, stage, reference);
                match read_stage(stage) {
                    Ok(stage) if counts.verdict == ACCEPTED => Counts {
                        words: 1 << stage.inputs,
                        ..counts
                    },
                    _ => counts,
                }
            },
        ),
        ("a word left out of the total", |order, stage, reference| {
            let counts = judged_counts(order, stage, reference);
            let total = counts.total - u64::from(counts.lines[0]);
            Counts { total, ..counts }
        }),
        ("lines that count low gates", |order, stage, reference| {
            let mut counts = judged_counts(order, stage, reference);
            if counts.verdict == ACCEPTED {
                let gates = read_stage(stage).unwrap().gates.len() as u16;
                let lines = counts.lines.iter_mut().take(counts.words as usize);
                counts.total = lines
                    .map(|line| {
                        *line = gates - *line;
                        u64::from(*line)
                    })
                    .sum();
            }
            counts
        }),
        ("lines for a refused pair", |order, stage, reference| {
            let mut counts = judged_counts(order, stage, reference);
            if let Ok(stage) = read_stage(stage) {
                counts.words = stage.words().len() as u64;
            }
            counts
        }),
        ("input rails counted too", |order, stage, reference| {
            let mut counts = judged_counts(order, stage, reference);
            let inputs = u16::from(stage.get(1).copied().unwrap_or(0));
            let lines = counts.lines.iter_mut().take(counts.words as usize);
            counts.total = lines
                .map(|line| {
                    *line += inputs;
                    u64::from(*line)
                })
                .sum();
            counts
        }),
        ("the last word left out", |order, stage, reference| {
            let mut counts = judged_counts(order, stage, reference);
            if counts.words > 0 {
                counts.words -= 1;
                let last = std::mem::take(&mut counts.lines[counts.words as usize]);
                counts.total -= u64::from(last);
            }
            counts
        }),
        ("lines past the words", |order, stage, reference| {
            let mut counts = judged_counts(order, stage, reference);
            if counts.words < 1024 {
                counts.lines[counts.words as usize] = 1;
            }
            counts
        }),
        ("words in falling order", |order, stage, reference| {
            let mut counts = judged_counts(order, stage, reference);
            counts.lines[..counts.words as usize].reverse();
            counts
        }),
    ];
    for (what, report) in wrong {
        match compare_reports(report, 7, 2_000) {
            Err(difference) => assert!(matches!(*difference, Difference::Reports { .. })),
            Ok(_) => panic!("{what} is not told"),
        }
    }
}

/// The judge as a program that reports.
#[test]
fn the_judge_as_a_program() {
    let program = Path::new(env!("CARGO_BIN_EXE_judge"));
    let folder = std::env::temp_dir().join(format!("fovaheju-reports-{}", std::process::id()));
    fs::create_dir_all(&folder).unwrap();
    for index in 0..40 {
        let pair = pair(8, index).pair;
        for (order, arguments) in ORDERS
            .into_iter()
            .zip([&["--report"][..], &["--report", "--lowest"]])
        {
            let printed = run_program(program, arguments, &folder, &pair, true).unwrap();
            let expected = expected_report(order, &pair.stage, &pair.reference);
            assert_eq!(printed, expected);
        }
    }
    fs::remove_dir_all(&folder).unwrap();
}

/// What is written by hand, and that words, totals and refusals of several sorts are there.
#[test]
fn lines_of_the_cases() {
    for case in cases() {
        if let Some(known) = case.known {
            let line = line(WordOrder::Input0Lowest, &case.pair);
            assert_eq!(line, known, "{}", case.about);
        }
    }
    let cases = cases();
    let lines = |order| -> Vec<String> {
        let lines = cases.iter().map(|case| line(order, &case.pair));
        lines.collect()
    };
    let [lines, lowest] = ORDERS.map(lines);
    let turned = lines.iter().zip(&lowest).filter(|(a, b)| a != b);
    let turned = turned.count();
    assert!(turned >= 30, "{turned} cases show the order of words");
    let words = |line: &String| line.matches(':').count();
    for count in [2, 4, 8, 16, 64, 256, 1024] {
        assert!(
            lines.iter().any(|line| words(line) == count),
            "{count} words"
        );
    }
    let numbers = [
        "1 ", "2 ", "3 ", "7 ", "9 ", "10 ", "11 ", "12 ", "13 ", "14 ", "15 ", "18 ", "19 ",
        "20 ", "21 ", "28 ", "32 ",
    ];
    for number in numbers {
        let refused = lines.iter().any(|line| line.starts_with(number));
        assert!(refused, "no case of {number}");
    }
}
