//! Comparing has teeth: programs that are wrong in one way each are told from the judge
//! by the generated pairs and rows. Among them are those that document 01 names.

use fovaheju_tests::compare::{
    compare_checks, compare_pair, compare_reports, compare_rows, first_difference, judged_counts,
    lack, run_program, shrink, Check, CheckInOrder, Difference, Histogram, SettledRow,
    CHECK_NUMBERS, JOIN_NUMBERS, MAKE_NUMBERS, NEXT_NUMBERS, READ_TEXT_NUMBERS, ROW_NUMBERS,
    WRITE_TEXT_NUMBERS,
};
use fovaheju_tests::files::{as_the_program_reads, unhex, verdict_from_line, FilePair};
use fovaheju_tests::generate::pair;
use fovaheju_tests::judge::{
    accepted_unless_a_gate_never_rises, answer, check, check_circuits, check_pipeline, is_retired,
    least_gate_on_a_loop, least_gate_that_never_rises, least_retired_gate, rails_of_word,
    read_reference, read_stage, set_expression_holds, settle, settled_row, Gate, Reference, Stage,
    WordOrder, ACCEPTED, ORDERS,
};
use fovaheju_tests::suite::verdict_in;
use std::path::Path;

/// Of the comparison itself: two sides that are the same show no difference.
#[test]
fn the_judge_agrees_with_itself() {
    let checks = compare_checks(check_pipeline, 7, 500).unwrap();
    assert_eq!(checks.iter().sum::<u64>(), 1_000);
    let reports = compare_reports(judged_counts, 7, 400).unwrap();
    assert_eq!(reports.iter().sum::<u64>(), 800);
    let rows = compare_rows(settled_row, 7, 500).unwrap();
    assert_eq!(rows.iter().sum::<u64>(), 500);
}

/// Cases that lack a number, or are nearly all refused, show too little.
#[test]
fn a_lack_is_told() {
    let mut full: Histogram = [9; 42];
    full[0] = 93;
    assert_eq!(lack(&full, &CHECK_NUMBERS), None);
    assert_eq!(lack(&full, &ROW_NUMBERS), None);
    assert_eq!(lack(&full, &JOIN_NUMBERS), None);
    assert_eq!(lack(&full, &MAKE_NUMBERS), None);
    assert_eq!(lack(&full, &NEXT_NUMBERS), None);
    assert_eq!(lack(&full, &READ_TEXT_NUMBERS), None);
    assert_eq!(lack(&full, &WRITE_TEXT_NUMBERS), None);
    for number in 0..full.len() {
        let mut histogram = full;
        histogram[number] = 0;
        for numbers in [
            &CHECK_NUMBERS[..],
            &ROW_NUMBERS[..],
            &JOIN_NUMBERS[..],
            &MAKE_NUMBERS[..],
            &NEXT_NUMBERS[..],
            &READ_TEXT_NUMBERS[..],
            &WRITE_TEXT_NUMBERS[..],
        ] {
            assert_eq!(
                lack(&histogram, numbers).is_some(),
                numbers.contains(&number)
            );
        }
    }
    let mut histogram = full;
    histogram[0] = 92;
    assert_eq!(
        lack(&histogram, &CHECK_NUMBERS),
        Some("only 92 of 461 are accepted".to_string())
    );
}

/// A difference is told with both files in hexadecimal digits, and made smaller.
#[test]
fn a_difference_is_told() {
    let wrong: CheckInOrder = |_, stage, reference| match check(stage, reference) {
        [8, file, at, 0] => [8, file, at + 1, 0],
        verdict => verdict,
    };
    let order = WordOrder::default();
    let pair = FilePair {
        stage: unhex("01 03 02 01 00 00 01 00 FF FF FF FF 00 07"),
        reference: unhex("01 01 12"),
    };
    let difference = compare_pair(wrong, order, "this pair", &pair).unwrap_err();
    assert_eq!(
        difference.to_string(),
        "this pair, Input0Highest: judge 8 1 12 0, other 8 1 13 0\n\
         stage, 14 bytes: 01 03 02 01 00 00 01 00 FF FF FF FF 00 07\n\
         reference, 3 bytes: 01 01 12\n"
    );
    let small = shrink(wrong, order, &pair);
    assert_eq!((small.stage.len(), small.reference.len()), (3, 0));
}

/// The check with its last part, for a loop-free stage with equal counts, replaced.
fn with_other_sweep(
    stage: &[u8],
    reference: &[u8],
    sweep: fn(&Stage, &Reference) -> [u64; 4],
) -> [u64; 4] {
    let verdict = check(stage, reference);
    if !matches!(verdict[0], 0 | 13..=15 | 20 | 21 | 32) {
        return verdict;
    }
    let stage = read_stage(stage).unwrap();
    match sweep(&stage, &read_reference(reference).unwrap()) {
        ACCEPTED => accepted_unless_a_gate_never_rises(&stage),
        verdict => verdict,
    }
}

fn all_data(stage: &Stage, row: &[bool]) -> bool {
    stage
        .outputs
        .iter()
        .all(|&[rail_0, rail_1]| row[rail_0] != row[rail_1])
}

fn wrong_output(stage: &Stage, reference: &Reference, word: u64) -> Option<u64> {
    let row = settle(stage, &rails_of_word(stage.inputs, word), None);
    let values = answer(reference, word);
    let wrong = |output: &usize| {
        let [rail_0, rail_1] = stage.outputs[*output];
        row[rail_1] != values[*output] || row[rail_0] == values[*output]
    };
    (0..values.len()).find(wrong).map(|output| output as u64)
}

fn unneeded_input(stage: &Stage, word: u64) -> Option<u64> {
    let unneeded = |input: &usize| {
        let mut rails = rails_of_word(stage.inputs, word);
        rails[2 * input] = false;
        rails[2 * input + 1] = false;
        all_data(stage, &settle(stage, &rails, None))
    };
    (0..stage.inputs).find(unneeded).map(|input| input as u64)
}

fn unobserved_gate(stage: &Stage, word: u64, gates: impl Fn(usize) -> bool) -> Option<u64> {
    let rails = rails_of_word(stage.inputs, word);
    let row = settle(stage, &rails, None);
    let unobserved = |gate: &usize| {
        gates(*gate)
            && row[stage.net_of_gate(*gate)]
            && all_data(stage, &settle(stage, &rails, Some(*gate)))
    };
    (0..stage.gates.len())
        .find(unobserved)
        .map(|gate| gate as u64)
}

/// The checks in order over the given words, by the functions above.
fn sweep(
    stage: &Stage,
    reference: &Reference,
    words: impl Iterator<Item = u64> + Clone,
) -> [u64; 4] {
    for word in words.clone() {
        if let Some(output) = wrong_output(stage, reference, word) {
            return [13, 1, output, word];
        }
    }
    for word in words.clone() {
        if let Some(input) = unneeded_input(stage, word) {
            return [14, 1, input, word];
        }
    }
    for word in words.clone() {
        if let Some(gate) = unobserved_gate(stage, word, |_| true) {
            return [15, 1, gate, word];
        }
    }
    falls(stage, words, &FALL)
}

/// How a fall is judged; `FALL` is right.
#[derive(Clone, Copy)]
struct Fall {
    holds: fn(usize) -> bool,
    numbers: [u64; 2],
    /// Whether under 20 the input named keeps its DATA.
    input_kept: bool,
    /// Whether all gates are high at the start, and not those of the rest only.
    from_all_high: bool,
    /// Whether 21 is tried on relaxed gates only.
    relaxed_only: bool,
}

const FALL: Fall = Fall {
    holds: |kind| kind < 128,
    numbers: [20, 21],
    input_kept: true,
    from_all_high: false,
    relaxed_only: false,
};

/// The nets that are still high where the inputs have fallen but one, if any, and a gate is held
/// high, if any: from each gate to its pins, each net once.
fn still_high(
    stage: &Stage,
    rest: &[bool],
    net: usize,
    (input, held): (Option<usize>, Option<usize>),
    fall: &Fall,
    seen: &mut [Option<bool>],
) -> bool {
    if let Some(high) = seen[net] {
        return high;
    }
    let first = 2 * stage.inputs;
    let high = if net < first {
        rest[net] && input == Some(net / 2)
    } else if held == Some(net - first) {
        true
    } else {
        let gate = &stage.gates[net - first];
        let mut row = vec![false; stage.nets()];
        for &pin in &gate.pins {
            row[pin] = still_high(stage, rest, pin, (input, held), fall, seen);
        }
        (rest[net] || fall.from_all_high)
            && if (fall.holds)(gate.kind) {
                row.contains(&true)
            } else {
                set_expression_holds(gate, &row)
            }
    };
    seen[net] = Some(high);
    high
}

fn falls(stage: &Stage, words: impl Iterator<Item = u64> + Clone, fall: &Fall) -> [u64; 4] {
    for number in fall.numbers {
        for word in words.clone() {
            let rest = settle(stage, &rails_of_word(stage.inputs, word), None);
            let count = [stage.inputs, stage.gates.len()][usize::from(number == 21)];
            for at in 0..count {
                let kept = match number {
                    20 => (Some(at).filter(|_| fall.input_kept), None),
                    _ if !rest[stage.net_of_gate(at)] => continue,
                    _ if fall.relaxed_only && stage.gates[at].kind < 128 => continue,
                    _ => (None, Some(at)),
                };
                let mut nets = stage.outputs.iter().flatten();
                let seen = &mut vec![None; stage.nets()];
                if !nets.any(|&net| still_high(stage, &rest, net, kept, fall, seen)) {
                    return [number, 1, at as u64, word];
                }
            }
        }
    }
    ACCEPTED
}

/// The check with its falls judged otherwise.
fn with_other_falls(stage: &[u8], reference: &[u8], fall: &Fall) -> [u64; 4] {
    let verdict = check(stage, reference);
    if !matches!(verdict[0], 0 | 20 | 21 | 32) {
        return verdict;
    }
    let stage = read_stage(stage).unwrap();
    match falls(&stage, stage.words().into_iter(), fall) {
        ACCEPTED => accepted_unless_a_gate_never_rises(&stage),
        verdict => verdict,
    }
}

/// The check with 32 looked for in other words of a stage that passes all checks before it.
fn with_other_words_for_32(
    stage: &[u8],
    reference: &[u8],
    words: fn(&Stage) -> Vec<u64>,
) -> [u64; 4] {
    let verdict = check(stage, reference);
    if !matches!(verdict[0], 0 | 32) {
        return verdict;
    }
    let mut stage = read_stage(stage).unwrap();
    stage.care = words(&stage);
    accepted_unless_a_gate_never_rises(&stage)
}

#[test]
fn the_pieces_used_here_are_right() {
    let right: Check = |stage, reference| {
        with_other_sweep(stage, reference, |stage, reference| {
            sweep(stage, reference, stage.words().into_iter())
        })
    };
    first_difference(right, 7, 1_000).unwrap();
}

#[test]
fn wrong_checks_are_told() {
    let wrong: Vec<(&str, Check)> = vec![
        ("sweeps word 0 and assumes the rest", |s, r| {
            with_other_sweep(s, r, |s, r| sweep(s, r, s.words().into_iter().take(1)))
        }),
        ("leaves out the last word", |s, r| {
            with_other_sweep(s, r, |s, r| {
                let words = s.words();
                sweep(s, r, words[..words.len() - 1].to_vec().into_iter())
            })
        }),
        ("takes words from the last on", |s, r| {
            with_other_sweep(s, r, |s, r| sweep(s, r, s.words().into_iter().rev()))
        }),
        ("sweeps all words where a list is given", |s, r| {
            with_other_sweep(s, r, |s, r| sweep(s, r, 0..1 << s.inputs))
        }),
        ("sweeps the first so many words", |s, r| {
            with_other_sweep(s, r, |s, r| sweep(s, r, 0..s.words().len() as u64))
        }),
        ("names the place in the list for the word", |s, r| {
            with_other_sweep(s, r, |stage, reference| {
                let [number, file, at, word] = check_circuits(stage, reference);
                let words = stage.words();
                let place = words.iter().position(|&other| other == word).unwrap_or(0);
                [number, file, at, if number == 0 { 0 } else { place as u64 }]
            })
        }),
        ("lets an equal word pass", |s, r| match check(s, r) {
            [19, 1, at, 0] => {
                let at = at as usize;
                let mut shorter = s.to_vec();
                shorter.drain(at - 1..at + 2);
                match check(&shorter, r) {
                    [0, ..] => ACCEPTED,
                    _ => [19, 1, at as u64, 0],
                }
            }
            verdict => verdict,
        }),
        ("exchanges 18 and 19", |s, r| match check(s, r) {
            [18, 1, at, 0] => [19, 1, at, 0],
            [19, 1, at, 0] => [18, 1, at, 0],
            verdict => verdict,
        }),
        ("points at the care command", |s, r| match check(s, r) {
            [number @ (18 | 19), 1, at, 0] => [number, 1, at - 1, 0],
            verdict => verdict,
        }),
        ("does not know what is retired", |s, r| match check(s, r) {
            [28, ..] => check_circuits(&read_stage(s).unwrap(), &read_reference(r).unwrap()),
            verdict => verdict,
        }),
        ("lets kind 152 through", |s, r| match check(s, r) {
            [28, ..] => {
                let stage = read_stage(s).unwrap();
                match stage.gates.iter().position(|gate| gate.kind == 24) {
                    Some(gate) => [28, 1, gate as u64, 0],
                    None => check_circuits(&stage, &read_reference(r).unwrap()),
                }
            }
            verdict => verdict,
        }),
        ("looks for 28 after 13", |s, r| match check(s, r) {
            [28, 1, at, 0] => {
                let (stage, reference) = (read_stage(s).unwrap(), read_reference(r).unwrap());
                match check_circuits(&stage, &reference) {
                    [13, file, at, word] => [13, file, at, word],
                    _ => [28, 1, at, 0],
                }
            }
            verdict => verdict,
        }),
        ("looks for 28 before 12", |s, r| {
            match (check(s, r), read_stage(s)) {
                ([12, ..], Ok(stage)) if least_retired_gate(&stage).is_some() => {
                    [28, 1, least_retired_gate(&stage).unwrap() as u64, 0]
                }
                (verdict, _) => verdict,
            }
        }),
        ("names the greatest retired gate", |s, r| {
            match check(s, r) {
                [28, ..] => {
                    let gates = read_stage(s).unwrap().gates;
                    let greatest = gates.iter().rposition(|gate| is_retired(gate.kind));
                    [28, 1, greatest.unwrap() as u64, 0]
                }
                verdict => verdict,
            }
        }),
        ("takes relaxed gates for holding ones", |s, r| {
            let holds = |_| true;
            with_other_falls(s, r, &Fall { holds, ..FALL })
        }),
        ("takes holding gates for relaxed ones", |s, r| {
            let holds = |_| false;
            with_other_falls(s, r, &Fall { holds, ..FALL })
        }),
        ("tries 21 before 20", |s, r| {
            let numbers = [21, 20];
            with_other_falls(s, r, &Fall { numbers, ..FALL })
        }),
        ("leaves 20 out", |s, r| {
            let numbers = [21, 21];
            with_other_falls(s, r, &Fall { numbers, ..FALL })
        }),
        ("leaves 21 out", |s, r| {
            let numbers = [20, 20];
            with_other_falls(s, r, &Fall { numbers, ..FALL })
        }),
        ("tries 20 with all inputs fallen", |s, r| {
            let input_kept = false;
            with_other_falls(s, r, &Fall { input_kept, ..FALL })
        }),
        ("starts the fall from all high", |s, r| {
            let from_all_high = true;
            with_other_falls(
                s,
                r,
                &Fall {
                    from_all_high,
                    ..FALL
                },
            )
        }),
        ("tries 21 on relaxed gates only", |s, r| {
            let relaxed_only = true;
            with_other_falls(
                s,
                r,
                &Fall {
                    relaxed_only,
                    ..FALL
                },
            )
        }),
        ("does not know relaxed kinds", |s, r| match read_stage(s) {
            Ok(stage) if stage.gates.iter().any(|gate| gate.kind > 128) => [4, 1, 0, 0],
            _ => check(s, r),
        }),
        ("accepts every readable pair", |s, r| {
            with_other_sweep(s, r, |_, _| ACCEPTED)
        }),
        ("refuses every pair", |s, r| {
            let verdict = check(s, r);
            if verdict == ACCEPTED {
                [13, 1, 0, 0]
            } else {
                verdict
            }
        }),
        ("invents the place", |s, r| {
            let [number, file, at, word] = check(s, r);
            [number, file, if number >= 13 { 0 } else { at }, word]
        }),
        ("invents the word", |s, r| {
            let [number, file, at, word] = check(s, r);
            [number, file, at, if number >= 13 { 0 } else { word }]
        }),
        ("does all checks word by word", |s, r| {
            with_other_sweep(s, r, |stage, reference| {
                for word in stage.words() {
                    let verdict = sweep(stage, reference, word..word + 1);
                    if verdict != ACCEPTED {
                        return verdict;
                    }
                }
                ACCEPTED
            })
        }),
        ("counts two high rails as DATA", |s, r| {
            with_other_sweep(s, r, |stage, reference| {
                for word in stage.words() {
                    let row = settle(stage, &rails_of_word(stage.inputs, word), None);
                    for (output, value) in answer(reference, word).into_iter().enumerate() {
                        if !row[stage.outputs[output][usize::from(value)]] {
                            return [13, 1, output as u64, word];
                        }
                    }
                }
                match check_circuits(stage, reference) {
                    [13, ..] => ACCEPTED,
                    verdict => verdict,
                }
            })
        }),
        ("tries 14 with all inputs NULL only", |s, r| {
            with_other_sweep(s, r, |stage, reference| {
                match check_circuits(stage, reference) {
                    [14, ..] => {
                        let first = stage
                            .words()
                            .into_iter()
                            .find_map(|word| Some((word, unobserved_gate(stage, word, |_| true)?)));
                        first.map_or(ACCEPTED, |(word, gate)| [15, 1, gate, word])
                    }
                    verdict => verdict,
                }
            })
        }),
        ("tries 15 on gates next to outputs only", |s, r| {
            with_other_sweep(s, r, |stage, reference| {
                match check_circuits(stage, reference) {
                    [15, ..] => {
                        let next = |gate: usize| {
                            stage
                                .outputs
                                .iter()
                                .flatten()
                                .any(|&net| net == stage.net_of_gate(gate))
                        };
                        let first = stage
                            .words()
                            .into_iter()
                            .find_map(|word| Some((word, unobserved_gate(stage, word, next)?)));
                        first.map_or(ACCEPTED, |(word, gate)| [15, 1, gate, word])
                    }
                    verdict => verdict,
                }
            })
        }),
        ("refuses gates that never rise by 15", |s, r| {
            match check(s, r) {
                [32, 1, gate, 0] => [15, 1, gate, 0],
                verdict => verdict,
            }
        }),
        ("leaves 32 out", |s, r| match check(s, r) {
            [32, ..] => ACCEPTED,
            verdict => verdict,
        }),
        ("looks for 32 before 20", |s, r| {
            match (check(s, r), read_stage(s)) {
                ([20 | 21, ..], Ok(stage)) if least_gate_that_never_rises(&stage).is_some() => {
                    accepted_unless_a_gate_never_rises(&stage)
                }
                (verdict, _) => verdict,
            }
        }),
        ("looks for 32 before 15", |s, r| {
            match (check(s, r), read_stage(s)) {
                ([15, ..], Ok(stage)) if least_gate_that_never_rises(&stage).is_some() => {
                    accepted_unless_a_gate_never_rises(&stage)
                }
                (verdict, _) => verdict,
            }
        }),
        ("names a gate that rises in the last word only", |s, r| {
            with_other_words_for_32(s, r, |stage| {
                let words = stage.words();
                words[..(words.len() - 1).max(1)].to_vec()
            })
        }),
        (
            "lets a gate pass that rises in a word nobody cares for",
            |s, r| with_other_words_for_32(s, r, |_| vec![]),
        ),
        ("names the greatest gate that never rises", |s, r| {
            match check(s, r) {
                [32, ..] => {
                    let mut stage = read_stage(s).unwrap();
                    let count = stage.gates.len();
                    let mut greatest = 0;
                    while let Some(gate) = least_gate_that_never_rises(&stage) {
                        greatest = greatest.max(gate);
                        // What is set by any of its rails rises in every word.
                        let inputs = stage.inputs;
                        stage.gates[gate] = Gate {
                            kind: 1,
                            pins: vec![2 * inputs - 2, 2 * inputs - 1],
                        };
                    }
                    assert_eq!(stage.gates.len(), count);
                    [32, 1, greatest as u64, 0]
                }
                verdict => verdict,
            }
        }),
        ("names a word under 32", |s, r| match check(s, r) {
            [32, 1, gate, 0] => [32, 1, gate, *read_stage(s).unwrap().words().last().unwrap()],
            verdict => verdict,
        }),
        ("refuses a stage with no gates", |s, r| {
            match (check(s, r), read_stage(s)) {
                (ACCEPTED, Ok(stage)) if stage.gates.is_empty() => [8, 1, s.len() as u64 - 1, 0],
                (verdict, _) => verdict,
            }
        }),
        (
            "refuses a pin that names a later gate",
            |s, r| match read_stage(s) {
                Ok(stage) => {
                    let later = (0..stage.gates.len()).find(|&gate| {
                        stage.gates[gate]
                            .pins
                            .iter()
                            .any(|&net| net >= stage.net_of_gate(gate))
                    });
                    later.map_or_else(|| check(s, r), |gate| [12, 1, gate as u64, 0])
                }
                Err(_) => check(s, r),
            },
        ),
        (
            "names a gate that only leads to a loop",
            |s, r| match check(s, r) {
                [12, ..] => {
                    let stage = read_stage(s).unwrap();
                    // Gates from which a loop is reached stay when gates that read only
                    // what is loop-free are taken away.
                    let mut good = vec![false; stage.gates.len()];
                    for _ in 0..stage.gates.len() {
                        for gate in 0..stage.gates.len() {
                            good[gate] = stage.gates[gate]
                                .pins
                                .iter()
                                .all(|&net| net < 2 * stage.inputs || good[net - 2 * stage.inputs]);
                        }
                    }
                    [12, 1, good.iter().position(|good| !good).unwrap() as u64, 0]
                }
                verdict => verdict,
            },
        ),
        ("looks for loops before counts", |s, r| {
            match (check(s, r), read_stage(s)) {
                ([10 | 11, ..], Ok(stage)) if least_gate_on_a_loop(&stage).is_some() => {
                    [12, 1, least_gate_on_a_loop(&stage).unwrap() as u64, 0]
                }
                (verdict, _) => verdict,
            }
        }),
        ("reads the reference first", |s, r| {
            match read_reference(r) {
                Err((number, at)) => [number, 2, at as u64, 0],
                Ok(_) => check(s, r),
            }
        }),
        ("takes FFFF in an output for 5", |s, r| match check(s, r) {
            [9, file, at, 0] if [s, r][file as usize - 1][at as usize..][..2] == [0xFF, 0xFF] => {
                [5, file, at, 0]
            }
            verdict => verdict,
        }),
        (
            "finds bytes after the end before a missing output",
            |s, r| match check(s, r) {
                [8, file, at, 0] if [s, r][file as usize - 1].len() as u64 > at + 1 => {
                    [7, file, at + 1, 0]
                }
                verdict => verdict,
            },
        ),
        ("takes 257 gates", |s, r| match check(s, r) {
            [6, 1, at, 0] if at >= 2562 => ACCEPTED,
            verdict => verdict,
        }),
        ("takes 255 gates only", |s, r| {
            match (check(s, r), read_stage(s)) {
                (ACCEPTED, Ok(stage)) if stage.gates.len() == 256 => [6, 1, 0, 0],
                (verdict, _) => verdict,
            }
        }),
        ("takes 511 reference gates only", |s, r| {
            match (check(s, r), read_reference(r)) {
                (ACCEPTED, Ok(reference)) if reference.gates.len() == 512 => [6, 2, 0, 0],
                (verdict, _) => verdict,
            }
        }),
        ("takes 15 outputs only", |s, r| {
            match (check(s, r), read_stage(s)) {
                (ACCEPTED, Ok(stage)) if stage.outputs.len() == 16 => [6, 1, 0, 0],
                (verdict, _) => verdict,
            }
        }),
        ("does not know the last kind", |s, r| {
            match (check(s, r), read_stage(s)) {
                (ACCEPTED, Ok(stage)) if stage.gates.iter().any(|gate| gate.kind == 27) => {
                    [4, 1, 0, 0]
                }
                (verdict, _) => verdict,
            }
        }),
    ];
    let mut late = 0;
    for (what, other) in wrong {
        let Err(difference) = first_difference(other, 7, 20_000) else {
            panic!("not told: {what}")
        };
        let Difference::Verdicts { name, .. } = *difference else {
            panic!("{what}")
        };
        let index: u64 = name.split(' ').nth(1).unwrap().parse().unwrap();
        println!("{what}: pair {index}");
        late = late.max(index);
    }
    println!("the last of them at pair {late}");
}

#[test]
fn wrong_rows_are_told() {
    let wrong: Vec<(&str, SettledRow)> = vec![
        ("refuses retired kinds", |s, row| {
            match read_stage(s)
                .ok()
                .and_then(|stage| least_retired_gate(&stage))
            {
                Some(gate) => [28, 1, gate as u64, 0],
                None => settled_row(s, row),
            }
        }),
        ("uses the care list", |s, row| match read_stage(s) {
            Ok(stage) if !stage.care.is_empty() => ACCEPTED,
            _ => settled_row(s, row),
        }),
        ("writes nothing", |s, row| {
            let mut copy = row.to_vec();
            settled_row(s, &mut copy)
        }),
        ("starts from the old gate bytes", |s, row| {
            let old = row.to_vec();
            let verdict = settled_row(s, row);
            if verdict == ACCEPTED {
                let stage = read_stage(s).unwrap();
                let mut levels: Vec<bool> = old.iter().map(|&byte| byte == 1).collect();
                for _ in 0..stage.gates.len() {
                    for gate in 0..stage.gates.len() {
                        levels[stage.net_of_gate(gate)] |=
                            set_expression_holds(&stage.gates[gate], &levels);
                    }
                }
                for net in 2 * stage.inputs..row.len() {
                    row[net] = levels[net].into();
                }
            }
            verdict
        }),
        ("goes over the gates once", |s, row| {
            let verdict = settled_row(s, row);
            if verdict == ACCEPTED {
                let stage = read_stage(s).unwrap();
                let mut levels: Vec<bool> = row.iter().map(|&byte| byte == 1).collect();
                levels[2 * stage.inputs..].fill(false);
                for gate in 0..stage.gates.len() {
                    levels[stage.net_of_gate(gate)] =
                        set_expression_holds(&stage.gates[gate], &levels);
                }
                for net in 2 * stage.inputs..row.len() {
                    row[net] = levels[net].into();
                }
            }
            verdict
        }),
        ("takes rails above 1 for high", |s, row| {
            let mut ones: Vec<u8> = row.iter().map(|&byte| byte.min(1)).collect();
            let verdict = settled_row(s, &mut ones);
            match read_stage(s) {
                Ok(stage) if verdict == ACCEPTED => {
                    row[2 * stage.inputs..].copy_from_slice(&ones[2 * stage.inputs..]);
                    ACCEPTED
                }
                _ => settled_row(s, row),
            }
        }),
        ("refuses NULL inputs", |s, row| match read_stage(s) {
            Ok(stage) if row.len() == stage.nets() => {
                let null =
                    (0..stage.inputs).find(|&input| row[2 * input] == 0 && row[2 * input + 1] == 0);
                null.map_or_else(|| settled_row(s, row), |input| [17, 3, input as u64, 0])
            }
            _ => settled_row(s, row),
        }),
        ("minds gate bytes above 1", |s, row| match read_stage(s) {
            Ok(stage)
                if row.len() == stage.nets()
                    && row[2 * stage.inputs..].iter().any(|&byte| byte > 1) =>
            {
                [17, 3, 0, 0]
            }
            _ => settled_row(s, row),
        }),
        ("clears the gates of a refused row", |s, row| {
            let verdict = settled_row(s, row);
            if verdict[0] == 17 {
                let inputs = read_stage(s).unwrap().inputs;
                row[2 * inputs..].fill(0);
            }
            verdict
        }),
        ("minds rails before the length", |s, row| {
            match (settled_row(s, row), read_stage(s)) {
                ([16, ..], Ok(stage)) if row.len() >= 2 * stage.inputs => {
                    let bad =
                        (0..stage.inputs).find(|&input| row[2 * input] + row[2 * input + 1] > 1);
                    bad.map_or([16, 3, row.len() as u64, 0], |input| {
                        [17, 3, input as u64, 0]
                    })
                }
                (verdict, _) => verdict,
            }
        }),
        ("takes a longer row", |s, row| match settled_row(s, row) {
            [16, ..] if row.len() > 150 => ACCEPTED,
            verdict => verdict,
        }),
    ];
    for (what, other) in wrong {
        let Err(difference) = compare_rows(other, 7, 20_000) else {
            panic!("not told: {what}")
        };
        let Difference::Rows { name, .. } = *difference else {
            panic!("{what}")
        };
        println!("{what}: {name}");
    }
}

/// Refusals 1 to 9 of a file, where several faults of one command are weighed by
/// `order`, and absent nets are looked for by `absent`.
struct Reading {
    order: [u64; 11],
    absent: Absent,
    /// Operands at fault by 5 are looked for from the last on.
    five_from_the_last: bool,
}

#[derive(Clone, Copy)]
enum Absent {
    InFileOrder,
    GatesFirst,
    OutputsFirst,
}

const RIGHT: Reading = Reading {
    order: [2, 1, 6, 3, 4, 5, 18, 19, 8, 7, 9],
    absent: Absent::InFileOrder,
    five_from_the_last: false,
};

fn refusal(reading: &Reading, file: &[u8], which: u64) -> Option<(u64, usize)> {
    let (gate_byte, output_byte, gates_allowed, kinds) = if which == 1 {
        (2, 3, 256, 27)
    } else {
        (0x11, 0x12, 512, 6)
    };
    let u16_at = |at: usize| usize::from(file[at]) + 256 * usize::from(file[at + 1]);
    let mut place = 0;
    let (mut inputs, mut gates, mut outputs) = (0, 0, 0);
    let mut care: Option<usize> = None;
    // Place, number, whether in a gate, and of a reference gate its number.
    let mut named: Vec<(usize, usize, bool, usize)> = Vec::new();
    loop {
        let Some(&command) = file.get(place) else {
            return Some((1, file.len()));
        };
        let is_gate = command == gate_byte;
        let is_output = command == output_byte;
        let width = match command {
            0 => 0,
            1 => 1,
            2 => 9,
            3 => 4,
            6 => 2,
            0x11 => 5,
            0x12 => 2,
            _ => return Some((2, place)),
        };
        let mut faults: Vec<(u64, usize)> = Vec::new();
        let is_care = command == 6 && which == 1;
        let here = command < 2 || is_gate || is_output || is_care;
        if !here || (place == 0) != (command == 1) {
            faults.push((2, place));
        }
        let left = file.len() - place - 1;
        if left < width {
            faults.push((1, file.len()));
        }
        if is_gate && gates == gates_allowed || is_output && outputs == 16 {
            faults.push((6, place));
        }
        if command == 1 && left >= 1 && !(1..=10).contains(&file[place + 1]) {
            faults.push((3, place + 1));
        }
        if is_gate && left >= 1 {
            let kind = usize::from(file[place + 1]);
            let relaxed = which == 1 && (129..=155).contains(&kind);
            if !(1..=kinds).contains(&kind) && !relaxed {
                faults.push((4, place + 1));
            } else if left >= width {
                let needed = if which == 1 {
                    fovaheju_tests::judge::pin_count(kind)
                } else {
                    1 + usize::from(kind != 1)
                };
                let mut bad: Vec<usize> = Vec::new();
                for operand in 0..(width - 1) / 2 {
                    let at = place + 2 + 2 * operand;
                    if (operand < needed) == (u16_at(at) == 0xFFFF) {
                        bad.push(at);
                    } else if operand < needed {
                        named.push((at, u16_at(at), true, gates));
                    }
                }
                if reading.five_from_the_last {
                    bad.reverse();
                }
                faults.extend(bad.first().map(|&at| (5, at)));
            }
        }
        if is_output && left >= width {
            named.extend((0..width / 2).map(|operand| {
                (
                    place + 1 + 2 * operand,
                    u16_at(place + 1 + 2 * operand),
                    false,
                    0,
                )
            }));
        }
        if is_care && left >= width {
            let word = u16_at(place + 1);
            if word >= 1 << inputs {
                faults.push((18, place + 1));
            }
            if care.is_some_and(|before| word <= before) {
                faults.push((19, place + 1));
            }
            care = Some(word);
        }
        if command == 0 {
            if outputs == 0 {
                faults.push((8, place));
            }
            if left > 0 {
                faults.push((7, place + 1));
            }
            let all = if which == 1 {
                2 * inputs + gates
            } else {
                inputs + gates
            };
            let mut absent: Vec<&(usize, usize, bool, usize)> = named
                .iter()
                .filter(|(_, name, in_gate, gate)| {
                    *name
                        >= if which == 2 && *in_gate {
                            inputs + gate
                        } else {
                            all
                        }
                })
                .collect();
            match reading.absent {
                Absent::InFileOrder => {}
                Absent::GatesFirst => absent.sort_by_key(|(_, _, in_gate, _)| !in_gate),
                Absent::OutputsFirst => absent.sort_by_key(|(_, _, in_gate, _)| *in_gate),
            }
            faults.extend(absent.first().map(|(at, ..)| (9, *at)));
        }
        if let Some(&fault) = faults
            .iter()
            .min_by_key(|(number, _)| reading.order.iter().position(|n| n == number))
        {
            return Some(fault);
        }
        match command {
            0 => return None,
            1 => inputs = file[place + 1].into(),
            _ if is_gate => gates += 1,
            _ if is_output => outputs += 1,
            _ => {}
        }
        place += 1 + width;
    }
}

fn with_other_reading(stage: &[u8], reference: &[u8], reading: &Reading) -> [u64; 4] {
    for (file, which) in [(stage, 1), (reference, 2)] {
        if let Some((number, at)) = refusal(reading, file, which) {
            return [number, which, at as u64, 0];
        }
    }
    check(stage, reference)
}

/// Faults of one command in another order, or absent nets looked for in another order.
#[test]
fn wrong_reading_is_told() {
    first_difference(|s, r| with_other_reading(s, r, &RIGHT), 7, 3_000).unwrap();
    let wrong: Vec<(&str, Check)> = vec![
        ("1 before 2", |s, r| {
            with_other_reading(
                s,
                r,
                &Reading {
                    order: [1, 2, 6, 3, 4, 5, 8, 7, 9, 18, 19],
                    ..RIGHT
                },
            )
        }),
        ("6 before 1", |s, r| {
            with_other_reading(
                s,
                r,
                &Reading {
                    order: [2, 6, 1, 3, 4, 5, 8, 7, 9, 18, 19],
                    ..RIGHT
                },
            )
        }),
        ("4 before 1", |s, r| {
            with_other_reading(
                s,
                r,
                &Reading {
                    order: [2, 4, 1, 6, 3, 5, 8, 7, 9, 18, 19],
                    ..RIGHT
                },
            )
        }),
        ("4 before 6", |s, r| {
            with_other_reading(
                s,
                r,
                &Reading {
                    order: [2, 1, 3, 4, 6, 5, 8, 7, 9, 18, 19],
                    ..RIGHT
                },
            )
        }),
        ("5 before 6", |s, r| {
            with_other_reading(
                s,
                r,
                &Reading {
                    order: [2, 1, 5, 6, 3, 4, 8, 7, 9, 18, 19],
                    ..RIGHT
                },
            )
        }),
        ("7 before 8", |s, r| {
            with_other_reading(
                s,
                r,
                &Reading {
                    order: [2, 1, 6, 3, 4, 5, 7, 8, 9, 18, 19],
                    ..RIGHT
                },
            )
        }),
        ("9 before 8", |s, r| {
            with_other_reading(
                s,
                r,
                &Reading {
                    order: [2, 1, 6, 3, 4, 5, 9, 8, 7, 18, 19],
                    ..RIGHT
                },
            )
        }),
        ("9 before 7", |s, r| {
            with_other_reading(
                s,
                r,
                &Reading {
                    order: [2, 1, 6, 3, 4, 5, 8, 9, 7, 18, 19],
                    ..RIGHT
                },
            )
        }),
        ("5 from the last operand on", |s, r| {
            with_other_reading(
                s,
                r,
                &Reading {
                    five_from_the_last: true,
                    ..RIGHT
                },
            )
        }),
        ("9 in gates first", |s, r| {
            with_other_reading(
                s,
                r,
                &Reading {
                    absent: Absent::GatesFirst,
                    ..RIGHT
                },
            )
        }),
        ("9 in outputs first", |s, r| {
            with_other_reading(
                s,
                r,
                &Reading {
                    absent: Absent::OutputsFirst,
                    ..RIGHT
                },
            )
        }),
    ];
    for (what, other) in wrong {
        let Err(difference) = first_difference(other, 7, 20_000) else {
            panic!("not told: {what}")
        };
        let Difference::Verdicts { name, .. } = *difference else {
            panic!("{what}")
        };
        println!("{what}: {name}");
    }
}

/// The judge as a program, run in a folder with files of all sorts.
#[test]
fn the_judge_as_a_program() {
    let program = Path::new(env!("CARGO_BIN_EXE_judge"));
    let folder = std::env::temp_dir().join(format!("fovaheju-tests-{}", std::process::id()));
    std::fs::create_dir_all(&folder).unwrap();
    let run_in = |arguments: &[&str], pair: &FilePair, leave_out| {
        run_program(program, arguments, &folder, pair, leave_out).unwrap()
    };
    let run = |pair: &FilePair, leave_out| run_in(&[], pair, leave_out);
    let empty = FilePair {
        stage: vec![],
        reference: vec![],
    };
    assert_eq!(run(&empty, true), "1 1 0 0\n");
    assert_eq!(run(&empty, false), "1 1 0 0\n");
    assert_eq!(as_the_program_reads(&folder.join("nothing")).unwrap(), []);
    let wire = FilePair {
        stage: unhex("01 01 03 00 00 01 00 00"),
        reference: vec![],
    };
    assert_eq!(run(&wire, true), "1 2 0 0\n");
    for index in 0..60 {
        let pair = pair(7, index).pair;
        for (order, arguments) in ORDERS.into_iter().zip([&[][..], &["--lowest"]]) {
            let printed = verdict_from_line(&run_in(arguments, &pair, true));
            assert_eq!(printed, Some(verdict_in(order, &pair)));
        }
    }
    std::fs::remove_dir_all(&folder).unwrap();
}
