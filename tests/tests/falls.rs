//! Falls and relaxed kinds (M-102 of document 02), by the judge's settling.

use fovaheju_tests::catalogue::MARKED;
use fovaheju_tests::files::unhex;
use fovaheju_tests::generate::pair;
use fovaheju_tests::judge::{
    check, is_relaxed, least_gate_on_a_loop, may_fall, rails_of_word, read_stage, settle,
    settle_fall, Stage, ACCEPTED,
};

fn outputs_null(stage: &Stage, row: &[bool]) -> bool {
    stage.outputs.iter().flatten().all(|&net| !row[net])
}

fn has_relaxed(stage: &Stage) -> bool {
    stage.gates.iter().any(|gate| is_relaxed(gate.kind))
}

/// "A stage without relaxed kinds never meets the two fall refusals."
#[test]
fn holding_stages_never_get_20_or_21() {
    let (mut holding, mut relaxed) = (0, 0);
    for index in 0..6_000 {
        let pair = pair(102, index).pair;
        let verdict = check(&pair.stage, &pair.reference);
        match read_stage(&pair.stage) {
            Ok(stage) if !has_relaxed(&stage) => {
                holding += 1;
                assert!(!matches!(verdict[0], 20 | 21), "pair {index}: {verdict:?}");
            }
            _ => relaxed += u64::from(matches!(verdict[0], 20 | 21)),
        }
    }
    assert!(holding > 1_000 && relaxed > 100, "{holding}, {relaxed}");
}

/// Marked case 8 meets the bare condition of 21, and is refused by 15.
#[test]
fn marked_case_8_meets_the_bare_condition() {
    let (_, stage, reference, _) = MARKED[7];
    let (stage, reference) = (unhex(stage), unhex(reference));
    assert_eq!(check(&stage, &reference), [15, 1, 0, 0]);
    let stage = read_stage(&stage).unwrap();
    for word in 0..2 {
        let rest = settle(&stage, &rails_of_word(1, word), None);
        let row = settle_fall(&stage, &rest, None, Some(0));
        assert!(outputs_null(&stage, &row));
    }
}

/// The row that a fall settles in: each gate is high exactly if it was and may not fall.
#[test]
fn settled_by_the_fall_rule() {
    for index in 0..2_000 {
        let Ok(stage) = read_stage(&pair(103, index).pair.stage) else {
            continue;
        };
        if stage.inputs > 6 || least_gate_on_a_loop(&stage).is_some() {
            continue;
        }
        let word = index % (1 << stage.inputs);
        let rest = settle(&stage, &rails_of_word(stage.inputs, word), None);
        for input in 0..stage.inputs {
            let row = settle_fall(&stage, &rest, Some(input), None);
            for (k, gate) in stage.gates.iter().enumerate() {
                let net = stage.net_of_gate(k);
                assert_eq!(row[net], rest[net] && !may_fall(gate, &row));
            }
        }
        let row = settle_fall(&stage, &rest, None, None);
        assert!(
            row.iter().all(|&high| !high),
            "all inputs fallen, all gates low"
        );
    }
}

/// Input-complete in the fall: while any non-empty set of inputs keeps its DATA, an output of an
/// accepted stage does too. The check tries one input at a time.
#[test]
fn sets_of_inputs_that_stay() {
    let mut tried = 0;
    for index in 0..3_000 {
        let pair = pair(104, index).pair;
        let Ok(stage) = read_stage(&pair.stage) else {
            continue;
        };
        if stage.inputs > 5 || check(&pair.stage, &pair.reference) != ACCEPTED {
            continue;
        }
        tried += u64::from(has_relaxed(&stage));
        for word in stage.words() {
            let rest = settle(&stage, &rails_of_word(stage.inputs, word), None);
            for set in 1..1usize << stage.inputs {
                let mut row = rest.clone();
                for net in 0..2 * stage.inputs {
                    row[net] &= set >> (net / 2) & 1 == 1;
                }
                while let Some(k) = (0..stage.gates.len())
                    .find(|&k| row[stage.net_of_gate(k)] && may_fall(&stage.gates[k], &row))
                {
                    row[stage.net_of_gate(k)] = false;
                }
                assert!(
                    !outputs_null(&stage, &row),
                    "pair {index}, word {word}, set {set}"
                );
            }
        }
    }
    assert!(tried > 100, "{tried}");
}
