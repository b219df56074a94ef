//! The judge against the paper: its tables, its examples, its marked cases.

use fovaheju_tests::catalogue::MARKED;
use fovaheju_tests::circuits::kind_named;
use fovaheju_tests::files::{hex, unhex, verdict_from_line, verdict_line};
use fovaheju_tests::judge::{
    check, check_in_order, expression_holds, is_settled, pin_count, read_reference, read_stage,
    settle, settled_row, KINDS, LIMITS, ORDERS,
};

const WIRE: &str = "01 01 03 00 00 01 00 00";
const WIRE_REFERENCE: &str = "01 01 12 00 00 00";

fn judge(stage: &str, reference: &str) -> [u64; 4] {
    check(&unhex(stage), &unhex(reference))
}

#[test]
fn examples_of_the_verdict_table() {
    let stage = |text: &str| judge(text, WIRE_REFERENCE);
    assert_eq!(stage(""), [1, 1, 0, 0]);
    assert_eq!(stage("02"), [2, 1, 0, 0]);
    assert_eq!(stage("01 0B"), [3, 1, 1, 0]);
    assert_eq!(stage("01 01 02 1C 00 00 01 00 FF FF FF FF"), [4, 1, 3, 0]);
    assert_eq!(stage("01 01 02 02 00 00 FF FF FF FF FF FF"), [5, 1, 6, 0]);
    assert_eq!(
        stage(&format!("01 01{}", " 03 00 00 01 00".repeat(17))),
        [6, 1, 82, 0]
    );
    assert_eq!(stage("01 01 03 00 00 01 00 00 00"), [7, 1, 8, 0]);
    assert_eq!(stage("01 01 00"), [8, 1, 2, 0]);
    assert_eq!(stage("01 01 03 00 00 02 00 00"), [9, 1, 5, 0]);
    // 10 and 11: 1 against 2 inputs, 1 against 3 outputs.
    assert_eq!(judge(WIRE, "01 02 12 00 00 00"), [10, 0, 1, 2]);
    assert_eq!(
        judge(WIRE, "01 01 12 00 00 12 00 00 12 00 00 00"),
        [11, 0, 1, 3]
    );
    // 12: gate 0 with pin A on its own net.
    assert_eq!(
        stage("01 01 02 01 02 00 00 00 FF FF FF FF 03 00 00 01 00 00"),
        [12, 1, 0, 0]
    );
    // 13: swapped rails against a wire.
    assert_eq!(stage("01 01 03 01 00 00 00 00"), [13, 1, 0, 0]);
    // 14 and 15: cases 6 and 8.
    assert_eq!(judge(MARKED[5].1, MARKED[5].2), [14, 1, 0, 0]);
    assert_eq!(judge(MARKED[7].1, MARKED[7].2), [15, 1, 0, 0]);
    // 16: wire, row of 3. 17: wire, row 01 01.
    assert_eq!(settled_row(&unhex(WIRE), &mut [0, 0, 0]), [16, 3, 3, 0]);
    assert_eq!(settled_row(&unhex(WIRE), &mut [1, 1]), [17, 3, 0, 0]);
}

#[test]
fn marked_cases() {
    for (case, (about, stage, reference, verdict)) in MARKED.into_iter().enumerate() {
        assert_eq!(
            judge(stage, reference),
            verdict,
            "case {}, {about}",
            case + 1
        );
    }
}

#[test]
fn whole_case() {
    let stage = unhex(
        "01 02 02 02 01 00 03 00 FF FF FF FF 02 1A 00 00 02 00 01 00 03 00 03 05 00 04 00 00",
    );
    assert_eq!(stage.len(), 28);
    let reference = unhex("01 02 11 02 00 00 01 00 12 02 00 00");
    let verdict = check(&stage, &reference);
    assert_eq!(verdict_line(verdict), "0 0 0 0\n");
    assert_eq!(verdict_from_line("0 0 0 0\n"), Some(verdict));
    assert_eq!(verdict_from_line("0 0 0  0\n"), None);
    assert_eq!(verdict_from_line("0 0 0 0"), None);
    assert_eq!(verdict_from_line("0 0 0 0\n\n"), None);
    assert_eq!(unhex(&hex(&stage)), stage);
}

/// A weighted name says all: THmn with weights is set exactly if the weights of its
/// high pins add up to m. The three other kinds are sums of two products and so on.
#[test]
fn expressions_agree_with_names() {
    let mut entries = 0;
    for (name, expression) in KINDS {
        for pattern in 0..16usize {
            let high = [0, 1, 2, 3].map(|pin| pattern >> pin & 1 == 1);
            let [a, b, c, d] = high;
            let by_name = match name {
                "THxor0" => (a && b) || (c && d),
                "THand0" => (b && (a || c)) || (a && d),
                "TH24comp" => (a || b) && (c || d),
                _ => {
                    let digits = name.strip_prefix("TH").unwrap();
                    let (counts, weights) = digits.split_once('w').unwrap_or((digits, ""));
                    let digit = |text: &str, at: usize| {
                        text.as_bytes().get(at).map(|byte| u32::from(byte - b'0'))
                    };
                    let threshold = digit(counts, 0).unwrap();
                    let pins = digit(counts, 1).unwrap() as usize;
                    let sum: u32 = (0..pins)
                        .filter(|&pin| high[pin])
                        .map(|pin| digit(weights, pin).unwrap_or(1))
                        .sum();
                    assert_eq!(pin_count(kind_named(name)), pins, "{name}");
                    sum >= threshold
                }
            };
            assert_eq!(
                expression_holds(expression, high),
                by_name,
                "{name}, pattern {pattern}"
            );
            // "Raising a pin never lowers an entry."
            for pin in 0..4 {
                let mut raised = high;
                raised[pin] = true;
                assert!(
                    !expression_holds(expression, high) || expression_holds(expression, raised)
                );
            }
            entries += 1;
        }
        assert!(
            !expression_holds(expression, [false; 4]),
            "{name} with all pins low"
        );
    }
    assert_eq!(entries, 432);
}

/// "Within a command the order is 2, 1, then 6, then 3 or 4, then 5 by operand. At
/// the end command: 8, 7, then 9."
#[test]
fn order_within_a_command() {
    let stage = |text: &str| judge(text, WIRE_REFERENCE);
    let reference = |text: &str| judge(WIRE, text);
    // 2 before 1.
    assert_eq!(stage("01 01 01"), [2, 1, 2, 0]);
    assert_eq!(stage("01 01 11"), [2, 1, 2, 0]);
    assert_eq!(reference("01 01 02"), [2, 2, 2, 0]);
    assert_eq!(stage("00"), [2, 1, 0, 0]);
    assert_eq!(stage("03"), [2, 1, 0, 0]);
    // 1 before 3, 4 and 5: the operands are not all there.
    assert_eq!(stage("01"), [1, 1, 1, 0]);
    assert_eq!(stage("01 01 02 1C"), [1, 1, 4, 0]);
    assert_eq!(stage("01 01 02 02 FF FF FF FF 00 00 00"), [1, 1, 11, 0]);
    assert_eq!(reference("01 01 11 07 FF FF"), [1, 2, 6, 0]);
    // 1 before 6, 6 before 4, 4 before 5.
    let gates = |count: usize| " 02 01 00 00 01 00 FF FF FF FF".repeat(count);
    assert_eq!(
        stage(&format!("01 01{} 02 1C", gates(256))),
        [1, 1, 2564, 0]
    );
    assert_eq!(
        stage(&format!(
            "01 01{} 02 1C FF FF FF FF 00 00 00 00",
            gates(256)
        )),
        [6, 1, 2562, 0]
    );
    assert_eq!(
        stage(&format!(
            "01 01{} 02 1C FF FF FF FF 00 00 00 00",
            gates(255)
        )),
        [4, 1, 2553, 0]
    );
    assert_eq!(
        stage(&format!(
            "01 01{} 02 02 FF FF FF FF 00 00 00 00",
            gates(255)
        )),
        [5, 1, 2554, 0]
    );
    assert_eq!(
        stage(&format!(
            "01 01{} 02 02 00 00 01 00 FF FF 00 00",
            gates(255)
        )),
        [5, 1, 2560, 0]
    );
    let not_gates = |count: usize| " 11 01 00 00 FF FF".repeat(count);
    assert_eq!(
        reference(&format!("01 01{} 11 07 FF FF FF FF", not_gates(512))),
        [6, 2, 3074, 0]
    );
    assert_eq!(
        reference(&format!("01 01{} 11 07 FF FF FF FF", not_gates(511))),
        [4, 2, 3069, 0]
    );
    assert_eq!(
        reference(&format!("01 01{} 11 01 FF FF 00 00", not_gates(511))),
        [5, 2, 3070, 0]
    );
    assert_eq!(
        reference(&format!("01 01{} 11 01 00 00 00 00", not_gates(511))),
        [5, 2, 3072, 0]
    );
    assert_eq!(
        reference(&format!("01 01{} 11 02 00 00 FF FF", not_gates(511))),
        [5, 2, 3072, 0]
    );
    assert_eq!(
        reference(&format!("01 01{} 12 00 00 00", not_gates(512))),
        [0, 0, 0, 0]
    );
    // 8, 7, then 9.
    assert_eq!(
        stage("01 01 02 01 00 00 09 00 FF FF FF FF 00 00"),
        [8, 1, 12, 0]
    );
    assert_eq!(stage("01 01 03 00 00 02 00 00 00"), [7, 1, 8, 0]);
    assert_eq!(stage("01 01 03 00 00 02 00 00"), [9, 1, 5, 0]);
    // 3 before whatever follows.
    assert_eq!(stage("01 00 FF"), [3, 1, 1, 0]);
}

/// 9 takes operands in the order of their bytes, gates and outputs mixed; FFFF in an
/// output is a net that is absent.
#[test]
fn absent_nets_and_signals() {
    let stage = |text: &str| judge(text, WIRE_REFERENCE);
    let reference = |text: &str| judge(WIRE, text);
    assert_eq!(
        stage("01 01 03 00 00 FF FF 02 01 09 00 00 00 FF FF FF FF 00"),
        [9, 1, 5, 0]
    );
    assert_eq!(
        stage("01 01 02 01 00 00 03 00 FF FF FF FF 03 09 00 09 00 00"),
        [9, 1, 6, 0]
    );
    // Net 2 exists once a gate does, even a later one.
    assert_eq!(
        stage("01 01 03 02 00 01 00 02 01 00 00 00 00 FF FF FF FF 00"),
        [0, 0, 0, 0]
    );
    // A reference output may name a later gate, a reference gate may not.
    assert_eq!(
        reference("01 01 12 02 00 11 01 00 00 FF FF 11 01 01 00 FF FF 00"),
        [0, 0, 0, 0]
    );
    assert_eq!(
        reference("01 01 11 01 01 00 FF FF 12 00 00 00"),
        [9, 2, 4, 0]
    );
    assert_eq!(
        reference("01 01 11 02 00 00 02 00 11 01 00 00 FF FF 12 00 00 00"),
        [9, 2, 6, 0]
    );
    assert_eq!(reference("01 01 12 FF FF 00"), [9, 2, 3, 0]);
    assert_eq!(
        reference("01 01 11 02 FF FE 00 00 12 09 00 00"),
        [9, 2, 4, 0]
    );
    // The stage's 9 comes before anything in the reference.
    assert_eq!(judge("01 01 03 00 00 02 00 00", ""), [9, 1, 5, 0]);
    // 12 comes after the reference's own numbers, and after 10 and 11.
    let on_itself = "01 01 02 01 02 00 00 00 FF FF FF FF 03 00 00 01 00 00";
    assert_eq!(judge(on_itself, ""), [1, 2, 0, 0]);
    assert_eq!(judge(on_itself, "01 02 12 00 00 00"), [10, 0, 1, 2]);
    assert_eq!(
        judge(on_itself, "01 01 12 00 00 12 00 00 00"),
        [11, 0, 1, 2]
    );
}

/// 12 names the least gate on a loop, not one that only leads to a loop or away.
#[test]
fn least_gate_on_a_loop() {
    // Gate 0 reads gate 1, gates 1 and 2 read each other, gate 3 reads gate 0.
    let stage = "01 01 02 01 03 00 00 00 FF FF FF FF 02 01 04 00 00 00 FF FF FF FF \
                 02 01 03 00 00 00 FF FF FF FF 02 01 02 00 00 00 FF FF FF FF 03 00 00 01 00 00";
    assert_eq!(judge(stage, WIRE_REFERENCE), [12, 1, 1, 0]);
    assert_eq!(settled_row(&unhex(stage), &mut [7]), [12, 1, 1, 0]);
}

/// "A word or index named is the least: least word, then least index", and each check
/// sweeps all words before the next begins.
#[test]
fn least_word_then_least_index() {
    // Two inputs wired out, both exchanged: right in words 0 and 3.
    assert_eq!(
        judge(
            "01 02 03 02 00 03 00 03 00 00 01 00 00",
            "01 02 12 00 00 12 01 00 00"
        ),
        [13, 1, 0, 1]
    );
    // Only output 1 wrong.
    assert_eq!(
        judge(
            "01 02 03 00 00 01 00 03 03 00 02 00 00",
            "01 02 12 00 00 12 01 00 00"
        ),
        [13, 1, 1, 0]
    );
    // OR by TH12: in word 0 all inputs are needed, in word 1 input 1 is not.
    assert_eq!(
        judge(
            "01 02 02 02 00 00 02 00 FF FF FF FF 02 01 01 00 03 00 FF FF FF FF 03 04 00 05 00 00",
            "01 02 11 03 00 00 01 00 12 02 00 00"
        ),
        [14, 1, 1, 1]
    );
    // An idle gate that rises in words 1 and 3 only, and input 1 unread: 14 first.
    assert_eq!(
        judge(
            "01 02 02 01 01 00 01 00 FF FF FF FF 03 00 00 01 00 00",
            "01 02 12 00 00 00"
        ),
        [14, 1, 1, 0]
    );
    assert_eq!(
        judge(
            "01 01 02 01 01 00 01 00 FF FF FF FF 03 00 00 01 00 00",
            WIRE_REFERENCE
        ),
        [15, 1, 0, 1]
    );
    // Two idle gates: gate 1 rises in word 0, gate 0 in word 1.
    assert_eq!(
        judge(
            "01 01 02 01 01 00 01 00 FF FF FF FF 02 01 00 00 00 00 FF FF FF FF 03 00 00 01 00 00",
            WIRE_REFERENCE
        ),
        [15, 1, 1, 0]
    );
}

/// Document 02, M-110: "32 least gate that rises in no care word, after all other checks".
#[test]
fn gates_that_never_rise() {
    // A gate on both rails of the input.
    let both_rails = "01 01 02 02 00 00 01 00 FF FF FF FF 03 00 00 01 00 00";
    assert_eq!(judge(both_rails, WIRE_REFERENCE), [32, 1, 0, 0]);
    // Behind an idle one, which 15 names; the other way round too.
    let behind =
        "01 01 02 01 00 00 01 00 FF FF FF FF 02 02 00 00 01 00 FF FF FF FF 03 00 00 01 00 00";
    assert_eq!(judge(behind, WIRE_REFERENCE), [15, 1, 0, 0]);
    let before =
        "01 01 02 02 00 00 01 00 FF FF FF FF 02 01 00 00 01 00 FF FF FF FF 03 00 00 01 00 00";
    assert_eq!(judge(before, WIRE_REFERENCE), [15, 1, 1, 0]);
    // A gate on rail 1 that the output's rail 1 is: it rises in word 1 only.
    let rail_1 = "01 01 02 01 01 00 01 00 FF FF FF FF 03 00 00 02 00";
    let in_words = |list: &str| judge(&format!("{rail_1} {list} 00"), WIRE_REFERENCE);
    assert_eq!(in_words(""), [0, 0, 0, 0]);
    assert_eq!(in_words("06 00 00 06 01 00"), [0, 0, 0, 0]);
    assert_eq!(in_words("06 01 00"), [0, 0, 0, 0]);
    assert_eq!(in_words("06 00 00"), [32, 1, 0, 0]);
    // Two that never rise: the least; and one word names it in either order.
    let two = "01 02 02 02 00 00 01 00 FF FF FF FF 02 02 02 00 03 00 FF FF FF FF \
               03 00 00 01 00 03 02 00 03 00 00";
    let wires = "01 02 12 00 00 12 01 00 00";
    assert_eq!(judge(two, wires), [32, 1, 0, 0]);
    for order in ORDERS {
        let verdict = check_in_order(order, LIMITS, &unhex(two), &unhex(wires));
        assert_eq!(verdict, [32, 1, 0, 0]);
    }
}

#[test]
fn settled_rows() {
    let and = unhex(MARKED[0].1);
    // Input bytes keep their values, old gate bytes are ignored.
    let mut row = [1, 0, 0, 1, 200, 0];
    assert_eq!(settled_row(&and, &mut row), [0, 0, 0, 0]);
    assert_eq!(row, [1, 0, 0, 1, 0, 1]);
    let mut row = [0, 1, 0, 1, 0, 255];
    assert_eq!(settled_row(&and, &mut row), [0, 0, 0, 0]);
    assert_eq!(row, [0, 1, 0, 1, 1, 0]);
    // NULL inputs are legal.
    let mut row = [0, 0, 0, 0, 1, 1];
    assert_eq!(settled_row(&and, &mut row), [0, 0, 0, 0]);
    assert_eq!(row, [0; 6]);
    let mut row = [1, 0, 0, 0, 9, 9];
    assert_eq!(settled_row(&and, &mut row), [0, 0, 0, 0]);
    assert_eq!(row, [1, 0, 0, 0, 0, 0]);
    // Refusals leave the row unchanged; 16 comes before 17.
    for (before, verdict) in [
        (vec![2, 0, 1, 1, 7, 7], [17, 3, 0, 0]),
        (vec![0, 0, 1, 1, 7, 7], [17, 3, 1, 0]),
        (vec![0, 255, 2, 0, 7, 7], [17, 3, 0, 0]),
        (vec![2, 0, 1, 1, 7], [16, 3, 5, 0]),
        (vec![2; 7], [16, 3, 7, 0]),
        (vec![], [16, 3, 0, 0]),
        (vec![1; 70_000], [16, 3, 70_000, 0]),
    ] {
        let mut row = before.clone();
        assert_eq!(settled_row(&and, &mut row), verdict);
        assert_eq!(row, before);
    }
    // 1 to 9 and 12 come before 16.
    assert_eq!(settled_row(&[], &mut [5]), [1, 1, 0, 0]);
    assert_eq!(settled_row(&unhex(MARKED[8].1), &mut [5]), [12, 1, 0, 0]);
    // The wire has no gates: nothing is written.
    assert_eq!(settled_row(&unhex(WIRE), &mut [0, 1]), [0, 0, 0, 0]);
}

/// A loop-free stage has exactly one settled row for given rails: all rows are tried.
#[test]
fn one_settled_row() {
    let stage = read_stage(&unhex(
        // Gate 0 reads gates 1 and 2, which come later.
        "01 02 02 04 05 00 06 00 00 00 FF FF 02 01 00 00 03 00 FF FF FF FF \
         02 02 01 00 03 00 FF FF FF FF 03 04 00 05 00 00",
    ))
    .unwrap();
    for pattern in 0..16u32 {
        let rails: Vec<bool> = (0..4).map(|rail| pattern >> rail & 1 == 1).collect();
        for held in [None, Some(0), Some(1), Some(2)] {
            let settled = settle(&stage, &rails, held);
            let rows: Vec<Vec<bool>> = (0..8)
                .map(|gates: u32| {
                    rails
                        .iter()
                        .copied()
                        .chain((0..3).map(|gate| gates >> gate & 1 == 1))
                        .collect()
                })
                .filter(|row: &Vec<bool>| is_settled(&stage, row, held))
                .collect();
            assert_eq!(rows, [settled]);
        }
    }
}

/// What is read is what was written.
#[test]
fn readers_give_the_circuits_back() {
    for example in fovaheju_tests::catalogue::examples() {
        if let Ok(stage) = read_stage(&example.pair.stage) {
            assert_eq!(
                fovaheju_tests::files::write_stage(&stage),
                example.pair.stage,
                "{}",
                example.name
            );
        }
        if let Ok(reference) = read_reference(&example.pair.reference) {
            assert_eq!(
                fovaheju_tests::files::write_reference(&reference),
                example.pair.reference,
                "{}",
                example.name
            );
        }
    }
}
