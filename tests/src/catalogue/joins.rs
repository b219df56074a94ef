//! Joins of stored pairs (document 02, M-105), and the pairs that are stored for them.

use super::*;
use crate::circuits::Signal;
use crate::files::write_reference;
use crate::join::{join_in_order, joined_reference, joined_stage};
use crate::judge::{Verdict, WordOrder, ACCEPTED};

/// Two stored pairs that are joined.
pub struct Joint {
    pub first: &'static str,
    pub second: &'static str,
    pub about: &'static str,
    /// The number of its verdict, by design.
    pub number: u64,
    /// The stored pair that the join writes, where it is accepted.
    pub whole: Option<&'static str>,
}

/// All joins that examples/JOINS.md lists.
pub fn joints() -> Vec<Joint> {
    let accepted = |first, second, whole, about| Joint {
        first,
        second,
        about,
        number: 0,
        whole: Some(whole),
    };
    let refused = |first, second, number, about| Joint {
        first,
        second,
        about,
        number,
        whole: None,
    };
    vec![
        accepted(
            "multiplier-2x2-wires-4",
            "adder-4",
            "mac-4-2x2-joined",
            "a product and a sum: acc + x * y with all five bits",
        ),
        accepted(
            "decimal-complement",
            "decimal-segments",
            "decimal-complement-segments",
            "a decimal digit into a stage that cares for decimal digits only",
        ),
        accepted(
            "half-adder-relaxed",
            "half-adder",
            "half-adders-joined",
            "relaxed gates in the first part; the whole has a gate that never rises, which the join does not look for",
        ),
        refused("half-adder", "full-adder", 22, "two outputs, three inputs"),
        refused(
            "decimal-excess-3",
            "decimal-segments",
            23,
            "7, 8 and 9 are given as 10, 11 and 12, which are no decimal digits",
        ),
        refused(
            "half-adder",
            "and-words-0-and-3",
            23,
            "the answers 1 and 2 are not among the words cared for",
        ),
        refused(
            "constant-output",
            "full-adder",
            32,
            "the first stage: a gate of it never rises, which comes before 22",
        ),
        refused(
            "half-adder",
            "and-one-word",
            32,
            "the second stage: a gate of it never rises, which comes before 23",
        ),
        refused(
            "and-incomplete",
            "nand-absent-signal",
            14,
            "the first stage, though the second part would be refused as well",
        ),
        refused(
            "multiplier-5x5",
            "parity-10",
            6,
            "the first stage: 130 gates are two too many for a part",
        ),
        refused("nand-absent-signal", "marked-02", 9, "the first reference"),
        refused(
            "adder-4-against-5",
            "parity-10",
            10,
            "the counts of the first part",
        ),
        refused("half-adder", "and-incomplete", 14, "the second stage"),
        refused(
            "half-adder",
            "and-falling-list",
            19,
            "the care list of the second stage",
        ),
        refused(
            "half-adder",
            "full-adder-loop",
            12,
            "a loop in the second stage",
        ),
        refused(
            "half-adder",
            "nand-absent-signal",
            9,
            "the second reference",
        ),
        refused(
            "half-adder",
            "adder-4-against-5",
            10,
            "the inputs of the second part, before the counts of outputs and inputs",
        ),
        refused(
            "half-adder",
            "adder-5-no-carry-out",
            11,
            "the outputs of the second part",
        ),
    ]
}

/// A stored pair by its name.
fn stored(name: &str, among: &[Example]) -> FilePair {
    let example = among.iter().find(|example| example.name == name);
    example
        .unwrap_or_else(|| panic!("no pair {name}"))
        .pair
        .clone()
}

/// The judge's verdict on a join, in an order of words, with room for the whole, and the pair that it
/// writes.
pub fn joined(order: WordOrder, joint: &Joint, among: &[Example]) -> (Verdict, Option<FilePair>) {
    let [first, second] = [joint.first, joint.second].map(|name| stored(name, among));
    let (mut stage, mut reference) = (vec![0; 8192], vec![0; 8192]);
    let joined = join_in_order(order, &first, &second, &mut stage, &mut reference);
    stage.truncate(joined.stage_len);
    reference.truncate(joined.reference_len);
    let whole = FilePair { stage, reference };
    (
        joined.verdict,
        (joined.verdict == ACCEPTED).then_some(whole),
    )
}

/// The file examples/JOINS.md: every join with its verdicts, what it writes and what it is.
pub fn listing() -> String {
    let mut text = String::from(
        "# Joins of pairs\n\n| First | Second | Verdict | With `--lowest` | Written | What it is |\n|---|---|---|---|---|---|\n",
    );
    let among = examples();
    for joint in joints() {
        let [verdict, lowest] = ORDERS.map(|order| {
            let (verdict, _) = joined(order, &joint, &among);
            files::verdict_line(verdict).trim_end().to_string()
        });
        let whole = joint
            .whole
            .map_or("".to_string(), |name| format!("`{name}`"));
        text += &format!(
            "| `{}` | `{}` | {verdict} | {lowest} | {whole} | {} |\n",
            joint.first, joint.second, joint.about
        );
    }
    text
}

/// A decimal digit to another one: the stage has a gate for each, the reference gives 0 for other words.
fn digit_to_digit(next: fn(usize) -> usize) -> (Stage, Reference) {
    let bits = (0..4).map(|bit| {
        let values = (0..16).map(|word| word < 10 && next(word) >> bit & 1 == 1);
        values.collect::<Vec<bool>>()
    });
    let values: Vec<Vec<bool>> = bits.collect();
    (decimal(&values), reference_by_words(4, &values))
}

/// The 2 x 2 multiplier with four wires before it: inputs x, y, acc; outputs acc, then the product.
fn multiplier_and_wires() -> (Stage, Reference) {
    let product = multiplier(2, 2, Products::Mixed);
    let product_reference = multiplier_reference(2, 2);
    // The gates behind four more inputs.
    let mut s = StageBuilder::new(8);
    let moved = |net: usize| if net < 8 { net } else { net + 8 };
    for gate in &product.gates {
        s.stage.gates.push(Gate {
            kind: gate.kind,
            pins: gate.pins.iter().map(|&net| moved(net)).collect(),
        });
    }
    let mut r = ReferenceBuilder::new(8);
    let moved_signal = |signal: usize| if signal < 4 { signal } else { signal + 4 };
    for gate in &product_reference.gates {
        let operands: Vec<usize> = gate
            .operands
            .iter()
            .map(|&signal| moved_signal(signal))
            .collect();
        r.gate(gate.operation, &operands);
    }
    for acc in 4..8 {
        s.output(s.input(acc));
        r.output(acc);
    }
    for (rails, &signal) in product.outputs.iter().zip(&product_reference.outputs) {
        let [rail_0, rail_1] = rails.map(moved);
        s.output(Signal { rail_0, rail_1 });
        r.output(moved_signal(signal));
    }
    (s.stage, r.reference)
}

/// The pairs that are stored for the joins: parts that are no example by themselves, and wholes.
pub fn parts_and_wholes() -> Vec<Example> {
    let mut list: Vec<Example> = Vec::new();
    let mut add =
        |name: &str, about: &'static str, number: u64, stage: &Stage, reference: &Reference| {
            let pair = write_pair(stage, reference);
            list.push(Example {
                name: name.to_string(),
                about,
                number,
                pair,
            });
        };
    let product = multiplier_and_wires();
    add(
        "multiplier-2x2-wires-4",
        "four wires, and the product of two numbers of two bits",
        0,
        &product.0,
        &product.1,
    );
    let sum = (ripple_adder(4, false), ripple_adder_reference(4, false));
    add(
        "mac-4-2x2-joined",
        "the same and `adder-4` joined",
        0,
        &joined_stage(&product.0, &sum.0),
        &joined_reference(&product.1, &sum.1),
    );
    let complement = digit_to_digit(|digit| 9 - digit);
    add(
        "decimal-complement",
        "nine less a decimal digit, words 0 to 9 cared for",
        0,
        &complement.0,
        &complement.1,
    );
    add(
        "decimal-complement-segments",
        "the same and `decimal-segments` joined",
        0,
        &joined_stage(&complement.0, &decimal(&segment_values())),
        &joined_reference(&complement.1, &segment_reference()),
    );
    let excess = digit_to_digit(|digit| digit + 3);
    add(
        "decimal-excess-3",
        "a decimal digit plus three, words 0 to 9 cared for",
        0,
        &excess.0,
        &excess.1,
    );
    let mut s = StageBuilder::new(2);
    let (sum, carry) = s.half_adder(s.input(0), s.input(1));
    s.output(sum);
    s.output(carry);
    let mut relaxed = s.stage.clone();
    for gate in [2, 3] {
        relaxed.gates[gate].kind += 128;
    }
    let mut r = ReferenceBuilder::new(2);
    let (sum, carry) = r.half_adder(0, 1);
    r.output(sum);
    r.output(carry);
    add(
        "half-adders-joined",
        "`half-adder-relaxed` and `half-adder` joined: both carries together never come",
        32,
        &joined_stage(&relaxed, &s.stage),
        &joined_reference(&r.reference, &r.reference),
    );
    let nand = one_operation(NAND);
    let mut absent = nand.clone();
    absent.gates[0].operands[1] = 3;
    list.push(Example {
        name: "nand-absent-signal".to_string(),
        about: "an operand of the reference is no earlier signal",
        number: 9,
        pair: FilePair {
            stage: files::write_stage(&dual_rail(&nand)),
            reference: write_reference(&absent),
        },
    });
    list
}
