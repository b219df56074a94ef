//! Real netlists with their references, and faulty variants of several of them.
//!
//! Each entry says by which number it is expected to be refused (0 if accepted);
//! file, place and word come from the judge and are stored with the pair.

pub mod joins;
pub mod pipelines;
pub mod texts;

use crate::circuits::{
    dual_rail, kind_named, multiplier, multiplier_reference, reordered, ripple_adder,
    ripple_adder_reference, stage_from_netlist, Products, ReferenceBuilder, Signal, StageBuilder,
};
use crate::files::{self, unhex, write_pair, FilePair};
use crate::judge::{Gate, Reference, Stage, AND, NAND, NOR, NOT, OR, ORDERS, XOR};
use crate::make::made_stage;
use crate::suite::verdict_in;

/// One stored pair.
pub struct Example {
    pub name: String,
    /// What it is, in a few words.
    pub about: &'static str,
    /// The number of its verdict, by design.
    pub number: u64,
    pub pair: FilePair,
}

/// The twelve marked cases of document 01: stage, reference, verdict.
pub const MARKED: [(&str, &str, &str, [u64; 4]); 12] = [
    (
        "the whole case",
        "01 02 02 02 01 00 03 00 FF FF FF FF 02 1A 00 00 02 00 01 00 03 00 03 05 00 04 00 00",
        "01 02 11 02 00 00 01 00 12 02 00 00",
        [0, 0, 0, 0],
    ),
    ("wire", "01 01 03 00 00 01 00 00", WIRE, [0, 0, 0, 0]),
    (
        "wire, rails swapped",
        "01 01 03 01 00 00 00 00",
        WIRE,
        [13, 1, 0, 0],
    ),
    (
        "wire, rails swapped, against NOT",
        "01 01 03 01 00 00 00 00",
        "01 01 11 01 00 00 FF FF 12 01 00 00",
        [0, 0, 0, 0],
    ),
    (
        "wire, both rails on net 0",
        "01 01 03 00 00 00 00 00",
        WIRE,
        [13, 1, 0, 0],
    ),
    (
        "AND by TH12 and TH22",
        "01 02 02 01 00 00 02 00 FF FF FF FF 02 02 01 00 03 00 FF FF FF FF 03 04 00 05 00 00",
        "01 02 11 02 00 00 01 00 12 02 00 00",
        [14, 1, 0, 0],
    ),
    (
        "two inputs, one wired out",
        "01 02 03 00 00 01 00 00",
        "01 02 12 00 00 00",
        [14, 1, 1, 0],
    ),
    (
        "wire and a gate that feeds nothing",
        "01 01 02 01 00 00 01 00 FF FF FF FF 03 00 00 01 00 00",
        WIRE,
        [15, 1, 0, 0],
    ),
    (
        "wire and a gate on its own net",
        "01 01 02 01 02 00 00 00 FF FF FF FF 03 00 00 01 00 00",
        WIRE,
        [12, 1, 0, 0],
    ),
    ("both files empty", "", "", [1, 1, 0, 0]),
    (
        "ten wires",
        "01 0A 03 00 00 01 00 03 02 00 03 00 03 04 00 05 00 03 06 00 07 00 03 08 00 09 00 \
         03 0A 00 0B 00 03 0C 00 0D 00 03 0E 00 0F 00 03 10 00 11 00 03 12 00 13 00 00",
        "01 0A 12 00 00 12 01 00 12 02 00 12 03 00 12 04 00 12 05 00 12 06 00 12 07 00 \
         12 08 00 12 09 00 00",
        [0, 0, 0, 0],
    ),
    (
        "eleven inputs",
        "01 0B 03 00 00 01 00 00",
        WIRE,
        [3, 1, 1, 0],
    ),
];

const WIRE: &str = "01 01 12 00 00 00";

/// Figure 12(a), which is Figure 19(a), of source document 001, from its line 3 on.
const MULTIPLIER_3X3: &str = include_str!("netlists/multiplier-3x3.txt");

/// Figure 15(a) of source document 001, from its line 3 on.
const MAC_4_2X2: &str = include_str!("netlists/mac-4-2x2.txt");

/// The text of Figure 12(a).
pub(crate) fn multiplier_netlist() -> &'static str {
    MULTIPLIER_3X3
}

/// The multiplier of Figure 12(a): inputs xi0 to xi2, yi0 to yi2.
pub fn multiplier_of_the_source() -> Stage {
    stage_from_netlist(
        &["xi0", "xi1", "xi2", "yi0", "yi1", "yi2"],
        &["p0", "p1", "p2", "p3", "p4", "p5"],
        MULTIPLIER_3X3,
    )
}

/// The MAC of Figure 15(a), its four misprints mended and its loop cut: inputs
/// xi0, xi1, yi0, yi1, acci0 to acci3, outputs p0 to p3.
pub fn mac_of_the_source() -> Stage {
    let mut mended = String::new();
    for line in MAC_4_2X2.lines() {
        // Lines 58 to 61 are the registers that close the loop from p to acci.
        if line.contains("Reg_DATA") {
            continue;
        }
        // Lines 43 to 46 drive accN_0, acciN_1 for accN_0, accN_1.
        let mut line = line.to_string();
        for bit in 0..4 {
            let misprint = format!("acc{bit}_0,acci{bit}_1");
            line = line.replace(&misprint, &format!("acc{bit}_0,acc{bit}_1"));
        }
        mended.push_str(&line);
        mended.push('\n');
    }
    stage_from_netlist(
        &[
            "xi0", "xi1", "yi0", "yi1", "acci0", "acci1", "acci2", "acci3",
        ],
        &["p0", "p1", "p2", "p3"],
        &mended,
    )
}

/// acc + x * y modulo 16, with x and y of two bits.
pub fn mac_reference() -> Reference {
    let mut r = ReferenceBuilder::new(8);
    let (x, y, acc) = ([0, 1], [2, 3], [4, 5, 6, 7]);
    // The product.
    let p0 = r.and(x[0], y[0]);
    let (a, b) = (r.and(x[1], y[0]), r.and(x[0], y[1]));
    let (p1, c) = r.half_adder(a, b);
    let high = r.and(x[1], y[1]);
    let (p2, p3) = r.half_adder(high, c);
    // The sum.
    let (s0, c) = r.half_adder(acc[0], p0);
    let (s1, c) = r.full_adder(acc[1], p1, c);
    let (s2, c) = r.full_adder(acc[2], p2, c);
    let top = r.xor(acc[3], p3);
    let s3 = r.xor(top, c);
    for signal in [s0, s1, s2, s3] {
        r.output(signal);
    }
    r.reference
}

/// A reference of one operation on two inputs.
fn one_operation(operation: usize) -> Reference {
    let mut r = ReferenceBuilder::new(2);
    let signal = r.gate(operation, &[0, 1]);
    r.output(signal);
    r.reference
}

/// The parity of ten inputs, as a balanced tree.
pub fn parity_reference() -> Reference {
    let mut r = ReferenceBuilder::new(10);
    let mut signals: Vec<usize> = (0..10).collect();
    while signals.len() > 1 {
        signals = signals
            .chunks(2)
            .map(|two| {
                if two.len() == 2 {
                    r.xor(two[0], two[1])
                } else {
                    two[0]
                }
            })
            .collect();
    }
    r.output(signals[0]);
    r.reference
}

/// Whether two addresses of five bits are equal.
pub fn address_compare_reference() -> Reference {
    let mut r = ReferenceBuilder::new(10);
    let equal: Vec<usize> = (0..5)
        .map(|bit| {
            let differs = r.xor(bit, 5 + bit);
            r.not(differs)
        })
        .collect();
    let all = r.chain(AND, &equal);
    r.output(all);
    r.reference
}

/// Less, equal, greater for two numbers of four bits.
pub fn comparator_reference() -> Reference {
    let mut r = ReferenceBuilder::new(8);
    let mut greater = None;
    let mut equal = None;
    for bit in (0..4).rev() {
        let (a, b) = (bit, 4 + bit);
        let not_b = r.not(b);
        let here = r.and(a, not_b);
        let differs = r.xor(a, b);
        let same = r.not(differs);
        (greater, equal) = match (greater, equal) {
            (Some(greater), Some(equal)) => {
                let only_here = r.and(equal, here);
                (Some(r.or(greater, only_here)), Some(r.and(equal, same)))
            }
            _ => (Some(here), Some(same)),
        };
    }
    let (greater, equal) = (greater.unwrap(), equal.unwrap());
    let less = r.nor(greater, equal);
    for signal in [less, equal, greater] {
        r.output(signal);
    }
    r.reference
}

/// ISCAS-85 C17: inputs N1, N2, N3, N6, N7, outputs N22, N23.
pub fn c17_reference() -> Reference {
    let mut r = ReferenceBuilder::new(5);
    let [n1, n2, n3, n6, n7] = [0, 1, 2, 3, 4];
    let n10 = r.nand(n1, n3);
    let n11 = r.nand(n3, n6);
    let n16 = r.nand(n2, n11);
    let n19 = r.nand(n11, n7);
    let n22 = r.nand(n10, n16);
    let n23 = r.nand(n16, n19);
    r.output(n22);
    r.output(n23);
    r.reference
}

/// Values of the seven segments a to g for the hexadecimal digits.
const SEGMENTS: [u8; 16] = [
    0x3F, 0x06, 0x5B, 0x4F, 0x66, 0x6D, 0x7D, 0x07, 0x7F, 0x6F, 0x77, 0x7C, 0x39, 0x5E, 0x79, 0x71,
];

fn segment_values() -> Vec<Vec<bool>> {
    (0..7)
        .map(|segment| {
            SEGMENTS
                .iter()
                .map(|digit| digit >> segment & 1 == 1)
                .collect()
        })
        .collect()
}

fn reference_by_words(inputs: usize, outputs: &[Vec<bool>]) -> Reference {
    let mut r = ReferenceBuilder::new(inputs);
    let signals: Vec<usize> = outputs.iter().map(|values| r.by_words(values)).collect();
    for signal in signals {
        r.output(signal);
    }
    r.reference
}

/// The seven-segment digit with each word formed once.
fn segment_reference() -> Reference {
    let mut r = ReferenceBuilder::new(4);
    let words: Vec<usize> = (0..16).map(|word| r.one_word(word)).collect();
    for values in segment_values() {
        let calling: Vec<usize> = (0..16).filter(|&w| values[w]).map(|w| words[w]).collect();
        let signal = r.chain(OR, &calling);
        r.output(signal);
    }
    r.reference
}

/// Ten inputs, 64 operations of two gates each, sixteen outputs.
pub fn timing_network_reference() -> Reference {
    let mut r = ReferenceBuilder::new(10);
    let operations = [XOR, AND, XOR, OR, XOR, NAND, XOR, NOR];
    for k in 0..64 {
        // The oldest signal not yet used, so that every one leads to an output,
        // and one a few places on.
        let first = k;
        let second = (k + 3 + 2 * (k % 3)).min(k + 9);
        r.gate(operations[k % operations.len()], &[first, second]);
    }
    for signal in 74 - 16..74 {
        r.output(signal);
    }
    r.reference
}

/// A chain of XORs that takes the inputs in turn. An input that it does not reach is an
/// output by itself.
pub fn xor_chain_reference(inputs: usize, operations: usize) -> Reference {
    let mut r = ReferenceBuilder::new(inputs);
    let mut signal = 0;
    for k in 1..=operations {
        signal = r.xor(signal, k % inputs);
    }
    r.output(signal);
    for input in operations + 1..inputs {
        r.output(input);
    }
    r.reference
}

/// A stage with its gates in reverse order.
pub fn reversed(stage: &Stage) -> Stage {
    let order: Vec<usize> = (0..stage.gates.len()).rev().collect();
    reordered(stage, &order)
}

/// The binary number of a Gray code of six bits, highest bit last.
fn gray_reference() -> Reference {
    let mut r = ReferenceBuilder::new(6);
    let mut signals = vec![5];
    for bit in (0..5).rev() {
        let above = *signals.last().unwrap();
        signals.push(r.xor(bit, above));
    }
    for &signal in signals.iter().rev() {
        r.output(signal);
    }
    r.reference
}

/// A multiplexer of four inputs and two select inputs.
fn multiplexer_reference() -> Reference {
    let mut r = ReferenceBuilder::new(6);
    let (s0, s1) = (4, 5);
    let (not_s0, not_s1) = (r.not(s0), r.not(s1));
    let mut chosen = Vec::new();
    for (input, [a, b]) in [[not_s0, not_s1], [s0, not_s1], [not_s0, s1], [s0, s1]]
        .into_iter()
        .enumerate()
    {
        let select = r.and(a, b);
        chosen.push(r.and(input, select));
    }
    let output = r.chain(OR, &chosen);
    r.output(output);
    r.reference
}

/// The four code bits and three check bits of a Hamming code.
fn hamming_reference() -> Reference {
    let mut r = ReferenceBuilder::new(4);
    let checks = [[0, 1, 3], [0, 2, 3], [1, 2, 3]].map(|bits| r.chain(XOR, &bits));
    for signal in [0, 1, 2, 3].into_iter().chain(checks) {
        r.output(signal);
    }
    r.reference
}

/// NAND of nine inputs as in Figure 20: two 4-input ANDs, a 2-input AND and a
/// 2-input NAND, with or without input-complete 4-input ANDs.
fn nand_9(complete: bool) -> Stage {
    let mut s = StageBuilder::new(9);
    let inputs = s.inputs();
    let mut halves = Vec::new();
    for four in [&inputs[0..4], &inputs[4..8]] {
        halves.push(if complete {
            let (low, high) = (s.and(four[0], four[1]), s.and(four[2], four[3]));
            s.and(low, high)
        } else {
            let rail_1 = s.gate("TH44", &[0, 1, 2, 3].map(|i| four[i].rail_1));
            let rail_0 = s.gate("TH14", &[0, 1, 2, 3].map(|i| four[i].rail_0));
            Signal { rail_0, rail_1 }
        });
    }
    let eight = s.and(halves[0], halves[1]);
    let nine = s.and(eight, inputs[8]).inverted();
    s.output(nine);
    s.stage
}

fn nand_9_reference() -> Reference {
    let mut r = ReferenceBuilder::new(9);
    let all = r.chain(AND, &[0, 1, 2, 3, 4, 5, 6, 7, 8]);
    let output = r.not(all);
    r.output(output);
    r.reference
}

/// The file examples/LIST.md: every pair with its verdict and what it is.
pub fn listing() -> String {
    let mut text = String::from(
        "# All pairs\n\n| Folder | Verdict | With `--lowest` | What it is |\n|---|---|---|---|\n",
    );
    for example in examples() {
        let [verdict, lowest] = ORDERS.map(|order| {
            let verdict = verdict_in(order, &example.pair);
            files::verdict_line(verdict).trim_end().to_string()
        });
        text += &format!(
            "| `{}` | {verdict} | {lowest} | {} |\n",
            example.name, example.about
        );
    }
    text
}

/// All pairs that are stored under examples/.
pub fn examples() -> Vec<Example> {
    let mut list = examples_of_document_01();
    list.extend(care_examples());
    list.extend(relaxed_examples());
    list.extend(pair_examples());
    list.extend(joins::parts_and_wholes());
    list.extend(retired_examples());
    list.extend(low_examples());
    list
}

/// Stages with gates of a retired kind (document 02, M-108).
pub fn retired_examples() -> Vec<Example> {
    let mut list: Vec<Example> = Vec::new();
    let mut add =
        |name: &str, about: &'static str, number: u64, stage: &Stage, reference: &Reference| {
            let pair = write_pair(stage, reference);
            list.push(Example {
                name: name.to_string(),
                about,
                number,
                pair,
            });
        };
    // With pins C and D on one net TH54w322 is AB+AC+BC.
    let adder = |kind: &str| {
        let mut s = StageBuilder::new(3);
        let [a, b, c] = [0, 1, 2].map(|input| s.input(input));
        let carry_0 = s.gate(kind, &[a.rail_0, b.rail_0, c.rail_0, c.rail_0]);
        let carry_1 = s.gate(kind, &[a.rail_1, b.rail_1, c.rail_1, c.rail_1]);
        let sum_1 = s.gate("TH34w2", &[carry_0, a.rail_1, b.rail_1, c.rail_1]);
        let sum_0 = s.gate("TH34w2", &[carry_1, a.rail_0, b.rail_0, c.rail_0]);
        s.output(Signal {
            rail_0: sum_0,
            rail_1: sum_1,
        });
        s.output(Signal {
            rail_0: carry_0,
            rail_1: carry_1,
        });
        s.stage
    };
    let mut r = ReferenceBuilder::new(3);
    let (sum, carry) = r.full_adder(0, 1, 2);
    r.output(sum);
    r.output(carry);
    let sum = r.reference;
    let old = adder("TH54w322");
    add(
        "full-adder-retired",
        "full adder, its carry by TH54w322 with pins C and D on one net",
        28,
        &old,
        &sum,
    );
    add(
        "full-adder-retired-relaxed",
        "the same by relaxed TH54w322",
        28,
        &adder("rTH54w322"),
        &sum,
    );
    let mut swapped = old.clone();
    swapped.outputs.swap(0, 1);
    add(
        "full-adder-retired-swapped",
        "the same with its outputs exchanged: 28 comes before 13",
        28,
        &swapped,
        &sum,
    );
    let mut looped = old.clone();
    looped.gates[0].pins[3] = 8;
    looped.gates[2].pins[3] = 6;
    add(
        "full-adder-retired-loop",
        "the same with a loop through its gates: 12 comes before 28",
        12,
        &looped,
        &sum,
    );
    list
}

/// Ten inputs and sixteen outputs (document 02, M-104). Of the outputs one is the parity of all
/// inputs; the others stay DATA whichever one input is NULL, so they are constant: two words
/// that differ in that input only have the same value. Each is 0 as soon as one of two inputs is
/// there. That an input is there is a gate, and parity waits for all of these.
fn one_pair_decides(parity_first: bool) -> (Stage, Reference) {
    let mut s = StageBuilder::new(10);
    let mut r = ReferenceBuilder::new(10);
    let inputs = s.inputs();
    let there: Vec<usize> = inputs
        .iter()
        .map(|input| s.gate("TH12", &[input.rail_0, input.rail_1]))
        .collect();
    let never = s.gate("TH22", &[0, 1]);
    let some: Vec<Signal> = (0..15)
        .map(|j| {
            let (first, second) = (j % 10, (j % 10 + 1 + j / 10) % 10);
            Signal {
                rail_0: s.gate("TH12", &[there[first], there[second]]),
                rail_1: never,
            }
        })
        .collect();
    let parity = inputs[1..]
        .iter()
        .fold(inputs[0], |so_far, &input| s.xor(so_far, input));
    let all = [
        s.gate("TH44", &there[..4]),
        s.gate("TH44", &there[4..8]),
        s.gate("TH22", &there[8..]),
    ];
    let all = s.gate("TH33", &all);
    let parity = Signal {
        rail_0: s.gate("TH22", &[parity.rail_0, all]),
        rail_1: s.gate("TH22", &[parity.rail_1, all]),
    };
    let parity_signal = r.chain(XOR, &[0, 1, 2, 3, 4, 5, 6, 7, 8, 9]);
    let zero = r.xor(0, 0);
    let mut outputs: Vec<(Signal, usize)> = some.into_iter().map(|some| (some, zero)).collect();
    let place = if parity_first { 0 } else { outputs.len() };
    outputs.insert(place, (parity, parity_signal));
    for (pair, signal) in outputs {
        s.output(pair);
        r.output(signal);
    }
    (s.stage, r.reference)
}

pub fn pair_examples() -> Vec<Example> {
    let named = [
        (
            "null-pair-first",
            "ten inputs, sixteen outputs; with an input NULL only the first pair is",
            true,
        ),
        (
            "null-pair-last",
            "the same gates; with an input NULL only the last pair is",
            false,
        ),
    ];
    named
        .into_iter()
        .map(|(name, about, parity_first)| {
            let (stage, reference) = one_pair_decides(parity_first);
            Example {
                name: name.to_string(),
                about,
                number: 32,
                pair: write_pair(&stage, &reference),
            }
        })
        .collect()
}

/// Gates that rise in no care word, or in one alone (document 02, M-110).
pub fn low_examples() -> Vec<Example> {
    let mut list: Vec<Example> = Vec::new();
    let mut add =
        |name: &str, about: &'static str, number: u64, stage: &Stage, reference: &Reference| {
            let pair = write_pair(stage, reference);
            list.push(Example {
                name: name.to_string(),
                about,
                number,
                pair,
            });
        };
    let and = one_operation(AND);
    let whole_case = dual_rail(&and);
    let both_rails = Stage {
        gates: [
            &whole_case.gates[..],
            &[Gate {
                kind: kind_named("TH22"),
                pins: vec![0, 1],
            }],
        ]
        .concat(),
        ..whole_case.clone()
    };
    add(
        "and-both-rails",
        "AND, and a gate on both rails of input 0, which rises in no word",
        32,
        &both_rails,
        &and,
    );
    let cares_for = |care: &[u64]| Stage {
        care: care.to_vec(),
        ..whole_case.clone()
    };
    add(
        "and-without-word-3",
        "AND, its rail 1 rises only in word 3, which nobody cares for",
        32,
        &cares_for(&[0, 1, 2]),
        &and,
    );
    add(
        "and-words-0-and-3",
        "the same, word 3 the last that is cared for: the only one in which rail 1 rises",
        0,
        &cares_for(&[0, 3]),
        &and,
    );
    let mut contradiction = ReferenceBuilder::new(1);
    let not = contradiction.gate(NOT, &[0]);
    let both = contradiction.gate(AND, &[0, not]);
    contradiction.output(both);
    add(
        "and-of-own-not-made",
        "AND of an input with its NOT, made from the reference: rail 1 rises in no word",
        32,
        &made_stage(&contradiction.reference),
        &contradiction.reference,
    );
    list
}

/// Stages with relaxed gates (document 02, M-102).
pub fn relaxed_examples() -> Vec<Example> {
    let mut list: Vec<Example> = Vec::new();
    let mut add =
        |name: &str, about: &'static str, number: u64, stage: &Stage, reference: &Reference| {
            let pair = write_pair(stage, reference);
            list.push(Example {
                name: name.to_string(),
                about,
                number,
                pair,
            });
        };
    let relaxed = |stage: &Stage, gates: &[usize]| {
        let mut stage = stage.clone();
        for &gate in gates {
            stage.gates[gate].kind += 128;
        }
        stage
    };
    let and = one_operation(AND);
    let and_stage = dual_rail(&and);
    add(
        "and-relaxed",
        "AND of two relaxed gates: DATA is gone with the first input",
        20,
        &relaxed(&and_stage, &[0, 1]),
        &and,
    );
    add(
        "and-relaxed-rail-1",
        "AND, rail 1 relaxed",
        20,
        &relaxed(&and_stage, &[0]),
        &and,
    );
    let word_0 = Stage {
        care: vec![0],
        ..relaxed(&and_stage, &[0])
    };
    add(
        "and-relaxed-one-word",
        "the same, only word 0 cared for, in which it stays low",
        32,
        &word_0,
        &and,
    );
    let mut s = StageBuilder::new(2);
    let (sum, carry) = s.half_adder(s.input(0), s.input(1));
    s.output(sum);
    s.output(carry);
    let mut r = ReferenceBuilder::new(2);
    let (sum, carry) = r.half_adder(0, 1);
    r.output(sum);
    r.output(carry);
    add(
        "half-adder-relaxed",
        "Figure 9 of source document 001, the incomplete AND of its carry relaxed",
        0,
        &relaxed(&s.stage, &[2, 3]),
        &r.reference,
    );
    add(
        "half-adder-relaxed-sum",
        "the same with the sum relaxed as well",
        20,
        &relaxed(&s.stage, &[0, 1, 2, 3]),
        &r.reference,
    );
    let multiplier = multiplier_of_the_source();
    let product = multiplier_reference(3, 3);
    let off_diagonal = [2, 3, 4, 5, 6, 7, 10, 11, 12, 13, 14, 15];
    let inner = relaxed(&multiplier, &off_diagonal);
    add(
        "multiplier-3x3-relaxed",
        "the multiplier of source document 001, its incomplete ANDs relaxed",
        0,
        &inner,
        &product,
    );
    add(
        "multiplier-3x3-relaxed-product",
        "the same with a complete AND relaxed as well",
        20,
        &relaxed(&inner, &[0, 1]),
        &product,
    );
    add(
        "multiplier-3x3-relaxed-sum",
        "the same with a gate of the first sum relaxed",
        21,
        &relaxed(&inner, &[18]),
        &product,
    );
    let hamming = hamming_reference();
    let hamming_stage = dual_rail(&hamming);
    add(
        "hamming-4-relaxed",
        "four wires and three check bits, the first XOR of each relaxed",
        0,
        &relaxed(&hamming_stage, &[0, 1, 4, 5, 8, 9]),
        &hamming,
    );
    add(
        "hamming-4-relaxed-all",
        "the same with all XORs relaxed: a first XOR may stay high",
        21,
        &relaxed(&hamming_stage, &[0, 1, 2, 3, 4, 5, 6, 7, 8, 9, 10, 11]),
        &hamming,
    );
    let mut digit = StageBuilder::new(4);
    digit.sum_of_words(&segment_values());
    let joins: Vec<usize> = (16..digit.stage.gates.len()).collect();
    add(
        "seven-segment-relaxed",
        "hexadecimal digit, a holding gate for each word and relaxed ORs",
        0,
        &relaxed(&digit.stage, &joins),
        &segment_reference(),
    );
    let digit = decimal(&segment_values());
    let joins: Vec<usize> = (10..digit.gates.len()).collect();
    add(
        "decimal-segments-relaxed",
        "decimal digit, a holding gate for each word and relaxed ORs",
        0,
        &relaxed(&digit, &joins),
        &segment_reference(),
    );
    // A wire whose rails wait for a gate of both: it may stay high once they have fallen.
    let mut wire = StageBuilder::new(1);
    let input = wire.input(0);
    let here = wire.gate("TH12", &[input.rail_0, input.rail_1]);
    let rail_0 = wire.gate("rTH22", &[here, input.rail_0]);
    let rail_1 = wire.gate("rTH22", &[here, input.rail_1]);
    wire.output(Signal { rail_0, rail_1 });
    let mut r = ReferenceBuilder::new(1);
    r.output(0);
    add(
        "wire-relaxed",
        "relaxed rails that wait for a holding gate, and then not for its fall",
        21,
        &wire.stage,
        &r.reference,
    );
    let mut spare = StageBuilder::new(1);
    spare.gate("rTH12", &[0, 1]);
    spare.output(spare.input(0));
    add(
        "marked-08-relaxed",
        "wire and a relaxed gate that feeds nothing: refused for the rise, as marked case 8",
        15,
        &spare.stage,
        &r.reference,
    );
    list
}

/// Words of four inputs that are decimal digits.
const DIGITS: [u64; 10] = [0, 1, 2, 3, 4, 5, 6, 7, 8, 9];

/// A stage with a gate for each decimal digit.
fn decimal(outputs: &[Vec<bool>]) -> Stage {
    let mut s = StageBuilder::new(4);
    s.stage.care = DIGITS.to_vec();
    s.sum_of_words(outputs);
    s.stage
}

/// The digit after a decimal digit, and whether it is carried to 0. Of other words nothing is
/// asked; the reference has 0 there.
fn increment_values() -> Vec<Vec<bool>> {
    let next = |word: usize| if word < 9 { word + 1 } else { 0 };
    let bits = (0..4).map(|bit| {
        (0..16)
            .map(|word| word < 10 && next(word) >> bit & 1 == 1)
            .collect()
    });
    bits.chain([(0..16).map(|word| word == 9).collect()])
        .collect()
}

/// Stages with care lists (document 02, M-101).
pub fn care_examples() -> Vec<Example> {
    let mut list: Vec<Example> = Vec::new();
    let mut add =
        |name: &str, about: &'static str, number: u64, stage: &Stage, reference: &Reference| {
            let pair = write_pair(stage, reference);
            list.push(Example {
                name: name.to_string(),
                about,
                number,
                pair,
            });
        };
    let without_list = |stage: &Stage| Stage {
        care: vec![],
        ..stage.clone()
    };
    let segments = segment_reference();
    let digit = decimal(&segment_values());
    add(
        "decimal-segments",
        "decimal digit to seven segments, words 0 to 9 cared for, a gate for each",
        0,
        &digit,
        &segments,
    );
    add(
        "decimal-segments-no-list",
        "the same without its care list: words 10 to 15 have no gate",
        13,
        &without_list(&digit),
        &segments,
    );
    let mut wide = digit.clone();
    wide.care.extend([13, 15]);
    add(
        "decimal-segments-more-words",
        "the same with words 13 and 15 cared for as well",
        13,
        &wide,
        &segments,
    );
    let mut fault = digit.clone();
    fault.gates[9] = Gate {
        kind: kind_named("TH33"),
        pins: vec![1, 4, 7],
    };
    add(
        "decimal-segments-incomplete",
        "the gate of word 9 does not wait for input 1",
        14,
        &fault,
        &segments,
    );
    let increment = reference_by_words(4, &increment_values());
    let incrementer = decimal(&increment_values());
    add(
        "decimal-increment",
        "the next decimal digit and a carry, words 0 to 9 cared for",
        0,
        &incrementer,
        &increment,
    );
    add(
        "decimal-increment-no-list",
        "the same without its care list",
        13,
        &without_list(&incrementer),
        &increment,
    );
    let mut swapped = incrementer.clone();
    swapped.outputs[4].swap(0, 1);
    add(
        "decimal-increment-carry",
        "the rails of the carry swapped",
        13,
        &swapped,
        &increment,
    );
    // A gate that rises in words 10, 11, 14 and 15 and feeds nothing.
    let mut spare = incrementer.clone();
    spare.gates.push(Gate {
        kind: kind_named("TH22"),
        pins: vec![3, 7],
    });
    add(
        "decimal-increment-spare",
        "and a gate that feeds nothing and rises in no decimal digit",
        32,
        &spare,
        &increment,
    );
    spare.gates.last_mut().expect("a gate").pins = vec![1, 7];
    add(
        "decimal-increment-spare-9",
        "the same, the gate rising in word 9",
        15,
        &spare,
        &increment,
    );
    // The next digit is odd where the digit is even.
    let mut s = StageBuilder::new(4);
    s.stage.care = DIGITS.to_vec();
    let values = increment_values();
    s.output(s.input(0).inverted());
    s.sum_of_words(&values[1..]);
    let wired = s.stage;
    add(
        "decimal-increment-wire",
        "bit 0 by a wire, the others by a gate for each digit",
        0,
        &wired,
        &reference_by_words(4, &values),
    );
    let and = one_operation(AND);
    let all = Stage {
        care: vec![0, 1, 2, 3],
        ..dual_rail(&and)
    };
    add(
        "and-all-words",
        "AND, a list of all four words",
        0,
        &all,
        &and,
    );
    let mut s = StageBuilder::new(2);
    let out = s.and_incomplete(s.input(0), s.input(1));
    s.output(out);
    s.stage.care = vec![3];
    add(
        "and-one-word",
        "Figure 6 of source document 001, complete in the one word 3",
        32,
        &s.stage,
        &and,
    );
    s.stage.care = vec![1, 3];
    add(
        "and-two-words",
        "the same with word 1 as well",
        14,
        &s.stage,
        &and,
    );
    let too_high = Stage {
        care: vec![3, 4],
        ..dual_rail(&and)
    };
    add(
        "and-word-4",
        "AND, word 4 of two inputs",
        18,
        &too_high,
        &and,
    );
    let falling = Stage {
        care: vec![0, 2, 1],
        ..dual_rail(&and)
    };
    add(
        "and-falling-list",
        "AND, word 1 after word 2",
        19,
        &falling,
        &and,
    );
    list
}

/// The pairs of document 01's language alone.
pub fn examples_of_document_01() -> Vec<Example> {
    let mut list: Vec<Example> = Vec::new();
    let mut add =
        |name: &str, about: &'static str, number: u64, stage: &Stage, reference: &Reference| {
            let pair = write_pair(stage, reference);
            list.push(Example {
                name: name.to_string(),
                about,
                number,
                pair,
            });
        };

    // Two-input functions.
    for (name, operation) in [
        ("and", AND),
        ("or", OR),
        ("xor", XOR),
        ("nand", NAND),
        ("nor", NOR),
    ] {
        let reference = one_operation(operation);
        add(
            name,
            "two inputs, by the templates of document 02 (M-107)",
            0,
            &dual_rail(&reference),
            &reference,
        );
    }
    let [and, or, xor] = [AND, OR, XOR].map(one_operation);
    let two_inputs = |build: &dyn Fn(&mut StageBuilder, Signal, Signal) -> Signal| {
        let mut s = StageBuilder::new(2);
        let (a, b) = (s.input(0), s.input(1));
        let out = build(&mut s, a, b);
        s.output(out);
        s.stage
    };
    let incomplete_and = two_inputs(&|s, a, b| s.and_incomplete(a, b));
    add(
        "and-incomplete",
        "Figure 6 of source document 001",
        14,
        &incomplete_and,
        &and,
    );
    let incomplete_or = two_inputs(&|s, a, b| s.or_incomplete(a, b));
    add(
        "or-incomplete",
        "OR with TH12 for rail 1",
        14,
        &incomplete_or,
        &or,
    );
    let xor_of_two_comp = two_inputs(&|s, a, b| s.xor_of_two_comp(a, b));
    add(
        "xor-comp",
        "XOR of two TH24comp, the sum of Figure 9",
        0,
        &xor_of_two_comp,
        &xor,
    );
    let unobservable_xor = two_inputs(&|s, a, b| s.xor_unobservable(a, b));
    add(
        "xor-unobservable",
        "Figure 8 of source document 001",
        15,
        &unobservable_xor,
        &xor,
    );
    let swapped_and = two_inputs(&|s, a, b| s.and(a, b).inverted());
    add(
        "and-swapped",
        "AND with the rails of its output swapped",
        13,
        &swapped_and,
        &and,
    );
    let mut both_high = two_inputs(&|s, a, b| s.or(a, b));
    both_high.gates[1] = Gate {
        kind: kind_named("TH14"),
        pins: vec![0, 1, 2, 3],
    };
    add(
        "or-both-rails",
        "OR whose rail 1 is high in word 0 too",
        13,
        &both_high,
        &or,
    );

    // Adders.
    let half = ripple_adder(1, false);
    let half_reference = ripple_adder_reference(1, false);
    add(
        "half-adder",
        "Figure 9 of source document 001",
        0,
        &half,
        &half_reference,
    );
    let full = ripple_adder(1, true);
    let full_reference = ripple_adder_reference(1, true);
    add(
        "full-adder",
        "Figure 10 of source document 001",
        0,
        &full,
        &full_reference,
    );
    let mut carry_only = full.clone();
    carry_only.outputs.remove(0);
    carry_only.gates.truncate(2);
    let mut carry_reference = full_reference.clone();
    carry_reference.outputs.remove(0);
    add(
        "majority",
        "the carry of a full adder alone",
        14,
        &carry_only,
        &carry_reference,
    );
    let mut wrong_weight = full.clone();
    wrong_weight.gates[2].kind = kind_named("TH24");
    add(
        "full-adder-weight",
        "rail 1 of the sum without its weight of two",
        13,
        &wrong_weight,
        &full_reference,
    );
    let mut loop_in_adder = full.clone();
    loop_in_adder.gates[1].pins[2] = loop_in_adder.net_of_gate(3);
    add(
        "full-adder-loop",
        "a carry pin on the sum that it feeds",
        12,
        &loop_in_adder,
        &full_reference,
    );
    for bits in 2..=5 {
        let (stage, reference) = (
            ripple_adder(bits, false),
            ripple_adder_reference(bits, false),
        );
        add(
            &format!("adder-{bits}"),
            "ripple adder, half-adder first",
            0,
            &stage,
            &reference,
        );
    }
    for bits in 2..=4 {
        let (stage, reference) = (ripple_adder(bits, true), ripple_adder_reference(bits, true));
        add(
            &format!("adder-{bits}-carry"),
            "ripple adder with a carry in",
            0,
            &stage,
            &reference,
        );
    }
    let reference_5 = ripple_adder_reference(5, false);
    add(
        "adder-5-reversed",
        "gates in reverse order, pins name later gates",
        0,
        &reversed(&ripple_adder(5, false)),
        &reference_5,
    );
    let mut last_carry = ripple_adder(5, false);
    let top = last_carry.gates.len();
    last_carry.gates[top - 3].pins[2] = last_carry.gates[top - 3].pins[1];
    add(
        "adder-5-carry-pin",
        "a pin of the last carry moved to its neighbour",
        13,
        &last_carry,
        &reference_5,
    );
    let mut spare = ripple_adder(5, false);
    let copy = spare.gates[4].clone();
    spare.gates.push(copy);
    add(
        "adder-5-spare-gate",
        "a carry gate twice, the second feeding nothing",
        15,
        &spare,
        &reference_5,
    );
    let mut no_carry = ripple_adder(5, false);
    no_carry.outputs.pop();
    add(
        "adder-5-no-carry-out",
        "one output less than its reference",
        11,
        &no_carry,
        &reference_5,
    );
    add(
        "adder-4-against-5",
        "fewer inputs than its reference",
        10,
        &ripple_adder(4, false),
        &reference_5,
    );

    // Parity and comparing.
    let parity = parity_reference();
    let parity_stage = dual_rail(&parity);
    add(
        "parity-10",
        "parity tree of ten inputs",
        0,
        &parity_stage,
        &parity,
    );
    let mut parity_fault = parity_stage.clone();
    parity_fault.gates[8].kind = kind_named("TH24");
    add(
        "parity-10-kind",
        "a gate of the last input pair is TH24 in place of THxor0",
        13,
        &parity_fault,
        &parity,
    );
    let compare = address_compare_reference();
    let compare_stage = dual_rail(&compare);
    add(
        "address-compare-5",
        "whether two addresses of five bits are equal",
        0,
        &compare_stage,
        &compare,
    );
    let mut early = compare_stage.clone();
    // The last AND's THand0 becomes TH12: unequal as soon as one side is.
    let last = early.gates.last_mut().unwrap();
    *last = Gate {
        kind: kind_named("TH12"),
        pins: last.pins[..2].to_vec(),
    };
    add(
        "address-compare-5-early",
        "says unequal before all bits are there",
        14,
        &early,
        &compare,
    );
    let comparator = comparator_reference();
    add(
        "comparator-4",
        "less, equal, greater for two numbers of four bits",
        0,
        &dual_rail(&comparator),
        &comparator,
    );
    let mut swapped = dual_rail(&comparator);
    swapped.outputs.swap(0, 2);
    add(
        "comparator-4-swapped",
        "less and greater exchanged",
        13,
        &swapped,
        &comparator,
    );

    // Multipliers.
    let three = multiplier_reference(3, 3);
    let source = multiplier_of_the_source();
    add(
        "multiplier-3x3-source",
        "Figures 12 and 19 of source document 001, registers as wires",
        0,
        &source,
        &three,
    );
    add(
        "multiplier-3x3-reversed",
        "the same with its gates in reverse order",
        0,
        &reversed(&source),
        &three,
    );
    let mut incomplete = source.clone();
    let x1y1 = incomplete
        .gates
        .iter()
        .position(|gate| gate.kind == kind_named("THand0") && gate.pins == [8, 2, 9, 3]);
    let x1y1 = x1y1.expect("line 12 of Figure 12(a)");
    incomplete.gates[x1y1] = Gate {
        kind: kind_named("TH12"),
        pins: vec![8, 2],
    };
    add(
        "multiplier-3x3-incomplete",
        "the same with the incomplete AND for X1Y1",
        14,
        &incomplete,
        &three,
    );
    let mut unobservable = StageBuilder {
        stage: source.clone(),
    };
    // Lines 21 and 22, the sum of the first half-adder, by Figure 8.
    let t0 = Signal {
        rail_0: unobservable.stage.net_of_gate(3),
        rail_1: unobservable.stage.net_of_gate(2),
    };
    let t1 = Signal {
        rail_0: unobservable.stage.net_of_gate(7),
        rail_1: unobservable.stage.net_of_gate(6),
    };
    let either_0 = unobservable.gate("TH12", &[t0.rail_0, t1.rail_0]);
    let both_0 = unobservable.gate("TH22", &[t0.rail_0, t1.rail_0]);
    let mut unobservable = unobservable.stage;
    unobservable.gates[18] = Gate {
        kind: kind_named("TH33w2"),
        pins: vec![either_0, t0.rail_1, t1.rail_1],
    };
    unobservable.gates[19] = Gate {
        kind: kind_named("TH23w2"),
        pins: vec![both_0, t0.rail_1, t1.rail_1],
    };
    add(
        "multiplier-3x3-unobservable",
        "the same with the XOR of Figure 8 in its first half-adder",
        15,
        &unobservable,
        &three,
    );
    let mut moved = source.clone();
    moved.gates[38].pins[2] = moved.gates[38].pins[1];
    add(
        "multiplier-3x3-pin",
        "the same with a pin of the last carry moved",
        13,
        &moved,
        &three,
    );
    for (a, b) in [(2, 2), (4, 4), (2, 8), (3, 7), (4, 6)] {
        let reference = multiplier_reference(a, b);
        add(
            &format!("multiplier-{a}x{b}"),
            "half-adders and full adders, mixed ANDs",
            0,
            &multiplier(a, b, Products::Mixed),
            &reference,
        );
    }
    let reference_4x6 = multiplier_reference(4, 6);
    add(
        "multiplier-4x6-complete",
        "with complete ANDs only",
        0,
        &multiplier(4, 6, Products::Complete),
        &reference_4x6,
    );
    add(
        "multiplier-5x5",
        "half-adders and full adders, mixed ANDs: 130 gates",
        0,
        &multiplier(5, 5, Products::Mixed),
        &multiplier_reference(5, 5),
    );

    // The multiply-accumulate unit.
    let mac = mac_of_the_source();
    add(
        "mac-4-2x2-source",
        "Figure 15 of source document 001, mended, registers as wires, loop cut",
        14,
        &mac,
        &mac_reference(),
    );
    let mut complete = mac.clone();
    complete.gates[6] = Gate {
        kind: kind_named("THand0"),
        pins: vec![6, 2, 7, 3],
    };
    add(
        "mac-4-2x2-complete",
        "the same with the complete AND for X1Y1",
        0,
        &complete,
        &mac_reference(),
    );

    // Others.
    let c17 = c17_reference();
    add(
        "c17",
        "ISCAS-85 C17 by the templates of document 02 (M-107)",
        0,
        &dual_rail(&c17),
        &c17,
    );
    let mut c17_fault = dual_rail(&c17);
    c17_fault.gates[1] = Gate {
        kind: kind_named("TH12"),
        pins: vec![0, 4],
    };
    add(
        "c17-incomplete",
        "the same with the incomplete NAND for N10",
        14,
        &c17_fault,
        &c17,
    );
    let segments = segment_values();
    let mut digit = StageBuilder::new(4);
    digit.sum_of_words(&segments);
    let digit = digit.stage;
    let segment_reference = segment_reference();
    add(
        "seven-segment",
        "hexadecimal digit, one gate for each word",
        0,
        &digit,
        &segment_reference,
    );
    let mut digit_fault = digit.clone();
    digit_fault.gates[11].pins[3] = 6;
    add(
        "seven-segment-word",
        "a pin of the gate of word 11 on the wrong rail",
        13,
        &digit_fault,
        &segment_reference,
    );
    let constant = reference_by_words(2, &[vec![false; 4], vec![true, false, false, true]]);
    let mut constant_stage = StageBuilder::new(2);
    constant_stage.sum_of_words(&[vec![false; 4], vec![true, false, false, true]]);
    add(
        "constant-output",
        "an output that is 0 in every word, its rail 1 never rises",
        32,
        &constant_stage.stage,
        &constant,
    );
    let gray = gray_reference();
    add(
        "gray-6",
        "Gray code to binary, six bits",
        0,
        &dual_rail(&gray),
        &gray,
    );
    let multiplexer = multiplexer_reference();
    add(
        "multiplexer-4",
        "four inputs, two select inputs",
        0,
        &dual_rail(&multiplexer),
        &multiplexer,
    );
    let hamming = hamming_reference();
    add(
        "hamming-4",
        "four wires and three check bits",
        0,
        &dual_rail(&hamming),
        &hamming,
    );
    let nand = nand_9_reference();
    add(
        "nand-9",
        "nine inputs, complete ANDs",
        0,
        &nand_9(true),
        &nand,
    );
    add(
        "nand-9-incomplete",
        "Figure 20 of source document 001, held gates: incomplete by itself",
        14,
        &nand_9(false),
        &nand,
    );

    // For timing.
    let network = timing_network_reference();
    let network_stage = dual_rail(&network);
    add(
        "timing-network",
        "ten inputs, 128 gates, sixteen outputs",
        0,
        &network_stage,
        &network,
    );
    let chain = xor_chain_reference(10, 64);
    let chain_stage = dual_rail(&chain);
    add(
        "timing-chain",
        "ten inputs, a chain of 128 gates",
        32,
        &chain_stage,
        &chain,
    );
    add(
        "timing-chain-reversed",
        "the same, each gate before the ones that feed it",
        32,
        &reversed(&chain_stage),
        &chain,
    );
    // Output 15 is turned over in word 1023 only.
    let mut r = ReferenceBuilder {
        reference: network.clone(),
    };
    let all_high = r.one_word(1023);
    let turned = r.xor(network.outputs[15], all_high);
    let mut last_word = r.reference;
    last_word.outputs[15] = turned;
    add(
        "timing-network-last-word",
        "wrong in the last word only",
        13,
        &network_stage,
        &last_word,
    );

    // The marked cases of document 01.
    for (case, (about, stage, reference, verdict)) in MARKED.into_iter().enumerate() {
        let pair = FilePair {
            stage: unhex(stage),
            reference: unhex(reference),
        };
        list.push(Example {
            name: format!("marked-{:02}", case + 1),
            about,
            number: verdict[0],
            pair,
        });
    }
    list
}
