//! A stage from a reference (document 02, M-107) in the plainest way: "NOT swaps rails; every other
//! operation becomes two gates, gates in reference order, outputs last". The field calls it a
//! dual-rail expansion.

use crate::files::write_stage;
use crate::join::WHOLE_LIMITS;
use crate::judge::{
    read_reference_within, Gate, Reference, Stage, Verdict, ACCEPTED, AND, KINDS, NAND, NOR, NOT,
    OR, REFERENCE, ROW, XOR,
};

/// The answer: the verdict, and how many bytes of the buffer are written.
#[derive(Clone, Copy, PartialEq, Eq, Debug)]
pub struct Made {
    pub verdict: Verdict,
    pub len: usize,
}

/// Writes the stage of a reference file into a lent buffer. The refusals are those of reading, with
/// the limits of M-105, then 25, 26, 27, "in this order after reading".
pub fn make_stage(reference_file: &[u8], buffer: &mut [u8]) -> Made {
    let refused = |verdict: Verdict| Made { verdict, len: 0 };
    let reference = match read_reference_within(WHOLE_LIMITS, reference_file) {
        Ok(reference) => reference,
        Err((number, at)) => return refused([number, REFERENCE, at as u64, 0]),
    };
    // 25: "least signal that is no output and leads to none".
    if let Some(signal) = least_idle_signal(&reference) {
        return refused([25, REFERENCE, signal as u64, 0]);
    }
    // 26: "more than 256 gates needed (`at` the count, file 2)".
    let count = gates_needed(&reference);
    if count > WHOLE_LIMITS.stage_gates {
        return refused([26, REFERENCE, count as u64, 0]);
    }
    let stage = write_stage(&made_stage(&reference));
    // 27: "buffer too short".
    if buffer.len() < stage.len() {
        return refused([27, ROW, 0, 0]);
    }
    buffer[..stage.len()].copy_from_slice(&stage);
    Made {
        verdict: ACCEPTED,
        len: stage.len(),
    }
}

/// Inputs are signals too. A signal leads to a gate that has it as an operand, and on from there.
fn least_idle_signal(reference: &Reference) -> Option<usize> {
    (0..reference.signals()).find(|&signal| {
        // All signals that this one leads to, itself first.
        let mut reached = vec![false; reference.signals()];
        reached[signal] = true;
        for (k, gate) in reference.gates.iter().enumerate() {
            if gate.operands.iter().any(|&operand| reached[operand]) {
                reached[reference.inputs + k] = true;
            }
        }
        !reference.outputs.iter().any(|&output| reached[output])
    })
}

fn gates_needed(reference: &Reference) -> usize {
    let gates = reference.gates.iter();
    2 * gates.filter(|gate| gate.operation != NOT).count()
}

/// The stage of a reference, for any number of gates. A signal is its rails 0 and 1.
pub fn made_stage(reference: &Reference) -> Stage {
    let mut stage = Stage {
        inputs: reference.inputs,
        ..Stage::default()
    };
    let mut signals: Vec<[usize; 2]> = (0..reference.inputs).map(|i| [2 * i, 2 * i + 1]).collect();
    for gate in &reference.gates {
        let [a0, a1] = signals[gate.operands[0]];
        if gate.operation == NOT {
            signals.push([a1, a0]);
            continue;
        }
        let [b0, b1] = signals[gate.operands[1]];
        let rails = match gate.operation {
            AND | NAND => {
                let rail_1 = put(&mut stage, "TH22", &[a1, b1]);
                let rail_0 = put(&mut stage, "THand0", &[a0, b0, a1, b1]);
                [rail_0, rail_1]
            }
            OR | NOR => {
                let rail_0 = put(&mut stage, "TH22", &[a0, b0]);
                let rail_1 = put(&mut stage, "THand0", &[a1, b1, a0, b0]);
                [rail_0, rail_1]
            }
            XOR => {
                let rail_0 = put(&mut stage, "THxor0", &[a0, b0, a1, b1]);
                let rail_1 = put(&mut stage, "TH24comp", &[a0, b0, a1, b1]);
                [rail_0, rail_1]
            }
            _ => unreachable!("the reader knows no other operation"),
        };
        // "NAND and NOR swap the result's rails."
        signals.push(match gate.operation {
            NAND | NOR => [rails[1], rails[0]],
            _ => rails,
        });
    }
    for &output in &reference.outputs {
        stage.outputs.push(signals[output]);
    }
    stage
}

/// One more gate; answers the net that it drives.
fn put(stage: &mut Stage, name: &str, pins: &[usize]) -> usize {
    let place = KINDS.iter().position(|(kind, _)| *kind == name);
    stage.gates.push(Gate {
        kind: place.expect("a kind of the paper") + 1,
        pins: pins.to_vec(),
    });
    stage.nets() - 1
}
