//! The join of document 02, M-105, in the plainest way: "a join takes two stages with their
//! references, ties output j of the first to input j of the second, and writes the joined stage
//! and reference in two lent buffers".

use crate::files::{write_reference, write_stage, FilePair};
use crate::judge::{
    answer, check_in_order, read_reference_within, read_stage_within, Boolean, Gate, Limits,
    Reference, Stage, Verdict, WordOrder, ACCEPTED, NONE, ROW,
};

/// "The reader's limits rise to 256 stage and 512 reference gates": a whole is within them.
pub const WHOLE_LIMITS: Limits = Limits {
    stage_gates: 256,
    reference_gates: 512,
};

/// "Parts are still held to 128 and 256."
pub const PART_LIMITS: Limits = Limits {
    stage_gates: 128,
    reference_gates: 256,
};

/// The answer of a join: the verdict, and how many bytes of each buffer are written.
#[derive(Clone, Copy, PartialEq, Eq, Debug)]
pub struct Joined {
    pub verdict: Verdict,
    pub stage_len: usize,
    pub reference_len: usize,
}

/// "Refusals write nothing."
fn refused(verdict: Verdict) -> Joined {
    Joined {
        verdict,
        stage_len: 0,
        reference_len: 0,
    }
}

/// The join of two pairs of files into two lent buffers, for a caller that sets the mark of M-106.
pub fn join(
    first: &FilePair,
    second: &FilePair,
    stage_buffer: &mut [u8],
    reference_buffer: &mut [u8],
) -> Joined {
    let order = WordOrder::Input0Lowest;
    join_in_order(order, first, second, stage_buffer, reference_buffer)
}

/// The join in either order of words.
///
/// "A part's own refusal is passed on, first part first, the second's with 3 added to its file."
/// Then 22, 23, 24, "in this order after the parts' verdicts".
pub fn join_in_order(
    order: WordOrder,
    first: &FilePair,
    second: &FilePair,
    stage_buffer: &mut [u8],
    reference_buffer: &mut [u8],
) -> Joined {
    let verdict = check_in_order(order, PART_LIMITS, &first.stage, &first.reference);
    if verdict != ACCEPTED {
        return refused(verdict);
    }
    let verdict = check_in_order(order, PART_LIMITS, &second.stage, &second.reference);
    if verdict != ACCEPTED {
        let [number, file, at, word] = verdict;
        return refused([number, file + 3, at, word]);
    }
    let (first, second) = (circuits(first), circuits(second));

    // 22: "counts at the seam unequal (`at` outputs, word inputs)".
    let (outputs, inputs) = (first.0.outputs.len(), second.0.inputs);
    if outputs != inputs {
        return refused([22, NONE, outputs as u64, inputs as u64]);
    }
    // 23: "least care word whose answer the second does not care for".
    if let Some(name) = least_stray_word(order, &first, &second.0) {
        return refused([23, NONE, 0, name]);
    }
    let stage = write_stage(&joined_stage(&first.0, &second.0));
    let reference = write_reference(&joined_reference(&first.1, &second.1));
    // 24: "a buffer too short".
    if stage_buffer.len() < stage.len() || reference_buffer.len() < reference.len() {
        return refused([24, ROW, 0, 0]);
    }
    stage_buffer[..stage.len()].copy_from_slice(&stage);
    reference_buffer[..reference.len()].copy_from_slice(&reference);
    Joined {
        verdict: ACCEPTED,
        stage_len: stage.len(),
        reference_len: reference.len(),
    }
}

/// What the two files of an accepted part hold.
fn circuits(part: &FilePair) -> (Stage, Reference) {
    (
        read_stage_within(PART_LIMITS, &part.stage).expect("an accepted stage"),
        read_reference_within(PART_LIMITS, &part.reference).expect("an accepted reference"),
    )
}

/// The word that an answer is for the next part: output j is its input j, and "bit i is input i",
/// as in care lists.
pub fn word_of_answer(answer: &[bool]) -> u64 {
    let mut word = 0;
    for (output, &value) in answer.iter().enumerate() {
        if value {
            word |= 1 << output;
        }
    }
    word
}

/// The name of the first word, by rising names, whose answer is no care word of the second.
fn least_stray_word(
    order: WordOrder,
    (stage, reference): &(Stage, Reference),
    second: &Stage,
) -> Option<u64> {
    let cared_for = second.words();
    for (name, word) in stage.named_words(order) {
        if !cared_for.contains(&word_of_answer(&answer(reference, word))) {
            return Some(name);
        }
    }
    None
}

/// "Inputs, the first part's care list, gates (first part first), the second's outputs".
pub fn joined_stage(first: &Stage, second: &Stage) -> Stage {
    // A net of the second is a rail of the first's outputs, or a gate behind the first's gates.
    let net_in_whole = |net: usize| {
        if net < 2 * second.inputs {
            first.outputs[net / 2][net % 2]
        } else {
            first.nets() + net - 2 * second.inputs
        }
    };
    let mut whole = Stage {
        outputs: Vec::new(),
        ..first.clone()
    };
    for gate in &second.gates {
        whole.gates.push(Gate {
            kind: gate.kind,
            pins: gate.pins.iter().map(|&net| net_in_whole(net)).collect(),
        });
    }
    for rails in &second.outputs {
        whole.outputs.push(rails.map(net_in_whole));
    }
    whole
}

/// The same of the references; they have no care list.
pub fn joined_reference(first: &Reference, second: &Reference) -> Reference {
    let signal_in_whole = |signal: usize| {
        if signal < second.inputs {
            first.outputs[signal]
        } else {
            first.signals() + signal - second.inputs
        }
    };
    let mut whole = Reference {
        outputs: Vec::new(),
        ..first.clone()
    };
    for gate in &second.gates {
        let operands = gate.operands.iter();
        whole.gates.push(Boolean {
            operation: gate.operation,
            operands: operands.map(|&signal| signal_in_whole(signal)).collect(),
        });
    }
    for &signal in &second.outputs {
        whole.outputs.push(signal_in_whole(signal));
    }
    whole
}
