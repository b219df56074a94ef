//! References to write stages from (document 02, M-107), and buffers for the stages.

use super::*;
use crate::join::WHOLE_LIMITS;
use crate::judge::{REFERENCE, ROW};

/// A reference file, and the buffer that is lent for the stage.
#[derive(Clone, PartialEq, Eq, Debug)]
pub struct MakeCase {
    pub reference: Vec<u8>,
    pub buffer: Vec<u8>,
}

/// A generated reference with a buffer.
#[derive(Clone, Debug)]
pub struct GeneratedMake {
    pub family: &'static str,
    pub case: MakeCase,
    pub known: Known,
}

/// A reference in which every signal is an output or leads to one. Some outputs go on through NOT
/// of NOT, or through an operation on one signal twice; some are inputs, some are the same signal.
fn whole_reference(random: &mut Random) -> Reference {
    let size = size(random);
    let (inputs, gates) = dimensions(random, size);
    let mut reference = random_reference(random, inputs, gates);
    while random.chance(1, 2) {
        let output = random.below(reference.outputs.len());
        let signal = reference.outputs[output];
        let ways: &[&[usize]] = &[
            &[NOT],
            &[NOT, NOT],
            &[AND],
            &[OR],
            &[XOR],
            &[NAND],
            &[NOR, NOT],
        ];
        reference.outputs[output] = random.pick(ways).iter().fold(signal, |signal, &operation| {
            let operands = if operation == NOT { 1 } else { 2 };
            put(&mut reference, operation, &vec![signal; operands])
        });
    }
    while reference.outputs.len() < 16 && random.chance(1, 3) {
        let signal = random.below(reference.signals());
        reference.outputs.push(signal);
    }
    reference
}

/// One more gate; answers its signal.
fn put(reference: &mut Reference, operation: usize, operands: &[usize]) -> usize {
    reference.gates.push(Boolean {
        operation,
        operands: operands.to_vec(),
    });
    reference.signals() - 1
}

/// How long the stage's file is: two gates for each operation but NOT, and as many outputs.
fn length(reference: &Reference) -> usize {
    let gates = reference.gates.iter();
    let operations = gates.filter(|gate| gate.operation != NOT).count();
    2 + 20 * operations + 5 * reference.outputs.len() + 1
}

fn case_of(
    random: &mut Random,
    family: &'static str,
    reference: &Reference,
    room: usize,
    known: Known,
) -> GeneratedMake {
    GeneratedMake {
        family,
        case: MakeCase {
            reference: reference_file(random, reference),
            buffer: (0..room).map(|_| random.byte()).collect(),
        },
        known,
    }
}

/// A reference that is not refused, in a buffer of just its stage's length or with room to spare.
fn written(random: &mut Random) -> GeneratedMake {
    let reference = whole_reference(random);
    let room = length(&reference) + random.pick(&[0, 0, 0, 1, 2, 7, 300]);
    let known = Known::Verdict(ACCEPTED);
    case_of(random, "written", &reference, room, known)
}

/// 27: a buffer that is too short.
fn too_short(random: &mut Random) -> GeneratedMake {
    let reference = whole_reference(random);
    let room = match random.below(4) {
        0 => 0,
        1 => random.below(length(&reference)),
        _ => length(&reference) - 1,
    };
    let known = Known::Verdict([27, ROW, 0, 0]);
    case_of(random, "too short", &reference, room, known)
}

/// 25: an output left out, or gates behind that lead to nothing.
fn idle_signal(random: &mut Random) -> GeneratedMake {
    let mut reference = whole_reference(random);
    let known = if random.chance(1, 2) {
        let first = reference.signals();
        let mut operand = random.below(first);
        for _ in 0..random.from_to(1, 3) {
            operand = put(&mut reference, NOT, &[operand]);
        }
        Known::Verdict([25, REFERENCE, first as u64, 0])
    } else {
        if reference.outputs.len() > 1 {
            let output = random.below(reference.outputs.len());
            reference.outputs.remove(output);
        }
        Known::Nothing
    };
    let room = random.below(200);
    case_of(random, "idle signal", &reference, room, known)
}

/// A reference that asks for as many gates as a stage may have, two more or two less, and has as
/// many gates as a reference may have, some less, or one more. The stage of most is a chain.
fn at_the_limits(random: &mut Random) -> GeneratedMake {
    let inputs = random.from_to(1, 3);
    let mut reference = Reference {
        inputs,
        ..Reference::default()
    };
    let most = WHOLE_LIMITS.stage_gates / 2;
    let operations = most - 1 + random.pick(&[0, 1, 1, 1, 2, 2, 40]);
    let nots = WHOLE_LIMITS.reference_gates - operations;
    let nots = random.pick(&[0, 3, nots - 1, nots, nots, nots + 1]);
    let mut kinds = vec![false; operations];
    kinds.resize(operations + nots, true);
    random.shuffle(&mut kinds);
    let mut signal = 0;
    let mut unused: Vec<usize> = (1..inputs).collect();
    for not in kinds {
        signal = if not {
            put(&mut reference, NOT, &[signal])
        } else {
            let operation = random.pick(&[AND, OR, XOR, NAND, NOR]);
            let other = unused
                .pop()
                .unwrap_or_else(|| random.below(reference.signals()));
            put(&mut reference, operation, &[signal, other])
        };
    }
    reference.outputs.push(signal);
    let known = if reference.gates.len() > WHOLE_LIMITS.reference_gates {
        Known::Number(6)
    } else if operations > most {
        Known::Verdict([26, REFERENCE, 2 * operations as u64, 0])
    } else {
        Known::Verdict(ACCEPTED)
    };
    let room = length(&reference) + random.pick(&[0, 0, 5]);
    case_of(random, "at the limits", &reference, room, known)
}

/// The reference of any generated pair.
fn any(random: &mut Random, seed: u64, index: u64) -> GeneratedMake {
    let room = random.below(800);
    GeneratedMake {
        family: "any",
        case: MakeCase {
            reference: pair(seed ^ 0x10F4, index).pair.reference,
            buffer: (0..room).map(|_| random.byte()).collect(),
        },
        known: Known::Nothing,
    }
}

/// Reference number `index` of a seed.
pub fn make_case(seed: u64, index: u64) -> GeneratedMake {
    let random = &mut Random::new(seed ^ 0x57A6, index);
    match random.below(100) {
        0..=49 => written(random),
        50..=57 => too_short(random),
        58..=67 => idle_signal(random),
        68..=70 => at_the_limits(random),
        _ => any(random, seed, index),
    }
}
