//! Files to write the next file of the family after (document 02, M-112), and buffers for it.

use super::*;
use crate::judge::{ROW, STAGE};
use crate::next::FAMILY;

/// A stage file, and the buffer that is lent for the next one.
#[derive(Clone, PartialEq, Eq, Debug)]
pub struct NextCase {
    pub stage: Vec<u8>,
    pub buffer: Vec<u8>,
}

/// A generated file with a buffer.
#[derive(Clone, Debug)]
pub struct GeneratedNext {
    pub family: &'static str,
    pub case: NextCase,
    pub known: Known,
}

fn case_of(
    random: &mut Random,
    family: &'static str,
    stage: Vec<u8>,
    room: usize,
    known: Known,
) -> GeneratedNext {
    let buffer = (0..room).map(|_| random.byte()).collect();
    GeneratedNext {
        family,
        case: NextCase { stage, buffer },
        known,
    }
}

/// A file of the family. Few have no gate or one, so these are taken more often.
fn any_member(random: &mut Random) -> Vec<u8> {
    let inputs = random.pick(&[1, 2]);
    let length = random.pick(&[8, 18, 28]);
    let of_shape = |file: &Vec<u8>| file[1] == inputs && file.len() == length;
    let from = FAMILY.iter().position(of_shape).expect("some");
    let count = FAMILY[from..]
        .iter()
        .take_while(|file| of_shape(file))
        .count();
    FAMILY[from + random.below(count)].clone()
}

/// Whether a file is the last of all.
fn is_last(file: &[u8]) -> bool {
    FAMILY.last().is_some_and(|last| last == file)
}

/// A file of the family, its room at least enough for any.
fn written(random: &mut Random) -> GeneratedNext {
    let stage = match random.below(20) {
        0 => vec![],
        1 => FAMILY[FAMILY.len() - 1 - random.below(3)].clone(),
        _ => any_member(random),
    };
    let known = if is_last(&stage) {
        Known::Verdict([36, STAGE, 0, 0])
    } else {
        Known::Verdict(ACCEPTED)
    };
    let room = 28 + random.pick(&[0, 0, 1, 2, 100]);
    case_of(random, "of the family", stage, room, known)
}

/// The last file of all, which has none behind it in whatever buffer.
fn last(random: &mut Random) -> GeneratedNext {
    let stage = FAMILY.last().expect("some").clone();
    let room = random.below(40);
    let known = Known::Verdict([36, STAGE, 0, 0]);
    case_of(random, "the last", stage, room, known)
}

/// 38: a buffer that is too short for every file, or by some bytes.
fn too_short(random: &mut Random) -> GeneratedNext {
    let place = random.below(FAMILY.len());
    let stage = match place {
        0 => vec![],
        _ => FAMILY[place - 1].clone(),
    };
    let length = FAMILY[place].len();
    let room = match random.below(4) {
        0 => 0,
        1 => random.below(length),
        _ => length - 1,
    };
    let known = Known::Verdict([38, ROW, 0, 0]);
    case_of(random, "too short", stage, room, known)
}

/// A file of the family that is changed in one way: most are no longer of it.
fn changed(random: &mut Random) -> GeneratedNext {
    let mut file = any_member(random);
    let at = random.below(file.len());
    match random.below(12) {
        0 => file[at] = random.byte(),
        1 => file[at] ^= 1 << random.below(8),
        2 => file[at] = random.below(7) as u8,
        3 => file[at] = file[at].wrapping_add(1),
        4 => {
            file.remove(at);
        }
        5 => file.insert(at, random.pick(&[0, 1, 2, 3, 255])),
        6 => file.truncate(at),
        7 => file.push(0),
        8 => {
            let from = random.below(file.len());
            file.swap(at, from);
        }
        // Bytes of another file of the family.
        _ => {
            let other = any_member(random);
            if at < other.len() {
                file[at] = other[at];
            }
        }
    }
    let room = random.pick(&[0, 8, 18, 27, 28, 28, 28, 40]);
    case_of(random, "changed", file, room, Known::Nothing)
}

/// A file that reads and lies just outside: 3 inputs, 3 gates, another kind, 2 outputs, a care list,
/// a loop, or the output before a gate.
fn just_outside(random: &mut Random) -> GeneratedNext {
    let mut stage = read_stage(&any_member(random)).expect("a readable file");
    let outside = random.below(7);
    if stage.gates.is_empty() || outside == 1 {
        while stage.gates.len() < if outside == 1 { 3 } else { 1 } {
            stage.gates.push(Gate {
                kind: random.from_to(1, 2),
                pins: vec![0, random.below(2)],
            });
        }
    }
    let gate = random.below(stage.gates.len());
    let loop_net = stage.net_of_gate(gate);
    match outside {
        0 => stage.inputs = random.from_to(3, 4),
        2 => {
            let kind = random.pick(&[129, 130, 3, 4, 26]);
            stage.gates[gate].kind = kind;
            stage.gates[gate].pins.resize(pin_count(kind), 0);
        }
        3 => stage.outputs.push(stage.outputs[0]),
        4 => stage.care = vec![random.below(2) as u64],
        5 => stage.gates[gate].pins[random.below(2)] = loop_net,
        _ => {}
    }
    let file = if outside == 6 {
        let (mut commands, outputs) = stage_commands(&stage);
        commands.insert(gate, outputs[0].clone());
        file_of(stage.inputs, &commands)
    } else {
        write_stage(&stage)
    };
    let room = 28 + random.below(20);
    let known = Known::Verdict([37, STAGE, 0, 0]);
    case_of(random, "just outside", file, room, known)
}

/// The stage of any generated pair.
fn any(random: &mut Random, seed: u64, index: u64) -> GeneratedNext {
    let stage = pair(seed ^ 0x4E58, index).pair.stage;
    let room = random.below(40);
    case_of(random, "any", stage, room, Known::Nothing)
}

/// File number `index` of a seed.
pub fn next_case(seed: u64, index: u64) -> GeneratedNext {
    let random = &mut Random::new(seed ^ 0x4E87, index);
    match random.below(100) {
        0..=24 => written(random),
        25 => last(random),
        26..=30 => too_short(random),
        31..=79 => changed(random),
        80..=94 => just_outside(random),
        _ => any(random, seed, index),
    }
}
