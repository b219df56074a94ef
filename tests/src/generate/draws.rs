//! Loads to draw references from (document 02, M-113), and buffers for these.

use super::*;
use crate::draw::{drawn_reference, Load, OUT_OF_RANGE, TOO_MANY_OUTPUTS, TOO_SHORT};

/// A load, and the buffer that is lent for its reference.
#[derive(Clone, PartialEq, Eq, Debug)]
pub struct DrawCase {
    pub load: Load,
    pub buffer: Vec<u8>,
}

/// A generated load with a buffer.
#[derive(Clone, Debug)]
pub struct GeneratedDraw {
    pub family: &'static str,
    pub case: DrawCase,
    pub known: Known,
}

/// Seeds at which a sum passes 4,294,967,296, or just does not: 1,640,531,527 is the first whose sum
/// does.
pub const SEEDS: [u32; 12] = [
    0,
    1,
    2,
    65_535,
    65_536,
    1_640_531_526,
    1_640_531_527,
    1_640_531_528,
    0x7FFF_FFFF,
    0x8000_0000,
    u32::MAX - 1,
    u32::MAX,
];

/// Counts of inputs and gates about their limits, and some that only a wide type holds: 4,294,967,297
/// is 1 where 32 bits are left of it.
pub const WIDE: [usize; 6] = [
    255,
    256,
    65_537,
    4_294_967_297,
    9_223_372_036_854_775_809,
    usize::MAX,
];

pub fn limits_of_inputs() -> Vec<usize> {
    (0..=12).chain(WIDE).collect()
}

pub fn limits_of_gates() -> Vec<usize> {
    (0..=42).chain(WIDE).collect()
}

/// How long the file of a load in range is: 6 bytes a gate, 3 an output.
pub fn length(load: &Load) -> usize {
    3 + 6 * load.gates + 3 * drawn_reference(load).outputs.len()
}

fn any_seed(random: &mut Random) -> u32 {
    match random.below(4) {
        0 => random.below(1000) as u32,
        1 => u32::MAX - random.below(1000) as u32,
        2 => random.pick(&SEEDS),
        _ => random.number() as u32,
    }
}

/// A load in range whose reference has at most 16 outputs, or one that has more.
fn in_range(random: &mut Random, many: bool) -> Load {
    loop {
        let load = Load {
            seed: any_seed(random),
            inputs: if many { 10 } else { random.from_to(1, 10) },
            gates: random.from_to(0, 40),
        };
        if many == (drawn_reference(&load).outputs.len() > 16) {
            return load;
        }
    }
}

/// Case `index` of a seed: a load with a buffer.
pub fn draw_case(seed: u64, index: u64) -> GeneratedDraw {
    let random = &mut Random::new(seed ^ 0xD4A3, index);
    let (family, load, room, known) = match random.below(100) {
        0..=49 => {
            let load = in_range(random, false);
            let room = length(&load) + random.pick(&[0, 0, 0, 1, 2, 7, 300]);
            ("written", load, room, ACCEPTED)
        }
        50..=64 => {
            let load = in_range(random, false);
            let length = length(&load);
            let less = random.below(length);
            let room = random.pick(&[0, less, length - 1, length - 1]);
            ("too short", load, room, TOO_SHORT)
        }
        65..=79 => {
            let load = in_range(random, true);
            let room = random.pick(&[0, 50, 400]);
            ("many outputs", load, room, TOO_MANY_OUTPUTS)
        }
        _ => {
            let mut load = in_range(random, false);
            let wide = random.pick(&WIDE);
            if random.chance(1, 2) {
                load.inputs = random.pick(&[0, 11, 12, wide]);
            } else {
                load.gates = random.pick(&[41, 42, wide]);
            }
            let room = random.pick(&[0, 50, 400]);
            ("out of range", load, room, OUT_OF_RANGE)
        }
    };
    GeneratedDraw {
        family,
        case: DrawCase {
            load,
            buffer: (0..room).map(|_| random.byte()).collect(),
        },
        known: Known::Verdict(known),
    }
}
