//! Words to ask a witness of, lists of switchings to judge, and keys to play runs by; with the lists and rows that are lent.

use super::*;
use crate::judge::{least_gate_on_a_loop, ORDERS};
use crate::run::{has_ended, may_switch, Way};

/// A pair of files, the name that is asked for, and the list that is lent.
#[derive(Clone, PartialEq, Eq, Debug)]
pub struct WitnessCase {
    pub pair: FilePair,
    pub asked: u64,
    pub list: Vec<u16>,
}

/// A stage file, a word's name, a list of switchings with the place where the fall begins, and the row that is lent.
#[derive(Clone, PartialEq, Eq, Debug)]
pub struct PlayCase {
    pub stage: Vec<u8>,
    pub name: u64,
    pub fall: usize,
    pub list: Vec<u16>,
    pub row: Vec<u8>,
}

/// A stage file, a word's name, keys, and the list that is lent.
#[derive(Clone, PartialEq, Eq, Debug)]
pub struct KeysCase {
    pub stage: Vec<u8>,
    pub name: u64,
    pub keys: Vec<u32>,
    pub list: Vec<u16>,
}

/// The name of a word, and now and then one that has too many digits.
fn any_name(random: &mut Random) -> u64 {
    match random.below(12) {
        0 => u64::MAX - random.below(3) as u64,
        1 => random.below(1 << 20) as u64,
        2 => 1 << random.below(63),
        _ => random.below(1 << 10) as u64,
    }
}

/// A list with entries of any value: with room for every run, or with little.
fn lent(random: &mut Random) -> Vec<u16> {
    let room = match random.below(8) {
        0 => random.below(12),
        1 => random.below(80),
        2 => 0,
        _ => 552 + random.below(3),
    };
    (0..room).map(|_| random.below(1 << 16) as u16).collect()
}

/// Witness case number `index` of a seed.
pub fn witness_case(seed: u64, index: u64) -> WitnessCase {
    let pair = pair(seed, index).pair;
    let random = &mut Random::new(seed ^ 0x3175, index);
    WitnessCase {
        pair,
        asked: any_name(random),
        list: lent(random),
    }
}

/// Steps that may be taken, each picked at random, up to an end or to so many.
fn some_steps(random: &mut Random, stage: &Stage, way: Way, row: &mut [bool], most: usize) -> Vec<u16> {
    let mut list = Vec::new();
    while list.len() < most {
        let able: Vec<usize> = (0..stage.nets()).filter(|&net| may_switch(stage, way, row, net)).collect();
        if able.is_empty() {
            break;
        }
        let net = random.pick(&able);
        row[net] = !row[net];
        list.push(net as u16);
    }
    list
}

/// A list that may be played, or one that a change or two has damaged.
fn some_list(random: &mut Random, stage: &Stage, word: u64) -> (usize, Vec<u16>) {
    let mut row = vec![false; stage.nets()];
    let most = if random.chance(1, 5) { random.below(20) } else { usize::MAX };
    let mut list = some_steps(random, stage, Way::Rise(word), &mut row, most);
    let mut fall = list.len();
    if has_ended(stage, Way::Rise(word), &row) {
        let most = if random.chance(1, 4) { random.below(20) } else { usize::MAX };
        list.extend(some_steps(random, stage, Way::Fall, &mut row, most));
    }
    while random.chance(2, 5) {
        let place = random.below(list.len().max(1));
        match random.below(8) {
            0 if place + 1 < list.len() => list.swap(place, place + 1),
            1 if place < list.len() => list[place] = random.below(stage.nets() + 2) as u16,
            2 if place < list.len() => {
                list.remove(place);
            }
            3 => list.insert(place, random.below(stage.nets()) as u16),
            4 if place < list.len() => list.insert(place, list[place]),
            5 => fall = random.below(list.len() + 3),
            6 => list.truncate(place),
            _ => list.push(random.below(1 << 16) as u16),
        }
    }
    (fall, list)
}

/// Play case number `index` of a seed.
pub fn play_case(seed: u64, index: u64) -> PlayCase {
    let stage = pair(seed, index).pair.stage;
    let random = &mut Random::new(seed ^ 0x914A, index);
    let name = any_name(random);
    let (mut fall, mut list, mut row) = (random.below(4), vec![0, 2, 1], vec![7; random.below(12)]);
    if let Ok(circuit) = read_stage(&stage) {
        if least_gate_on_a_loop(&circuit).is_none() {
            // A list of the word that the name spells in one of the orders.
            let word = random.pick(&ORDERS).named(circuit.inputs, name);
            (fall, list) = some_list(random, &circuit, word);
        }
        let length = match random.below(12) {
            0 => random.below(300),
            1 => circuit.nets() + 1,
            _ => circuit.nets(),
        };
        row = (0..length).map(|_| random.byte()).collect();
    }
    PlayCase {
        stage,
        name,
        fall,
        list,
        row,
    }
}

/// Keys case number `index` of a seed.
pub fn keys_case(seed: u64, index: u64) -> KeysCase {
    let stage = pair(seed, index).pair.stage;
    let random = &mut Random::new(seed ^ 0x6E75, index);
    let name = any_name(random);
    let nets = read_stage(&stage).map_or(3, |circuit| circuit.nets());
    let length = match random.below(12) {
        0 => random.below(600),
        1 => nets,
        _ => 2 * nets,
    };
    // Few keys, so that many are equal, or any.
    let most = random.pick(&[1, 3, 40, 1 << 31]);
    let keys = (0..length).map(|_| random.below(most) as u32).collect();
    KeysCase {
        stage,
        name,
        keys,
        list: lent(random),
    }
}
