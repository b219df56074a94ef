//! Pairs of files, and rows, made from a seed: the same seed and index give the
//! same pair always.
//!
//! There are pairs that are accepted by the way they are made, pairs with one known
//! fault whose verdict is known by the way they are made, and pairs of which nothing
//! is known beforehand: mutated circuits, random circuits, damaged bytes.

pub mod draws;
pub mod joins;
pub mod made;
pub mod nexts;
pub mod pipelines;
pub mod runs;
pub mod texts;

use crate::circuits::{
    dual_rail, kind_named, multiplier, multiplier_reference, reordered, ripple_adder,
    ripple_adder_reference, Products, ReferenceBuilder, StageBuilder,
};
use crate::files::{
    care_word, file_of, reference_commands, reference_gate, reference_output, stage_commands,
    stage_gate, stage_output, write_reference, write_stage, FilePair,
};
use crate::judge::{
    accepted_unless_a_gate_never_rises, answer, cell, check_circuits, is_relaxed, is_retired,
    least_gate_that_never_rises, least_retired_gate, pin_count, rails_of_word, read_stage, settle,
    Boolean, Gate, Reference, Stage, Verdict, ABSENT, ACCEPTED, AND, LIMITS, NAND, NOR, NOT, OR,
    SET, XOR,
};
use std::collections::BTreeSet;

/// A small generator of numbers (splitmix64).
#[derive(Clone, Debug)]
pub struct Random(u64);

impl Random {
    pub fn new(seed: u64, index: u64) -> Random {
        let mut random = Random(seed);
        let start = random.number() ^ index.wrapping_mul(0xD1B5_4A32_D192_ED03);
        Random(start)
    }

    pub fn number(&mut self) -> u64 {
        self.0 = self.0.wrapping_add(0x9E37_79B9_7F4A_7C15);
        let mut z = self.0;
        z = (z ^ z >> 30).wrapping_mul(0xBF58_476D_1CE4_E5B9);
        z = (z ^ z >> 27).wrapping_mul(0x94D0_49BB_1331_11EB);
        z ^ z >> 31
    }

    /// A number below `bound`.
    pub fn below(&mut self, bound: usize) -> usize {
        assert!(bound > 0);
        (self.number() % bound as u64) as usize
    }

    /// A number from `from` to `to`, both included.
    pub fn from_to(&mut self, from: usize, to: usize) -> usize {
        from + self.below(to - from + 1)
    }

    /// True in `part` of `whole` cases.
    pub fn chance(&mut self, part: usize, whole: usize) -> bool {
        self.below(whole) < part
    }

    pub fn byte(&mut self) -> u8 {
        self.number() as u8
    }

    pub fn pick<T: Copy>(&mut self, from: &[T]) -> T {
        from[self.below(from.len())]
    }

    pub fn shuffle<T>(&mut self, list: &mut [T]) {
        for place in (1..list.len()).rev() {
            list.swap(place, self.below(place + 1));
        }
    }

    fn order(&mut self, count: usize) -> Vec<usize> {
        let mut order: Vec<usize> = (0..count).collect();
        self.shuffle(&mut order);
        order
    }
}

/// What is known of a verdict by the way the pair was made.
#[derive(Clone, Copy, PartialEq, Eq, Debug)]
pub enum Known {
    Nothing,
    Number(u64),
    Verdict(Verdict),
}

impl Known {
    pub fn agrees(self, verdict: Verdict) -> bool {
        match self {
            Known::Nothing => true,
            Known::Number(number) => verdict[0] == number,
            Known::Verdict(known) => verdict == known,
        }
    }
}

/// A generated pair.
#[derive(Clone, Debug)]
pub struct Generated {
    pub family: &'static str,
    pub pair: FilePair,
    pub known: Known,
}

/// How large a circuit may get.
#[derive(Clone, Copy, PartialEq, Eq, Debug)]
pub enum Size {
    Small,
    Medium,
    Large,
}

/// More than half of all pairs are small, few are large. Of the large ones very
/// few have many inputs and many gates at once, for these take long to judge.
fn size(random: &mut Random) -> Size {
    match random.below(100) {
        0..=64 => Size::Small,
        65..=96 => Size::Medium,
        _ => Size::Large,
    }
}

/// Inputs and reference gates of a circuit of this size.
fn dimensions(random: &mut Random, size: Size) -> (usize, usize) {
    match size {
        Size::Small => (random.from_to(1, 3), random.from_to(0, 4)),
        Size::Medium => {
            let inputs = random.from_to(2, 6);
            (inputs, random.from_to(1, 40 - 5 * inputs))
        }
        Size::Large => {
            let inputs = random.from_to(4, 10);
            // 2 to the inputs, times gates squared, is about the time it takes.
            let time = 1 << if random.chance(1, 30) { 22 } else { 16 };
            let most = (1..=66)
                .rev()
                .find(|gates| (gates * gates) << inputs <= time)
                .unwrap_or(1);
            (inputs, random.from_to(most / 2, most))
        }
    }
}

// ---------------------------------------------------------------------------
// Circuits that are accepted by the way they are made.

/// A reference in which every signal is an output or leads to one.
pub fn random_reference(random: &mut Random, inputs: usize, gates: usize) -> Reference {
    let mut reference = Reference {
        inputs,
        ..Reference::default()
    };
    let mut unused: Vec<usize> = (0..inputs).collect();
    for _ in 0..gates {
        add_gate(random, &mut reference, &mut unused, false);
    }
    while unused.len() > 16 {
        add_gate(random, &mut reference, &mut unused, true);
    }
    reference.outputs = unused;
    // Sometimes signals that are used, or outputs already, come out as well.
    while reference.outputs.len() < 16 && random.chance(1, 4) {
        let signal = random.below(reference.signals());
        reference.outputs.push(signal);
    }
    random.shuffle(&mut reference.outputs);
    reference
}

/// Adds a gate; with `joining` it takes two unused signals.
fn add_gate(
    random: &mut Random,
    reference: &mut Reference,
    unused: &mut Vec<usize>,
    joining: bool,
) {
    let operation = if joining {
        random.pick(&[AND, OR, XOR, NAND, NOR])
    } else {
        random.pick(&[NOT, AND, OR, XOR, NAND, NOR])
    };
    let mut operands = Vec::new();
    for _ in 0..if operation == NOT { 1 } else { 2 } {
        let operand = if joining || !unused.is_empty() && random.chance(2, 3) {
            let place = random.below(unused.len());
            unused.swap_remove(place)
        } else {
            random.below(reference.signals())
        };
        unused.retain(|&signal| signal != operand);
        operands.push(operand);
    }
    reference.gates.push(Boolean {
        operation,
        operands,
    });
    unused.push(reference.signals() - 1);
}

/// A gate of another kind, or with pins in another order or tied together, that is
/// set in the same cases.
fn same_function(random: &mut Random, gate: &Gate) -> Gate {
    let nets: Vec<usize> = {
        let mut nets = gate.pins.clone();
        nets.sort();
        nets.dedup();
        nets
    };
    // The function of a gate on the patterns of these nets, as bits.
    let function = |gate: &Gate| -> u32 {
        let places: Vec<usize> = gate
            .pins
            .iter()
            .map(|net| nets.iter().position(|other| other == net).unwrap())
            .collect();
        (0..1 << nets.len())
            .filter(|pattern| {
                let pins = places
                    .iter()
                    .rev()
                    .fold(0, |pins, place| 2 * pins + (pattern >> place & 1));
                SET[cell(gate.kind)][pins]
            })
            .fold(0, |function, pattern: usize| function | 1 << pattern)
    };
    let wanted = function(gate);
    for _ in 0..40 {
        let kind = random.from_to(1, 27);
        let pins = (0..pin_count(kind)).map(|_| random.pick(&nets)).collect();
        let other = Gate { kind, pins };
        if function(&other) == wanted {
            return other;
        }
    }
    gate.clone()
}

/// Every reader of a net, outputs too, reads another net in its place.
fn redirect(stage: &mut Stage, from: usize, to: usize) {
    for gate in &mut stage.gates {
        for pin in &mut gate.pins {
            if *pin == from {
                *pin = to;
            }
        }
    }
    for rails in &mut stage.outputs {
        for rail in rails {
            if *rail == from {
                *rail = to;
            }
        }
    }
}

/// A gate that repeats a net, all of whose readers read the gate instead.
fn insert_buffer(random: &mut Random, stage: &mut Stage) {
    let net = random.below(stage.nets());
    let read = stage.gates.iter().any(|gate| gate.pins.contains(&net))
        || stage.outputs.iter().any(|rails| rails.contains(&net));
    if !read {
        return;
    }
    let buffer = stage.nets();
    redirect(stage, net, buffer);
    let kind = random.from_to(1, 27);
    stage.gates.push(Gate {
        kind,
        pins: vec![net; pin_count(kind)],
    });
}

/// Changes after which an accepted stage is still accepted: other kinds of the
/// same function, repeating gates, another order of gates.
fn rewrite(random: &mut Random, stage: &mut Stage) {
    if random.chance(1, 2) {
        for gate in &mut stage.gates {
            *gate = same_function(random, gate);
        }
    }
    while random.chance(1, 3) {
        insert_buffer(random, stage);
    }
    if random.chance(1, 2) {
        let order = random.order(stage.gates.len());
        *stage = reordered(stage, &order);
    }
}

fn random_values(random: &mut Random, inputs: usize, outputs: usize) -> Vec<Vec<bool>> {
    (0..outputs)
        .map(|_| (0..1 << inputs).map(|_| random.chance(1, 2)).collect())
        .collect()
}

fn reference_of_values(inputs: usize, outputs: &[Vec<bool>]) -> Reference {
    let mut builder = ReferenceBuilder::new(inputs);
    let words: Vec<usize> = (0..1 << inputs)
        .map(|word| builder.one_word(word))
        .collect();
    for values in outputs {
        let calling: Vec<usize> = (0..words.len())
            .filter(|&w| values[w])
            .map(|w| words[w])
            .collect();
        let signal = if calling.is_empty() {
            builder.xor(0, 0)
        } else {
            builder.chain(OR, &calling)
        };
        builder.output(signal);
    }
    builder.reference
}

/// An accepted stage and its reference.
pub fn accepted(random: &mut Random, size: Size) -> (Stage, Reference) {
    let (mut stage, reference) = match random.below(10) {
        0 | 1 => {
            let inputs = random.from_to(1, if size == Size::Small { 2 } else { 4 });
            let outputs = random.from_to(1, 3);
            let values = random_values(random, inputs, outputs);
            let mut builder = StageBuilder::new(inputs);
            builder.sum_of_words(&values);
            (builder.stage, reference_of_values(inputs, &values))
        }
        2 => {
            let carry_in = random.chance(1, 2);
            let bits = match size {
                Size::Small => 1,
                Size::Medium => random.from_to(1, 2),
                Size::Large => random.from_to(2, 4),
            };
            (
                ripple_adder(bits, carry_in),
                ripple_adder_reference(bits, carry_in),
            )
        }
        3 if size != Size::Small => {
            let (a, b) = (random.from_to(2, 3), random.from_to(1, 3));
            let products = random.pick(&[Products::Complete, Products::Mixed]);
            if b == 1 {
                let reference = random_reference(random, a, 3);
                (dual_rail(&reference), reference)
            } else {
                (multiplier(a, b, products), multiplier_reference(a, b))
            }
        }
        _ => {
            let (inputs, gates) = dimensions(random, size);
            let reference = random_reference(random, inputs, gates);
            (dual_rail(&reference), reference)
        }
    };
    rewrite(random, &mut stage);
    (stage, reference)
}

// ---------------------------------------------------------------------------
// From circuits to files.

/// Two lists mixed, each in its own order.
fn mixed<T>(random: &mut Random, first: Vec<T>, second: Vec<T>) -> Vec<T> {
    let mut from_second: Vec<bool> = vec![false; first.len()];
    from_second.resize(first.len() + second.len(), true);
    random.shuffle(&mut from_second);
    let (mut first, mut second) = (first.into_iter(), second.into_iter());
    from_second
        .iter()
        .map(|&take| if take { second.next() } else { first.next() }.unwrap())
        .collect()
}

/// A stage file; gates, outputs and care words may be mixed.
fn stage_file(random: &mut Random, stage: &Stage) -> Vec<u8> {
    if random.chance(1, 2) {
        return write_stage(stage);
    }
    let (gates, outputs) = stage_commands(stage);
    let mut commands = mixed(random, gates, outputs);
    if !stage.care.is_empty() {
        let care = stage.care.iter().map(|&word| care_word(word)).collect();
        commands = mixed(random, commands, care);
    }
    file_of(stage.inputs, &commands)
}

fn reference_file(random: &mut Random, reference: &Reference) -> Vec<u8> {
    if random.chance(1, 2) {
        return write_reference(reference);
    }
    let (gates, outputs) = reference_commands(reference);
    file_of(reference.inputs, &mixed(random, gates, outputs))
}

fn files_of(random: &mut Random, stage: &Stage, reference: &Reference) -> FilePair {
    FilePair {
        stage: stage_file(random, stage),
        reference: reference_file(random, reference),
    }
}

// ---------------------------------------------------------------------------
// Circuits of which nothing is known beforehand.

fn random_gate(random: &mut Random, nets: usize) -> Gate {
    let kind = random.from_to(1, 27);
    Gate {
        kind,
        pins: (0..pin_count(kind)).map(|_| random.below(nets)).collect(),
    }
}

/// One change to a stage. It stays readable, but may get a loop.
pub fn mutate_stage(random: &mut Random, stage: &mut Stage) {
    let nets = stage.nets();
    if stage.gates.is_empty() && random.chance(3, 4) {
        // Only outputs can change, or a gate comes in.
        stage.gates.push(random_gate(random, nets));
        if random.chance(1, 2) {
            let output = random.below(stage.outputs.len());
            stage.outputs[output][random.below(2)] = nets;
        }
        return;
    }
    let gate = if stage.gates.is_empty() {
        0
    } else {
        random.below(stage.gates.len())
    };
    let output = random.below(stage.outputs.len());
    match if stage.gates.is_empty() {
        random.below(3)
    } else {
        random.below(14)
    } {
        // Rails swapped.
        0 => stage.outputs[output].swap(0, 1),
        // An output rail moved.
        1 => stage.outputs[output][random.below(2)] = random.below(nets),
        // Two outputs exchanged.
        2 => {
            let other = random.below(stage.outputs.len());
            stage.outputs.swap(output, other);
        }
        // A pin moved anywhere.
        3 | 4 => {
            let pin = random.below(stage.gates[gate].pins.len());
            stage.gates[gate].pins[pin] = random.below(nets);
        }
        // A pin moved to an input rail or an earlier gate.
        5 => {
            let pin = random.below(stage.gates[gate].pins.len());
            stage.gates[gate].pins[pin] = random.below(2 * stage.inputs + gate);
        }
        // Two pins exchanged.
        6 => {
            let pins = stage.gates[gate].pins.len();
            let (a, b) = (random.below(pins), random.below(pins));
            stage.gates[gate].pins.swap(a, b);
        }
        // The kind changed, pins added or dropped as needed.
        7 | 8 => {
            let kind = random.from_to(1, 27);
            let mut pins = stage.gates[gate].pins.clone();
            pins.truncate(pin_count(kind));
            while pins.len() < pin_count(kind) {
                let net = if random.chance(1, 2) {
                    random.pick(&pins)
                } else {
                    random.below(nets)
                };
                pins.push(net);
            }
            stage.gates[gate] = Gate { kind, pins };
        }
        // A complete THand0 becomes TH12.
        9 | 10 => {
            let complete: Vec<usize> = (0..stage.gates.len())
                .filter(|&k| stage.gates[k].kind == kind_named("THand0"))
                .collect();
            if complete.is_empty() {
                stage.gates[gate].kind = random.pick(&same_pins(stage.gates[gate].kind));
            } else {
                let gate = random.pick(&complete);
                let pins = stage.gates[gate].pins[..2].to_vec();
                stage.gates[gate] = Gate {
                    kind: kind_named("TH12"),
                    pins,
                };
            }
        }
        // A gate duplicated, some of its readers moved to the copy.
        11 => {
            if stage.gates.len() < LIMITS.stage_gates {
                let (from, to) = (stage.net_of_gate(gate), nets);
                for reader in &mut stage.gates {
                    for pin in &mut reader.pins {
                        if *pin == from && random.chance(1, 3) {
                            *pin = to;
                        }
                    }
                }
                for rail in stage.outputs.iter_mut().flatten() {
                    if *rail == from && random.chance(1, 3) {
                        *rail = to;
                    }
                }
                stage.gates.push(stage.gates[gate].clone());
            }
        }
        // A gate added.
        12 => {
            if stage.gates.len() < LIMITS.stage_gates {
                stage.gates.push(random_gate(random, nets));
            }
        }
        // A gate removed, its readers reading one of its pins.
        _ => {
            let net = random.pick(&stage.gates[gate].pins);
            let own = stage.net_of_gate(gate);
            let net = if net == own { 0 } else { net };
            redirect(stage, own, net);
            stage.gates.remove(gate);
            for pin in stage.gates.iter_mut().flat_map(|gate| &mut gate.pins) {
                if *pin > own {
                    *pin -= 1;
                }
            }
            for rail in stage.outputs.iter_mut().flatten() {
                if *rail > own {
                    *rail -= 1;
                }
            }
        }
    }
}

/// The kinds with as many pins.
fn same_pins(kind: usize) -> Vec<usize> {
    (1..=27)
        .filter(|&other| pin_count(other) == pin_count(kind))
        .collect()
}

/// One change to a reference. It stays readable.
pub fn mutate_reference(random: &mut Random, reference: &mut Reference) {
    let output = random.below(reference.outputs.len());
    if reference.gates.is_empty() || random.chance(1, 4) {
        reference.outputs[output] = random.below(reference.signals());
        return;
    }
    let k = random.below(reference.gates.len());
    let gate = &mut reference.gates[k];
    if gate.operands.len() == 2 && random.chance(1, 2) {
        gate.operation = random.pick(&[AND, OR, XOR, NAND, NOR]);
    } else {
        let operand = random.below(gate.operands.len());
        gate.operands[operand] = random.below(reference.inputs + k);
    }
}

/// A stage of random gates of all kinds, without loops.
fn random_stage(random: &mut Random, inputs: usize, gates: usize, outputs: usize) -> Stage {
    let mut stage = Stage {
        inputs,
        ..Stage::default()
    };
    for _ in 0..gates {
        let gate = random_gate(random, stage.nets());
        stage.gates.push(gate);
    }
    for _ in 0..outputs {
        let rails = [random.below(stage.nets()), random.below(stage.nets())];
        stage.outputs.push(rails);
    }
    stage
}

/// Gates that lead to no output are taken out.
fn without_idle_gates(stage: &Stage) -> Stage {
    let first = 2 * stage.inputs;
    let mut used = vec![false; stage.gates.len()];
    let mut to_do: Vec<usize> = stage.outputs.iter().flatten().copied().collect();
    while let Some(net) = to_do.pop() {
        if net >= first && !used[net - first] {
            used[net - first] = true;
            to_do.extend(&stage.gates[net - first].pins);
        }
    }
    let kept: Vec<usize> = (0..stage.gates.len()).filter(|&gate| used[gate]).collect();
    let renamed = |net: usize| {
        if net < first {
            net
        } else {
            first + kept.iter().position(|&gate| gate == net - first).unwrap()
        }
    };
    Stage {
        inputs: stage.inputs,
        gates: kept
            .iter()
            .map(|&gate| Gate {
                kind: stage.gates[gate].kind,
                pins: stage.gates[gate]
                    .pins
                    .iter()
                    .map(|&net| renamed(net))
                    .collect(),
            })
            .collect(),
        outputs: stage
            .outputs
            .iter()
            .map(|rails| rails.map(renamed))
            .collect(),
        care: stage.care.clone(),
    }
}

/// A stage of random gates whose outputs are pairs of nets that happen to hold DATA
/// in every word, against the reference that they spell. `cared_for` gives a care list for a
/// number of inputs; it may be empty.
fn found_pairs(
    random: &mut Random,
    size: Size,
    cared_for: fn(&mut Random, usize) -> Vec<u64>,
) -> (Stage, Reference) {
    let inputs = random.from_to(1, if size == Size::Small { 2 } else { 4 });
    let gates = random.from_to(1, if size == Size::Small { 6 } else { 14 });
    let mut stage = random_stage(random, inputs, gates, 0);
    stage.care = cared_for(random, inputs);
    let rows: Vec<Vec<bool>> = (0..1 << inputs)
        .map(|word| settle(&stage, &rails_of_word(inputs, word), None))
        .collect();
    let mut pairs = Vec::new();
    for rail_0 in 0..stage.nets() {
        for rail_1 in 0..stage.nets() {
            let data = |&word: &u64| rows[word as usize][rail_0] != rows[word as usize][rail_1];
            if stage.words().iter().all(data) {
                pairs.push([rail_0, rail_1]);
            }
        }
    }
    let mut values: Vec<Vec<bool>> = Vec::new();
    for _ in 0..random.from_to(1, 3) {
        // Pairs with gates are the more interesting ones.
        let mut rails = random.pick(&pairs);
        for _ in 0..4 {
            if rails[0] < 2 * inputs && rails[1] < 2 * inputs {
                rails = random.pick(&pairs);
            }
        }
        stage.outputs.push(rails);
        values.push(rows.iter().map(|row| row[rails[1]]).collect());
    }
    if random.chance(3, 4) {
        stage = without_idle_gates(&stage);
    }
    (stage, reference_of_values(inputs, &values))
}

// ---------------------------------------------------------------------------
// Pairs with one fault whose verdict is known.

/// A command of a file: where it starts, and its bytes.
fn commands_of(file: &[u8], operand_bytes: impl Fn(u8) -> usize) -> Vec<usize> {
    let mut starts = Vec::new();
    let mut place = 0;
    while place < file.len() {
        starts.push(place);
        place += 1 + operand_bytes(file[place]);
    }
    starts
}

fn starts_of(file: &[u8]) -> Vec<usize> {
    commands_of(file, |command| match command {
        0x01 => 1,
        0x02 => 9,
        0x03 => 4,
        0x04 => 6,
        0x05 => 8,
        0x06 => 2,
        0x11 => 5,
        0x12 => 2,
        _ => 0,
    })
}

fn put_u16_at(file: &mut [u8], at: usize, value: usize) {
    file[at..at + 2].copy_from_slice(&(value as u16).to_le_bytes());
}

/// A pair accepted but for one of the refusals 1 to 9 in one file.
fn refused_in_reading(random: &mut Random, number: u64, which: u64) -> Generated {
    let in_stage = which == 1;
    // A gate is needed for the faults in gates.
    let gates_needed = matches!(number, 4 | 5 | 9);
    let (mut stage, mut reference) = loop {
        let circuits = accepted(random, Size::Small);
        if !gates_needed || !circuits.0.gates.is_empty() && !circuits.1.gates.is_empty() {
            break circuits;
        }
    };
    if number == 8 {
        if in_stage {
            stage.outputs.clear();
        } else {
            reference.outputs.clear();
        }
    }
    if number == 6 {
        // So many gates or outputs that one is too many, and more behind it.
        let more = random.pick(&[1, 1, 2, 9]);
        if in_stage && random.chance(1, 2) {
            while stage.gates.len() < LIMITS.stage_gates + more {
                let gate = random_gate(random, 2 * stage.inputs);
                stage.gates.push(gate);
            }
        } else if in_stage {
            stage.outputs.resize(16 + more, [0, 1]);
        } else if random.chance(1, 2) {
            while reference.gates.len() < LIMITS.reference_gates + more {
                reference.gates.push(Boolean {
                    operation: NOT,
                    operands: vec![0],
                });
            }
        } else {
            reference.outputs.resize(16 + more, 0);
        }
    }
    let mut pair = files_of(random, &stage, &reference);
    let file = if in_stage {
        &mut pair.stage
    } else {
        &mut pair.reference
    };
    let starts = starts_of(file);
    let gate_byte = if in_stage { 0x02 } else { 0x11 };
    let gates: Vec<usize> = starts
        .iter()
        .copied()
        .filter(|&at| file[at] == gate_byte)
        .collect();
    let at = match number {
        1 => {
            file.truncate(random.below(file.len()));
            file.len()
        }
        2 => {
            // In place of a command, or before one; what follows does not matter.
            let at = random.pick(&starts);
            let unknown: Vec<u8> = (0..=255)
                .filter(|command| match command {
                    0x00 => at == 0,
                    0x01 => at > 0,
                    0x02 | 0x03 => !in_stage || at == 0,
                    0x11 | 0x12 => in_stage || at == 0,
                    _ => true,
                })
                .collect();
            let likely: Vec<u8> = unknown
                .iter()
                .copied()
                .filter(|&command| command < 0x14)
                .collect();
            let command = if random.chance(1, 2) {
                random.pick(&likely)
            } else {
                random.pick(&unknown)
            };
            if random.chance(1, 2) {
                file[at] = command;
            } else {
                file.insert(at, command);
            }
            at
        }
        3 => {
            file[1] = random.pick(&[0, 0, 11, 11, 12, 16, 32, 128, 255]);
            1
        }
        4 => {
            let at = random.pick(&gates) + 1;
            file[at] = if in_stage {
                random.pick(&[0, 28, 29, 129, 155, 255])
            } else {
                random.pick(&[0, 7, 8, 129, 255])
            };
            at
        }
        5 => {
            let gate = random.pick(&gates);
            let operands = if in_stage { 4 } else { 2 };
            let at = gate + 2 + 2 * random.below(operands);
            if file[at] == 0xFF && file[at + 1] == 0xFF {
                let value = random.pick(&[0, 1, 0x00FF, 0xFF00, 0xFFFE]);
                put_u16_at(file, at, value);
            } else {
                put_u16_at(file, at, ABSENT);
            }
            at
        }
        6 => {
            let (gate_limit, output_byte) = if in_stage {
                (LIMITS.stage_gates, 0x03)
            } else {
                (LIMITS.reference_gates, 0x12)
            };
            let outputs: Vec<usize> = starts
                .iter()
                .copied()
                .filter(|&at| file[at] == output_byte)
                .collect();
            let too_many = [gates.get(gate_limit), outputs.get(16)];
            too_many.into_iter().flatten().copied().min().unwrap()
        }
        7 => {
            let at = file.len();
            for _ in 0..random.from_to(1, 12) {
                let byte = if random.chance(1, 2) {
                    0
                } else {
                    random.byte()
                };
                file.push(byte);
            }
            at
        }
        8 => file.len() - 1,
        _ => {
            // Operands that name something: place, the first number too high, and
            // whether FFFF is one of those (in a gate it would be 5).
            let mut operands: Vec<(usize, usize, bool)> = Vec::new();
            let mut gates_so_far = 0;
            let all = if in_stage {
                stage.nets()
            } else {
                reference.signals()
            };
            for &start in &starts {
                match file[start] {
                    0x02 => {
                        let pins = pin_count(file[start + 1].into());
                        operands.extend((0..pins).map(|pin| (start + 2 + 2 * pin, all, false)));
                    }
                    0x03 => operands.extend([(start + 1, all, true), (start + 3, all, true)]),
                    0x11 => {
                        let count = if usize::from(file[start + 1]) == NOT {
                            1
                        } else {
                            2
                        };
                        let earlier = reference.inputs + gates_so_far;
                        operands.extend((0..count).map(|i| (start + 2 + 2 * i, earlier, false)));
                        gates_so_far += 1;
                    }
                    0x12 => operands.push((start + 1, all, true)),
                    _ => {}
                }
            }
            let (at, bound, absent_too) = random.pick(&operands);
            let value = match random.below(5) {
                0 | 1 => bound,
                2 => random.from_to(bound, bound + 20),
                3 => random.pick(&[0xFFFE, 0x0100, 0x8000, 0xFF00]).max(bound),
                _ if absent_too => ABSENT,
                _ => bound + 1,
            };
            put_u16_at(file, at, value);
            at
        }
    };
    // Document 02 knows the commands 04 to 06 and relaxed kinds in a stage.
    let known = match (number, which) {
        (2, 1) if at > 0 && matches!(pair.stage[at], 0x04..=0x06) => Known::Nothing,
        (4, 1) if matches!(pair.stage[at], 129..=155) => Known::Nothing,
        _ => Known::Verdict([number, which, at as u64, 0]),
    };
    Generated {
        family: "one refusal in reading",
        pair,
        known,
    }
}

/// Unequal counts: 10 and 11.
fn unequal_counts(random: &mut Random, number: u64) -> Generated {
    let (stage, reference) = accepted(random, Size::Small);
    if number == 10 {
        let mut other = reference.clone();
        while other.inputs == stage.inputs {
            let inputs = random.from_to(1, 10);
            other = random_reference(random, inputs, 2);
        }
        let (a, b) = (stage.inputs as u64, other.inputs as u64);
        let pair = files_of(random, &stage, &other);
        return Generated {
            family: "unequal inputs",
            pair,
            known: Known::Verdict([10, 0, a, b]),
        };
    }
    let (mut stage, mut reference) = (stage, reference);
    if random.chance(1, 2) {
        let rails = random.pick(&stage.outputs);
        stage.outputs.push(rails);
    } else {
        let signal = random.pick(&reference.outputs);
        reference.outputs.push(signal);
    }
    // Then one of the files may have 17 outputs, which is another refusal.
    let (a, b) = (stage.outputs.len() as u64, reference.outputs.len() as u64);
    let known = if a <= 16 && b <= 16 {
        Known::Verdict([11, 0, a, b])
    } else {
        Known::Number(6)
    };
    Generated {
        family: "unequal outputs",
        pair: files_of(random, &stage, &reference),
        known,
    }
}

/// A pin turned back to a gate that it feeds: 12.
fn looped(random: &mut Random, size: Size) -> Generated {
    let (mut stage, reference) = loop {
        let circuits = accepted(random, size);
        if !circuits.0.gates.is_empty() {
            break circuits;
        }
    };
    let first = 2 * stage.inputs;
    let gate = random.below(stage.gates.len());
    // All gates behind this one, itself included.
    let mut behind = vec![gate];
    let mut next = 0;
    while next < behind.len() {
        for &net in &stage.gates[behind[next]].pins {
            if net >= first && !behind.contains(&(net - first)) {
                behind.push(net - first);
            }
        }
        next += 1;
    }
    let other = random.pick(&behind);
    let pin = random.below(stage.gates[other].pins.len());
    stage.gates[other].pins[pin] = stage.net_of_gate(gate);
    Generated {
        family: "loop",
        pair: files_of(random, &stage, &reference),
        known: Known::Number(12),
    }
}

/// An accepted pair whose reference is then turned over in one word: 13.
fn wrong_in_one_word(random: &mut Random, size: Size) -> Generated {
    let (stage, reference) = accepted(random, size);
    let word = random.below(1 << stage.inputs) as u64;
    let output = random.below(reference.outputs.len());
    let mut builder = ReferenceBuilder { reference };
    let only_there = builder.one_word(word);
    let turned = builder.xor(builder.reference.outputs[output], only_there);
    builder.reference.outputs[output] = turned;
    let known = if builder.reference.gates.len() <= LIMITS.reference_gates {
        Known::Verdict([13, 1, output as u64, word])
    } else {
        Known::Number(6)
    };
    let pair = files_of(random, &stage, &builder.reference);
    Generated {
        family: "wrong in one word",
        pair,
        known,
    }
}

/// An accepted pair that is given an input which nothing reads: 14.
fn unread_input(random: &mut Random, size: Size) -> Generated {
    let (mut stage, mut reference) = loop {
        let circuits = accepted(random, size);
        if circuits.0.inputs < 10 {
            break circuits;
        }
    };
    let input = random.from_to(0, stage.inputs);
    stage.inputs += 1;
    for net in stage
        .gates
        .iter_mut()
        .flat_map(|gate| &mut gate.pins)
        .chain(stage.outputs.iter_mut().flatten())
    {
        if *net >= 2 * input {
            *net += 2;
        }
    }
    reference.inputs += 1;
    let operands = reference
        .gates
        .iter_mut()
        .flat_map(|gate| &mut gate.operands);
    for signal in operands.chain(&mut reference.outputs) {
        if *signal >= input {
            *signal += 1;
        }
    }
    let pair = files_of(random, &stage, &reference);
    Generated {
        family: "unread input",
        pair,
        known: Known::Verdict([14, 1, input as u64, 0]),
    }
}

/// A sum of words in which the gate of one word does not wait for one input: 14.
fn incomplete_in_one_word(random: &mut Random) -> Generated {
    let inputs = random.from_to(3, 4);
    let outputs = random.from_to(1, 2);
    let mut values = random_values(random, inputs, outputs);
    let word = random.below(1 << inputs);
    let input = random.below(inputs);
    for values in &mut values {
        values[word ^ 1 << input] = values[word];
    }
    let mut builder = StageBuilder::new(inputs);
    builder.sum_of_words(&values);
    let mut stage = builder.stage;
    // The gates of the words come first.
    let mut pins = stage.gates[word].pins.clone();
    pins.remove(input);
    let kind = kind_named(if inputs == 3 { "TH22" } else { "TH33" });
    stage.gates[word] = Gate { kind, pins };
    if random.chance(1, 2) {
        let order = random.order(stage.gates.len());
        stage = reordered(&stage, &order);
    }
    let pair = files_of(random, &stage, &reference_of_values(inputs, &values));
    let least = (word & !(1 << input)) as u64;
    Generated {
        family: "incomplete in one word",
        pair,
        known: Known::Verdict([14, 1, input as u64, least]),
    }
}

/// An accepted pair and a gate that feeds nothing and rises in one word only: 15.
fn idle_in_one_word(random: &mut Random, size: Size) -> Generated {
    let (mut stage, reference) = loop {
        let circuits = accepted(random, size);
        if circuits.0.inputs <= 4 && circuits.0.gates.len() < LIMITS.stage_gates {
            break circuits;
        }
    };
    let word = random.below(1 << stage.inputs);
    let rails: Vec<usize> = (0..stage.inputs).map(|i| 2 * i + (word >> i & 1)).collect();
    let gate = match stage.inputs {
        1 => Gate {
            kind: kind_named("TH22"),
            pins: vec![rails[0], rails[0]],
        },
        2 => Gate {
            kind: kind_named("TH22"),
            pins: rails,
        },
        3 => Gate {
            kind: kind_named("TH33"),
            pins: rails,
        },
        _ => Gate {
            kind: kind_named("TH44"),
            pins: rails,
        },
    };
    stage.gates.push(gate);
    let last = stage.gates.len() - 1;
    let order = random.order(stage.gates.len());
    let place = order.iter().position(|&old| old == last).unwrap();
    let pair = files_of(random, &reordered(&stage, &order), &reference);
    Generated {
        family: "idle gate in one word",
        pair,
        known: Known::Verdict([15, 1, place as u64, word as u64]),
    }
}

// ---------------------------------------------------------------------------
// Damaged bytes.

/// One piece of damage to a file.
fn damage(random: &mut Random, file: &mut Vec<u8>) {
    if file.is_empty() {
        file.push(random.byte());
        return;
    }
    let at = random.below(file.len());
    match random.below(10) {
        0 => file.truncate(at),
        1 | 2 => file[at] ^= 1 << random.below(8),
        3 => file[at] = random.byte(),
        4 => file[at] = random.pick(&[0x00, 0x01, 0x02, 0x03, 0x11, 0x12, 0xFF]),
        5 => file.insert(at, random.byte()),
        6 => {
            file.remove(at);
        }
        7 => {
            // A piece comes twice.
            let to = random.from_to(at, file.len().min(at + 24));
            let piece = file[at..to].to_vec();
            let place = random.below(file.len());
            file.splice(place..place, piece);
        }
        8 => {
            // A piece is missing.
            let to = random.from_to(at, file.len().min(at + 24));
            file.drain(at..to);
        }
        _ => {
            let bytes = [0xFF, 0xFF, 0x00, random.byte()];
            file[at] = random.pick(&bytes);
            if at + 1 < file.len() {
                file[at + 1] = random.pick(&bytes);
            }
        }
    }
}

fn damaged(random: &mut Random, size: Size) -> Generated {
    let (stage, reference) = accepted(random, size);
    let mut pair = files_of(random, &stage, &reference);
    match random.below(12) {
        0 => {
            pair = FilePair {
                stage: pair.reference,
                reference: pair.stage,
            }
        }
        1 => {
            let mut noise =
                || -> Vec<u8> { (0..random.below(40)).map(|_| random.byte()).collect() };
            pair = FilePair {
                stage: noise(),
                reference: noise(),
            };
        }
        2 => pair.reference = (0..random.below(40)).map(|_| random.byte()).collect(),
        3 => pair.stage.clear(),
        4 => pair.reference.clear(),
        _ => {
            let mut pieces = 1;
            while random.chance(1, 3) {
                pieces += 1;
            }
            for _ in 0..pieces {
                if random.chance(1, 2) {
                    damage(random, &mut pair.stage);
                } else {
                    damage(random, &mut pair.reference);
                }
            }
        }
    }
    Generated {
        family: "damaged",
        pair,
        known: Known::Nothing,
    }
}

/// A file of random commands, each of which may be wrong in several ways at once.
fn loose_file(random: &mut Random, in_stage: bool) -> Vec<u8> {
    let inputs = random.from_to(1, 3);
    let mut file = vec![0x01, inputs as u8];
    let many = random.chance(1, 6);
    let faulty = random.pick(&[0, 1, 3]);
    let count = if many {
        random.from_to(16, 300)
    } else {
        random.below(8)
    };
    let outputs_in = random.pick(&[2, 10, 100]);
    for _ in 0..count {
        let wrong = random.below(40) < faulty;
        let is_output = random.chance(1, outputs_in);
        let bound = 2 * inputs + if wrong { 300 } else { 0 };
        let command = match (in_stage, is_output) {
            (true, false) => {
                let mut bytes = stage_gate(&random_gate(random, bound));
                if wrong && random.chance(1, 2) {
                    bytes[1] = random.byte();
                }
                bytes
            }
            (true, true) => stage_output([random.below(bound), random.below(bound)]),
            (false, false) => {
                let operation = random.from_to(NOT, NOR);
                let operands = vec![random.below(bound / 2), random.below(bound / 2)];
                let mut bytes = reference_gate(&Boolean {
                    operation,
                    operands,
                });
                if wrong && random.chance(1, 2) {
                    bytes[1] = random.byte();
                }
                bytes
            }
            (false, true) => reference_output(random.below(bound / 2)),
        };
        file.extend(&command);
        if wrong && random.chance(1, 3) {
            // An operand of the command becomes FFFF or something else.
            let at = file.len() - 2 * random.from_to(1, (command.len() - 1) / 2);
            let value = random.pick(&[ABSENT, 0, 0x00FF, 0xFFFE]);
            put_u16_at(&mut file, at, value);
        }
    }
    if random.chance(1, 8) {
        file.truncate(random.below(file.len()));
    } else {
        file.push(0);
    }
    if random.chance(1, 8) {
        file.push(random.byte());
    }
    file
}

fn loose(random: &mut Random) -> Generated {
    let good = random.chance(1, 2);
    let (stage, reference) = accepted(random, Size::Small);
    let pair = FilePair {
        stage: if good {
            write_stage(&stage)
        } else {
            loose_file(random, true)
        },
        reference: if good || random.chance(1, 2) {
            loose_file(random, false)
        } else {
            write_reference(&reference)
        },
    };
    Generated {
        family: "loose commands",
        pair,
        known: Known::Nothing,
    }
}

/// A file with several faults in one command: which one counts is a matter of order.
fn several_faults(random: &mut Random) -> Generated {
    let in_stage = random.chance(1, 2);
    let (stage, reference) = accepted(random, Size::Small);
    let mut pair = files_of(random, &stage, &reference);
    let file = if in_stage {
        &mut pair.stage
    } else {
        &mut pair.reference
    };
    let inputs = usize::from(file[1]);
    let (mut gates, mut outputs) = if in_stage {
        stage_commands(&stage)
    } else {
        reference_commands(&reference)
    };
    let one_gate = |random: &mut Random| {
        if in_stage {
            stage_gate(&random_gate(random, 2 * inputs))
        } else {
            let operands = vec![random.below(inputs), random.below(inputs)];
            reference_gate(&Boolean {
                operation: random.from_to(NOT, NOR),
                operands,
            })
        }
    };
    let one_output = if in_stage {
        stage_output([0, 1])
    } else {
        reference_output(0)
    };
    if random.chance(1, 4) {
        // At the end: no output, bytes after it, nets that are absent.
        if random.chance(1, 2) {
            outputs.clear();
        }
        for _ in 0..random.below(4) {
            let list = if random.chance(1, 2) {
                &mut gates
            } else {
                &mut outputs
            };
            if !list.is_empty() {
                let place = random.below(list.len());
                let at = list[place].len() - 2 * random.from_to(1, (list[place].len() - 1) / 2);
                if list[place][at..at + 2] != [0xFF, 0xFF] {
                    put_u16_at(&mut list[place], at, 700);
                }
            }
        }
        let commands = mixed(random, gates, outputs);
        *file = file_of(inputs, &commands);
        while random.chance(1, 2) {
            file.push(random.byte());
        }
        return Generated {
            family: "several faults",
            pair,
            known: Known::Nothing,
        };
    }
    // A gate, an output, or another command.
    let gate = random.chance(3, 4);
    let full = random.chance(2, 3);
    if full && gate {
        let limit = if in_stage {
            LIMITS.stage_gates
        } else {
            LIMITS.reference_gates
        };
        while gates.len() < limit {
            gates.push(one_gate(random));
        }
    } else if full {
        outputs.resize(16, one_output.clone());
    }
    let mut last = if gate { one_gate(random) } else { one_output };
    if gate && random.chance(1, 2) {
        last[1] = random.byte();
    }
    while random.chance(1, 2) {
        let at = last.len() - 2 * random.from_to(1, (last.len() - 1) / 2);
        let value = random.pick(&[ABSENT, 0, 1, 700]);
        put_u16_at(&mut last, at, value);
    }
    if random.chance(1, 6) {
        last[0] = random.pick(&[0x01, 0x02, 0x03, 0x11, 0x12]);
    }
    if random.chance(1, 3) {
        last.truncate(random.from_to(1, last.len()));
    }
    let commands = mixed(random, gates, outputs);
    *file = file_of(inputs, &commands);
    file.pop();
    file.extend(last);
    if random.chance(1, 2) {
        file.push(0);
    }
    Generated {
        family: "several faults",
        pair,
        known: Known::Nothing,
    }
}

/// Files longer than the 8,192 bytes that are read, or as long.
fn long(random: &mut Random) -> Generated {
    let (stage, reference) = accepted(random, Size::Small);
    let mut pair = files_of(random, &stage, &reference);
    let length = random.pick(&[8_190, 8_191, 8_192, 8_193, 8_194, 9_000, 20_000]);
    let in_stage = random.chance(1, 2);
    let file = if in_stage {
        &mut pair.stage
    } else {
        &mut pair.reference
    };
    match random.below(4) {
        // Bytes after the end.
        0 => {
            let fill = random.byte();
            file.resize(length, fill);
        }
        1 => {
            while file.len() < length {
                file.push(random.byte());
            }
        }
        // The commands over and over, without an end.
        2 => {
            file.pop();
            let again = file[2..].to_vec();
            while file.len() < length && !again.is_empty() {
                file.extend(&again);
            }
            file.resize(length, 0x03);
        }
        // One byte only.
        _ => {
            let byte = random.pick(&[0x00, 0x01, 0x02, 0x03, 0x11, 0x12]);
            *file = vec![byte; length];
        }
    }
    Generated {
        family: "long",
        pair,
        known: Known::Nothing,
    }
}

// ---------------------------------------------------------------------------
// All together.

fn accepted_pair(random: &mut Random, size: Size) -> Generated {
    let (stage, reference) = accepted(random, size);
    let fits =
        stage.gates.len() <= LIMITS.stage_gates && reference.gates.len() <= LIMITS.reference_gates;
    let known = if fits {
        Known::Verdict(ACCEPTED)
    } else {
        Known::Number(6)
    };
    Generated {
        family: "accepted",
        pair: files_of(random, &stage, &reference),
        known,
    }
}

/// An accepted pair with as many gates and outputs as there may be, one less, or one
/// more.
fn at_the_limits(random: &mut Random) -> Generated {
    let (mut stage, mut reference) = loop {
        let circuits = accepted(random, Size::Small);
        if circuits.0.inputs <= 2 {
            break circuits;
        }
    };
    let about = |random: &mut Random, limit: usize| limit - 1 + random.pick(&[0, 1, 1, 1, 2]);
    if random.chance(2, 3) {
        let gates = about(random, LIMITS.stage_gates);
        while stage.gates.len() < gates {
            insert_buffer(random, &mut stage);
        }
    }
    if random.chance(2, 3) {
        let gates = about(random, LIMITS.reference_gates);
        while reference.gates.len() < gates {
            let operand = random.below(reference.signals());
            reference.gates.push(Boolean {
                operation: NOT,
                operands: vec![operand],
            });
        }
    }
    if random.chance(2, 3) {
        let outputs = about(random, 16);
        while stage.outputs.len() < outputs {
            let output = random.below(stage.outputs.len());
            stage.outputs.push(stage.outputs[output]);
            reference.outputs.push(reference.outputs[output]);
        }
    }
    let fits = stage.gates.len() <= LIMITS.stage_gates
        && reference.gates.len() <= LIMITS.reference_gates
        && stage.outputs.len() <= 16;
    let known = if fits {
        Known::Verdict(ACCEPTED)
    } else {
        Known::Number(6)
    };
    Generated {
        family: "at the limits",
        pair: files_of(random, &stage, &reference),
        known,
    }
}

fn mutated_pair(random: &mut Random, size: Size) -> Generated {
    let (mut stage, mut reference) = accepted(random, size);
    let mut changes = 1;
    while random.chance(1, 4) {
        changes += 1;
    }
    for _ in 0..changes {
        if random.chance(1, 8) {
            mutate_reference(random, &mut reference);
        } else {
            mutate_stage(random, &mut stage);
        }
    }
    if random.chance(1, 2) {
        let order = random.order(stage.gates.len());
        stage = reordered(&stage, &order);
    }
    // Sometimes the reference that the changed stage spells, if it spells one.
    if stage.inputs <= 4 && random.chance(1, 3) {
        if let Some(spelt) = spelt_reference(&stage) {
            reference = spelt;
        }
    }
    Generated {
        family: "mutated",
        pair: files_of(random, &stage, &reference),
        known: Known::Nothing,
    }
}

/// The reference that a loop-free stage of few inputs spells, if every output is
/// DATA in every word.
pub fn spelt_reference(stage: &Stage) -> Option<Reference> {
    if crate::judge::least_gate_on_a_loop(stage).is_some() {
        return None;
    }
    let rows: Vec<Vec<bool>> = (0..1 << stage.inputs)
        .map(|word| settle(stage, &rails_of_word(stage.inputs, word), None))
        .collect();
    let mut values = Vec::new();
    for &[rail_0, rail_1] in &stage.outputs {
        let data = |&word: &u64| rows[word as usize][rail_0] != rows[word as usize][rail_1];
        if !stage.words().iter().all(data) {
            return None;
        }
        values.push(rows.iter().map(|row| row[rail_1]).collect::<Vec<bool>>());
    }
    let reference = reference_of_values(stage.inputs, &values);
    let right = (0..rows.len()).all(|word| {
        answer(&reference, word as u64)
            == values.iter().map(|values| values[word]).collect::<Vec<_>>()
    });
    assert!(right, "the reference answers what the stage spells");
    (reference.gates.len() <= LIMITS.reference_gates).then_some(reference)
}

fn found_pair(
    random: &mut Random,
    size: Size,
    cared_for: fn(&mut Random, usize) -> Vec<u64>,
) -> Generated {
    let (stage, reference) = found_pairs(random, size, cared_for);
    Generated {
        family: "found pairs",
        pair: files_of(random, &stage, &reference),
        known: Known::Nothing,
    }
}

fn random_pair(random: &mut Random, size: Size) -> Generated {
    let (inputs, gates) = dimensions(random, size);
    let reference = random_reference(random, inputs, gates);
    let stage = random_stage(random, inputs, gates, reference.outputs.len());
    Generated {
        family: "random",
        pair: files_of(random, &stage, &reference),
        known: Known::Nothing,
    }
}

/// The stage of one pair with the reference of another: faults in both files, or a
/// loop with unequal counts.
fn crossed(random: &mut Random) -> Generated {
    let number = random.from_to(1, 9) as u64;
    let first = match random.below(4) {
        0 => refused_in_reading(random, number, 1),
        1 | 2 => looped(random, Size::Small),
        _ => accepted_pair(random, Size::Small),
    };
    let second = match random.below(3) {
        0 => refused_in_reading(random, number, 2),
        1 => unequal_counts(random, 11),
        _ => accepted_pair(random, Size::Small),
    };
    // A refusal in reading stands whatever the other file is, the stage's first.
    let known = match (first.known, second.known) {
        (Known::Verdict([1..=9, 1, _, _]), _) => first.known,
        (Known::Nothing, _) => Known::Nothing,
        (_, Known::Verdict([1..=9, 2, _, _])) => second.known,
        _ => Known::Nothing,
    };
    let pair = FilePair {
        stage: first.pair.stage,
        reference: second.pair.reference,
    };
    Generated {
        family: "crossed",
        pair,
        known,
    }
}

// ---------------------------------------------------------------------------
// Care lists (document 02, M-101).

fn no_list(_: &mut Random, _: usize) -> Vec<u64> {
    vec![]
}

/// A care list with at least one word.
fn some_list(random: &mut Random, inputs: usize) -> Vec<u64> {
    let words = 1 << inputs;
    let mut list: Vec<u64> = match random.below(6) {
        // All words, one, the first so many, the last so many, or some of them.
        0 => (0..words).collect(),
        1 => vec![],
        2 => (0..random.from_to(1, words as usize) as u64).collect(),
        3 => (random.below(words as usize) as u64..words).collect(),
        part => {
            let whole = if part == 4 { 2 } else { 8 };
            (0..words).filter(|_| random.chance(1, whole)).collect()
        }
    };
    if list.is_empty() {
        list.push(random.below(words as usize) as u64);
    }
    list
}

/// A generated pair whose stage is given a care list. What is known of one fault stays known.
fn with_list(random: &mut Random, generated: Generated) -> Generated {
    let Ok(stage) = read_stage(&generated.pair.stage) else {
        return generated;
    };
    let list = some_list(random, stage.inputs);
    let known = match generated.known {
        // There is no other word in which it is wrong, or its gate idle.
        Known::Verdict([13, .., word]) if !list.contains(&word) => Known::Verdict(ACCEPTED),
        Known::Verdict([15, .., word]) if !list.contains(&word) => Known::Verdict(ACCEPTED),
        Known::Verdict([14, ..]) => Known::Nothing,
        known @ Known::Verdict([0 | 10 | 11 | 12 | 13 | 15, ..]) => known,
        known @ Known::Verdict([_, 2, ..]) => known,
        _ => Known::Nothing,
    };
    let (file, _) = insert_list(random, &generated.pair.stage, &list);
    Generated {
        family: "care list",
        pair: FilePair {
            stage: file,
            ..generated.pair
        },
        known,
    }
}

/// A readable stage file with care commands in places of their own, and where each operand is.
fn insert_list(random: &mut Random, file: &[u8], list: &[u64]) -> (Vec<u8>, Vec<usize>) {
    let starts = starts_of(file);
    let mut places: Vec<usize> = list.iter().map(|_| random.pick(&starts[1..])).collect();
    if random.chance(1, 2) {
        let together = places[0];
        places.fill(together);
    }
    places.sort();
    let mut result = Vec::new();
    let mut operands = Vec::new();
    let mut next = 0;
    for (&word, &place) in list.iter().zip(&places) {
        result.extend(&file[next..place]);
        next = place;
        operands.push(result.len() + 1);
        result.extend(care_word(word));
    }
    result.extend(&file[next..]);
    (result, operands)
}

/// A stage with one fault in its care commands: 18, 19, 1, 2 or 7.
fn faulty_list(random: &mut Random) -> Generated {
    let (stage, reference) = accepted(random, Size::Small);
    let pair = files_of(random, &stage, &reference);
    let mut list = some_list(random, stage.inputs);
    let words = 1u64 << stage.inputs;
    let place = random.below(list.len());
    let mut number = random.pick(&[18, 18, 19, 19, 19, 1, 2, 7]);
    match number {
        18 => list[place] = random.pick(&[words, words, words + 1, 0x0100 * words, 0xFFFF]),
        19 => {
            // Again, or a lesser word behind a greater one.
            let word = random.pick(&list[..=place]);
            list.insert(place + 1, word);
        }
        _ => {}
    }
    let (mut file, operands) = insert_list(random, &pair.stage, &list);
    let at = match number {
        18 => operands[place],
        19 => operands[place + 1],
        1 => {
            file.truncate(operands[place] + random.below(2));
            file.len()
        }
        2 => {
            file = [care_word(list[0]), file].concat();
            0
        }
        _ => {
            file.extend(care_word(list[0]));
            number = 7;
            file.len() - 3
        }
    };
    // Whatever comes behind does not count.
    if number == 18 && random.chance(1, 3) {
        file.truncate(random.from_to(at + 2, file.len()));
    }
    Generated {
        family: "faulty care list",
        pair: FilePair {
            stage: file,
            ..pair
        },
        known: Known::Verdict([number, 1, at as u64, 0]),
    }
}

/// A care command in a reference, or care commands anywhere in any bytes.
fn misplaced_list(random: &mut Random, generated: Generated) -> Generated {
    let mut pair = generated.pair;
    let word = random.below(20) as u64;
    let file = if random.chance(1, 2) {
        &mut pair.stage
    } else {
        &mut pair.reference
    };
    let at = random.below(file.len() + 1);
    file.splice(at..at, care_word(word));
    Generated {
        family: "misplaced care word",
        pair,
        known: Known::Nothing,
    }
}

/// A stage with a gate for each word cared for and for no other.
fn only_cared_for(random: &mut Random) -> Generated {
    let inputs = random.from_to(2, 4);
    let outputs = random.from_to(1, 3);
    let values = random_values(random, inputs, outputs);
    let mut builder = StageBuilder::new(inputs);
    builder.stage.care = some_list(random, inputs);
    builder.sum_of_words(&values);
    let mut stage = builder.stage;
    let mut known = Known::Verdict(ACCEPTED);
    rewrite(random, &mut stage);
    if random.chance(1, 4) {
        stage.care.clear();
        known = Known::Nothing;
    } else if random.chance(1, 3) {
        mutate_stage(random, &mut stage);
        known = Known::Nothing;
    }
    Generated {
        family: "only words cared for",
        pair: files_of(random, &stage, &reference_of_values(inputs, &values)),
        known,
    }
}

/// All words, and then more care commands, up to a length past the 8,192 bytes that are read.
fn long_list(random: &mut Random) -> Generated {
    let inputs = random.from_to(1, 10);
    let (number, start) = random.pick(&[(18, 1 << inputs), (19, 0), (19, (1 << inputs) - 1)]);
    let mut file = vec![0x01, inputs as u8];
    for word in (0..1 << inputs).chain(start..) {
        file.extend(care_word(word));
        if file.len() >= 8_200 {
            break;
        }
    }
    let reference = random_reference(random, inputs, 2);
    Generated {
        family: "long care list",
        pair: FilePair {
            stage: file,
            reference: write_reference(&reference),
        },
        known: Known::Verdict([number, 1, 3 + (3 << inputs), 0]),
    }
}

/// Pair number `index` of a seed: of document 01's language, or with a care list.
pub fn pair_without_relaxed(seed: u64, index: u64) -> Generated {
    let generated = pair_of_document_01(seed, index);
    let random = &mut Random::new(seed ^ 0xCA4E, index);
    match random.below(100) {
        0..=14 => with_list(random, generated),
        15..=18 => only_cared_for(random),
        19 | 20 => found_pair(random, Size::Medium, some_list),
        21..=24 => faulty_list(random),
        26 if random.chance(1, 4) => long_list(random),
        25 => misplaced_list(random, generated),
        _ => generated,
    }
}

// ---------------------------------------------------------------------------
// Relaxed kinds (document 02, M-102).

/// The places of the kinds in a stage file that can be read.
fn kind_places(file: &[u8]) -> Vec<usize> {
    let starts = starts_of(file).into_iter();
    let gates = starts.filter(|&start| file[start] == 0x02);
    gates.map(|start| start + 1).collect()
}

/// A generated pair some of whose gates are relaxed: rises are judged as before.
fn with_relaxed(random: &mut Random, generated: Generated) -> Generated {
    if read_stage(&generated.pair.stage).is_err() {
        return generated;
    }
    let mut pair = generated.pair;
    let places = kind_places(&pair.stage);
    let whole = random.pick(&[1, 2, 4, places.len().max(1)]);
    let mut relaxed = false;
    for place in places {
        if random.chance(1, whole) {
            pair.stage[place] |= 128;
            relaxed = true;
        }
    }
    let known = match generated.known {
        Known::Verdict(ACCEPTED) if relaxed => Known::Nothing,
        known => known,
    };
    Generated {
        family: "relaxed",
        pair,
        known,
    }
}

/// The gates of a stage that is accepted, unless a gate never rises, are relaxed, one after the
/// other, where it still is.
fn relax(random: &mut Random, stage: &mut Stage, reference: &Reference) {
    for gate in random.order(stage.gates.len()) {
        stage.gates[gate].kind += 128;
        if !matches!(check_circuits(stage, reference)[0], 0 | 32) {
            stage.gates[gate].kind -= 128;
        }
    }
}

/// An accepted pair of few inputs all of whose gates are relaxed, one after the other, where it
/// is still accepted; and then perhaps one more.
fn relaxed_where_it_may(random: &mut Random) -> Generated {
    let (mut stage, reference) = loop {
        let size = random.pick(&[Size::Small, Size::Small, Size::Medium]);
        let circuits = accepted(random, size);
        if circuits.0.inputs <= 4 && circuits.0.gates.len() <= 24 {
            break circuits;
        }
    };
    if random.chance(1, 4) {
        stage.care = some_list(random, stage.inputs);
    }
    relax(random, &mut stage, &reference);
    let mut known = Known::Verdict(ACCEPTED);
    if !stage.gates.is_empty() && random.chance(1, 4) {
        let gate = random.below(stage.gates.len());
        stage.gates[gate].kind |= 128;
        known = Known::Nothing;
    }
    Generated {
        family: "relaxed where it may",
        pair: files_of(random, &stage, &reference),
        known,
    }
}

/// A gate of a kind next to the known ones.
fn unknown_kind(random: &mut Random, generated: Generated) -> Generated {
    if read_stage(&generated.pair.stage).is_err() || kind_places(&generated.pair.stage).is_empty() {
        return generated;
    }
    let mut pair = generated.pair;
    let at = random.pick(&kind_places(&pair.stage));
    pair.stage[at] = random.pick(&[0, 28, 127, 128, 156, 157, 255]);
    Generated {
        family: "unknown kind",
        pair,
        known: Known::Verdict([4, 1, at as u64, 0]),
    }
}

/// Pair number `index` of a seed, with any of its gates of a retired kind.
fn pair_of_all_kinds(seed: u64, index: u64) -> Generated {
    let generated = pair_without_relaxed(seed, index);
    let random = &mut Random::new(seed ^ 0x4E1A, index);
    match random.below(100) {
        0..=19 => with_relaxed(random, generated),
        20..=29 => relaxed_where_it_may(random),
        30 => unknown_kind(random, generated),
        31..=34 => never_rises(random),
        35..=38 => rises_in_one_word(random),
        _ => generated,
    }
}

// ---------------------------------------------------------------------------
// Gates that never rise (document 02, M-110).

/// What is known of a pair that passes all checks before 32.
pub fn known_with_low_gates(generated: &Generated) -> Known {
    match (generated.known, read_stage(&generated.pair.stage)) {
        (Known::Verdict(ACCEPTED), Ok(stage)) => {
            Known::Verdict(accepted_unless_a_gate_never_rises(&stage))
        }
        (known, _) => known,
    }
}

/// An accepted pair with some gates more that wait for both rails of an input: they never rise, so
/// nothing is said of them before 32. Another gate may wait for one of them beside what it has.
fn never_rises(random: &mut Random) -> Generated {
    let size = random.pick(&[Size::Small, Size::Small, Size::Medium]);
    let (mut stage, reference) = accepted(random, size);
    for _ in 0..random.from_to(1, 3) {
        let rail = 2 * random.below(stage.inputs);
        let any = random.below(stage.nets());
        let (kind, pins) = random.pick(&[
            (2, [rail, rail + 1, 0, 0]),
            (5, [rail, any, rail + 1, 0]),
            (11, [any, rail, rail + 1, any]),
            (25, [rail, rail + 1, rail + 1, rail]),
        ]);
        let low = stage.nets();
        stage.gates.push(Gate {
            kind,
            pins: pins[..pin_count(kind)].to_vec(),
        });
        // TH12 and TH13 with one pin more.
        let gate = random.below(stage.gates.len());
        let no_loop = matches!(kind, 2 | 25) && gate + 1 < stage.gates.len();
        if no_loop && matches!(stage.gates[gate].kind, 1 | 3) && random.chance(1, 2) {
            stage.gates[gate].kind = if stage.gates[gate].kind == 1 { 3 } else { 8 };
            stage.gates[gate].pins.push(low);
        }
    }
    if stage.gates.len() > LIMITS.stage_gates {
        return accepted_pair(random, Size::Small);
    }
    let order = random.order(stage.gates.len());
    let stage = reordered(&stage, &order);
    Generated {
        family: "never rises",
        pair: files_of(random, &stage, &reference),
        known: Known::Verdict(ACCEPTED),
    }
}

/// A stage with a gate for each word of a list, which rises in that word alone, and perhaps some of
/// these words taken out of the list.
fn rises_in_one_word(random: &mut Random) -> Generated {
    let inputs = random.from_to(2, 4);
    let outputs = random.from_to(1, 3);
    let values = random_values(random, inputs, outputs);
    let mut builder = StageBuilder::new(inputs);
    builder.stage.care = some_list(random, inputs);
    builder.sum_of_words(&values);
    let mut stage = builder.stage;
    if stage.care.len() > 1 {
        match random.below(4) {
            // The last word, the first one, or any one.
            0 => {
                stage.care.pop();
            }
            1 => {
                stage.care.remove(0);
            }
            2 => {
                let place = random.below(stage.care.len());
                stage.care.remove(place);
            }
            _ => {}
        }
    }
    if random.chance(1, 2) {
        rewrite(random, &mut stage);
    }
    Generated {
        family: "rises in one word",
        pair: files_of(random, &stage, &reference_of_values(inputs, &values)),
        known: Known::Verdict(ACCEPTED),
    }
}

// ---------------------------------------------------------------------------
// Retired kinds (document 02, M-108).

/// What is known of a pair of all kinds, where its stage has a gate of a retired one: that comes
/// before the sweeps.
pub fn known_with_retired(generated: &Generated) -> Known {
    let retired = read_stage(&generated.pair.stage)
        .ok()
        .and_then(|stage| least_retired_gate(&stage));
    match (generated.known, retired) {
        (Known::Verdict([0 | 13 | 14 | 15 | 20 | 21, ..]), Some(gate)) => {
            Known::Verdict([28, 1, gate as u64, 0])
        }
        (Known::Number(0 | 13 | 14 | 15), Some(_)) => Known::Number(28),
        (known, _) => known,
    }
}

/// A gate that is set in the same cases, has the same nets on its pins and holds or not as
/// this one, of another kind that is still cast.
pub(crate) fn still_cast(gate: &Gate) -> Option<Gate> {
    let nets: BTreeSet<usize> = gate.pins.iter().copied().collect();
    let nets: Vec<usize> = nets.into_iter().collect();
    let is_set = |kind: usize, pins: &[usize], high: usize| {
        let places = pins.iter().map(|net| nets.iter().position(|n| n == net));
        let levels = places.map(|place| high >> place.expect("one of them") & 1);
        let pattern = levels.enumerate().map(|(pin, level)| level << pin).sum();
        let pattern: usize = pattern;
        SET[cell(kind)][pattern]
    };
    for kind in (1..=27).filter(|&kind| !is_retired(kind)) {
        let count = pin_count(kind);
        for choice in 0..nets.len().pow(count as u32) {
            let pins: Vec<usize> = (0..count)
                .map(|pin| nets[choice / nets.len().pow(pin as u32) % nets.len()])
                .collect();
            let alike = (0..1 << nets.len())
                .all(|high| is_set(kind, &pins, high) == is_set(gate.kind, &gate.pins, high));
            if alike && nets.iter().all(|net| pins.contains(net)) {
                let kind = kind + if is_relaxed(gate.kind) { 128 } else { 0 };
                return Some(Gate { kind, pins });
            }
        }
    }
    None
}

/// Pair number `index` of a seed. Most of those that are known to have 32 are another one instead.
pub fn pair(seed: u64, index: u64) -> Generated {
    let random = &mut Random::new(seed ^ 0x1032, index);
    let mut generated = any_pair(seed, index);
    while matches!(generated.known, Known::Verdict([32, ..])) && random.chance(2, 3) {
        generated = any_pair(random.number(), index);
    }
    generated
}

/// Pair number `index` of a seed. Most gates of a retired kind are of another one instead.
fn any_pair(seed: u64, index: u64) -> Generated {
    let mut generated = pair_of_all_kinds(seed, index);
    let random = &mut Random::new(seed ^ 0x4E7D, index);
    if let Ok(stage) = read_stage(&generated.pair.stage) {
        let places = kind_places(&generated.pair.stage);
        let keep = random.chance(1, 6);
        for (gate, place) in stage.gates.iter().zip(places) {
            if is_retired(gate.kind) && !keep {
                if let Some(other) = still_cast(gate) {
                    let command = place - 1..place + 9;
                    generated.pair.stage[command].copy_from_slice(&stage_gate(&other));
                }
            }
        }
        // A gate becomes one of a retired kind; what it does then does not count.
        let places = kind_places(&generated.pair.stage);
        let fours = places.iter().zip(&stage.gates);
        let fours: Vec<usize> = fours
            .filter(|(_, gate)| gate.pins.len() == 4 && !is_retired(gate.kind))
            .map(|(&place, _)| place)
            .collect();
        let verdict = matches!(generated.known, Known::Verdict(_));
        if verdict && !fours.is_empty() && random.chance(1, 25) {
            let place = random.pick(&fours);
            generated.pair.stage[place] = random.pick(&[24, 152]);
        }
    }
    let known = known_with_retired(&generated);
    let known = known_with_low_gates(&Generated {
        known,
        ..generated.clone()
    });
    Generated { known, ..generated }
}

/// Pair number `index` of a seed, in document 01's language.
pub fn pair_of_document_01(seed: u64, index: u64) -> Generated {
    let random = &mut Random::new(seed, index);
    let size = size(random);
    match random.below(100) {
        0..=20 => accepted_pair(random, size),
        21..=23 => several_faults(random),
        24..=27 => crossed(random),
        28..=47 => mutated_pair(random, size),
        48..=53 => found_pair(random, size, no_list),
        54..=57 => random_pair(random, size),
        58..=72 => {
            let number = random.from_to(1, 9) as u64;
            let which = random.from_to(1, 2) as u64;
            refused_in_reading(random, number, which)
        }
        73..=75 => {
            let number = random.from_to(10, 11) as u64;
            unequal_counts(random, number)
        }
        76..=78 => looped(random, size),
        79..=82 => wrong_in_one_word(random, size),
        83 | 84 => unread_input(random, size),
        85 => incomplete_in_one_word(random),
        86 | 87 => idle_in_one_word(random, size),
        88..=94 => damaged(random, size),
        95..=97 => loose(random),
        98 => long(random),
        _ => at_the_limits(random),
    }
}

/// A pair number `index` of a seed for playing all its runs: readable, with equal
/// counts, small or, one in twelve, of medium size. It may have a loop.
pub fn pair_to_explore(seed: u64, index: u64) -> Generated {
    let random = &mut Random::new(seed ^ 0x5EED, index);
    let size = if random.chance(1, 12) {
        Size::Medium
    } else {
        Size::Small
    };
    let generated = match random.below(20) {
        18 => never_rises(random),
        19 => rises_in_one_word(random),
        0..=3 => accepted_pair(random, size),
        4..=6 => mutated_pair(random, size),
        7 | 8 => found_pair(random, size, no_list),
        9 => random_pair(random, size),
        10 | 11 => found_pair(random, size, some_list),
        12 => only_cared_for(random),
        13 | 14 => return relaxed_where_it_may(random),
        _ => {
            let generated = mutated_pair(random, size);
            with_list(random, generated)
        }
    };
    if random.chance(1, 3) {
        with_relaxed(random, generated)
    } else {
        generated
    }
}

/// A stage file and a row for the settled-row call.
#[derive(Clone, PartialEq, Eq, Debug)]
pub struct RowCase {
    pub stage: Vec<u8>,
    pub row: Vec<u8>,
}

/// Row case number `index` of a seed.
pub fn row_case(seed: u64, index: u64) -> RowCase {
    let stage = pair(seed, index).pair.stage;
    let random = &mut Random::new(seed ^ 0x0907, index);
    let Ok(circuit) = read_stage(&stage) else {
        let row = (0..random.below(12)).map(|_| random.byte() % 3).collect();
        return RowCase { stage, row };
    };
    let mut row = vec![0; 2 * circuit.inputs];
    for input in 0..circuit.inputs {
        match random.below(5) {
            0 => {}
            value => row[2 * input + value % 2] = 1,
        }
    }
    // Old gate bytes of any value.
    let high = random.pick(&[1, 2, 3, 256]);
    row.extend((0..circuit.gates.len()).map(|_| random.below(high) as u8));
    while random.chance(1, 4) {
        let rail = random.below(2 * circuit.inputs);
        match random.below(3) {
            0 => row[rail] = random.pick(&[2, 3, 127, 128, 254, 255]),
            1 => {
                row[rail] = 1;
                row[rail ^ 1] = 1;
            }
            _ => row[rail] = random.byte(),
        }
    }
    if random.chance(1, 6) {
        match random.below(6) {
            0 => row.clear(),
            1 => {
                row.pop();
            }
            2 => row.push(random.byte()),
            3 => row.truncate(2 * circuit.inputs),
            4 => {
                let length = random.below(400);
                row.resize(length, 0);
            }
            _ => {
                let more = random.pick(&[1, 2, 256, 65_536]);
                row.resize(row.len() + more, 1);
            }
        }
    }
    RowCase { stage, row }
}
