//! Pairs whose stage has registers and C-elements (document 02, M-111), made from a seed: pipelines that
//! are wired as the rule says, with one fault of a known place, with damaged wiring, and meshes of which
//! nothing is known.

use super::{
    damage, mixed, mutate_stage, put_u16_at, random_gate, random_reference, reference_file,
    some_list, Generated, Known, Random, Size,
};
use crate::files::{care_word, file_of, part_command, stage_commands, FilePair};
use crate::judge::{
    check_circuits, is_relaxed, least_gate_on_a_loop, least_retired_gate, Gate, Part, Pipeline, Reference,
    Stage, Verdict, ABSENT, MOST_ELEMENTS, MOST_REGISTERS, OUTSIDE, STAGE,
};
use std::collections::{BTreeSet, HashMap};

/// Until the parts have their places, register k drives `RAILS` + 3k and the two nets behind it, and
/// C-element k drives `ELEMENTS` + k.
const RAILS: usize = 10_000;
const ELEMENTS: usize = 20_000;

/// A stage with registers and C-elements that are not numbered yet.
#[derive(Clone)]
struct Plan {
    stage: Stage,
    /// Data rails and Ki of each register.
    registers: Vec<([usize; 2], usize)>,
    /// The level of each register by the way it was made.
    levels: Vec<usize>,
    elements: Vec<Vec<usize>>,
}

fn rail(register: usize, rail: usize) -> usize {
    RAILS + 3 * register + rail
}

fn ko(register: usize) -> usize {
    RAILS + 3 * register + 2
}

/// The gates of a stage without a loop, each behind those that feed it.
fn feeding_first(stage: &Stage) -> Vec<usize> {
    let mut done = vec![false; stage.gates.len()];
    let mut order = Vec::new();
    while order.len() < done.len() {
        for gate in 0..done.len() {
            let fed = |&net: &usize| net < 2 * stage.inputs || done[net - 2 * stage.inputs];
            if !done[gate] && stage.gates[gate].pins.iter().all(fed) {
                done[gate] = true;
                order.push(gate);
            }
        }
    }
    order
}

impl Plan {
    fn of(stage: &Stage) -> Plan {
        Plan {
            stage: stage.clone(),
            registers: Vec::new(),
            levels: Vec::new(),
            elements: Vec::new(),
        }
    }

    /// A register of a level for one net, or its second rail for another.
    fn hold(&mut self, half: &mut HashMap<usize, usize>, net: usize, level: usize) -> usize {
        if let Some(register) = half.remove(&level) {
            self.registers[register].0[1] = net;
            return rail(register, 1);
        }
        self.registers.push(([net, net], OUTSIDE));
        self.levels.push(level);
        half.insert(level, self.registers.len() - 1);
        rail(self.registers.len() - 1, 0)
    }

    /// Registers between the gates of a stage, so that the data of each come from one level.
    fn with_registers(random: &mut Random, stage: &Stage) -> Plan {
        let mut plan = Plan::of(stage);
        let later = random.pick(&[3, 6, 12, 40]);
        let pairing = random.chance(3, 4);
        // The level of each net, and the nets that repeat it at higher levels.
        let mut level = vec![0; stage.nets()];
        let mut held: HashMap<(usize, usize), usize> = HashMap::new();
        let mut half = HashMap::new();
        let mut at_level = |plan: &mut Plan, (net, from): (usize, usize), to: usize| {
            let mut here = net;
            for level in from + 1..=to {
                here = *held.entry((net, level)).or_insert_with(|| {
                    if !pairing {
                        half.clear();
                    }
                    plan.hold(&mut half, here, level)
                });
            }
            here
        };
        for gate in feeding_first(stage) {
            let pins = stage.gates[gate].pins.clone();
            let highest = pins.iter().map(|&pin| level[pin]).max().unwrap();
            let to = highest + usize::from(random.chance(1, later));
            level[stage.net_of_gate(gate)] = to;
            let pins = pins
                .iter()
                .map(|&pin| at_level(&mut plan, (pin, level[pin]), to));
            plan.stage.gates[gate].pins = pins.collect();
        }
        for output in 0..stage.outputs.len() {
            let more = random.below(3);
            let nets = stage.outputs[output];
            let highest = nets.iter().map(|&net| level[net]).max().unwrap();
            for (side, net) in nets.into_iter().enumerate() {
                // Unequal levels that meet in an output are allowed.
                let to = if random.chance(1, 8) {
                    level[net]
                } else {
                    highest + more
                };
                plan.stage.outputs[output][side] = at_level(&mut plan, (net, level[net]), to);
            }
        }
        // A register that feeds nothing.
        while random.chance(1, 6) {
            let net = random.below(stage.nets());
            let same: Vec<usize> = (0..stage.nets())
                .filter(|&n| level[n] == level[net])
                .collect();
            plan.registers.push(([net, random.pick(&same)], OUTSIDE));
            plan.levels.push(level[net] + 1);
        }
        plan
    }

    /// The registers that one's outputs reach through gates or straight, followed from its rails on.
    fn fed_by(&self, register: usize) -> BTreeSet<usize> {
        let mut nets = BTreeSet::from([rail(register, 0), rail(register, 1)]);
        loop {
            let before = nets.len();
            for (gate, pins) in self.stage.gates.iter().map(|gate| &gate.pins).enumerate() {
                if pins.iter().any(|pin| nets.contains(pin)) {
                    nets.insert(self.stage.net_of_gate(gate));
                }
            }
            if nets.len() == before {
                break;
            }
        }
        let fed = |other: &usize| {
            self.registers[*other]
                .0
                .iter()
                .any(|net| nets.contains(net))
        };
        (0..self.registers.len()).filter(fed).collect()
    }

    /// A net behind which exactly these nets stand.
    fn tree(&mut self, random: &mut Random, mut nets: Vec<usize>) -> usize {
        if random.chance(1, 4) {
            nets.push(random.pick(&nets.clone()));
        }
        while nets.len() > 1 {
            let mut next = Vec::new();
            random.shuffle(&mut nets);
            while !nets.is_empty() {
                let width = random.from_to(2, 4).min(nets.len());
                let pins = nets.split_off(nets.len() - width);
                if pins.len() == 1 {
                    next.push(pins[0]);
                    continue;
                }
                // The same C-element for the same pins.
                let known = self.elements.iter().position(|other| *other == pins);
                next.push(ELEMENTS + known.unwrap_or(self.elements.len()));
                if known.is_none() {
                    self.elements.push(pins);
                }
            }
            nets = next;
        }
        nets[0]
    }

    /// Each Ki as the rule says, some with more Ko of the next level than they need.
    fn complete(&mut self, random: &mut Random) {
        let generous = random.pick(&[0, 1, 4]);
        let mut trees: HashMap<Vec<usize>, usize> = HashMap::new();
        for register in 0..self.registers.len() {
            let mut needed = self.fed_by(register);
            if needed.is_empty() {
                continue;
            }
            for other in 0..self.registers.len() {
                if self.levels[other] == self.levels[register] + 1 && random.below(4) < generous {
                    needed.insert(other);
                }
            }
            let nets: Vec<usize> = needed.into_iter().map(ko).collect();
            let known = trees.get(&nets).copied();
            let ki = known.unwrap_or_else(|| self.tree(random, nets.clone()));
            trees.insert(nets, ki);
            self.registers[register].1 = ki;
        }
    }

    /// C-elements behind no Ki, on any nets.
    fn add_free_elements(&mut self, random: &mut Random) {
        let count = random.below(4);
        let first = self.elements.len();
        for _ in 0..count {
            let pins = (0..random.from_to(2, 4)).map(|_| match random.below(4) {
                0 => random.below(self.stage.nets()),
                1 | 2 if !self.registers.is_empty() => {
                    let register = random.below(self.registers.len());
                    RAILS + 3 * register + random.below(3)
                }
                _ => ELEMENTS + random.below(first + count),
            });
            let pins = pins.collect();
            self.elements.push(pins);
        }
    }

    fn fits(&self) -> bool {
        self.registers.len() <= MOST_REGISTERS && self.elements.len() <= MOST_ELEMENTS
    }

    /// Registers and C-elements in an order, which numbers their nets; the registers too.
    fn numbered(&self, random: &mut Random) -> Numbered {
        let mut places: Vec<usize> = (0..self.registers.len()).map(|k| RAILS + 3 * k).collect();
        places.extend((0..self.elements.len()).map(|k| ELEMENTS + k));
        if random.chance(1, 2) {
            random.shuffle(&mut places);
        }
        let mut number: HashMap<usize, usize> = HashMap::new();
        let mut nets = self.stage.nets();
        let mut register_at = vec![0; self.registers.len()];
        let mut registers = 0;
        for &place in &places {
            let width = if place < ELEMENTS { 3 } else { 1 };
            for offset in 0..width {
                number.insert(place + offset, nets);
                nets += 1;
            }
            if place < ELEMENTS {
                register_at[(place - RAILS) / 3] = registers;
                registers += 1;
            }
        }
        let numbered = |&net: &usize| number.get(&net).copied().unwrap_or(net);
        let parts = places.iter().map(|&place| {
            if place < ELEMENTS {
                let (data, ki) = self.registers[(place - RAILS) / 3];
                Part::Register {
                    data: data.map(|net| numbered(&net)),
                    ki: numbered(&ki),
                }
            } else {
                let pins = self.elements[place - ELEMENTS].iter();
                Part::Element {
                    pins: pins.map(numbered).collect(),
                }
            }
        });
        let parts = parts.collect();
        let mut raw = self.stage.clone();
        for gate in &mut raw.gates {
            gate.pins = gate.pins.iter().map(numbered).collect();
        }
        for rails in &mut raw.outputs {
            *rails = rails.map(|net| numbered(&net));
        }
        Numbered {
            pipeline: Pipeline { raw, parts },
            register_at,
        }
    }
}

/// A plan with its nets numbered, and the number that each register got.
struct Numbered {
    pipeline: Pipeline,
    register_at: Vec<usize>,
}

/// A stage file; gates, registers and C-elements, outputs and care words may be mixed.
fn pipeline_file(random: &mut Random, pipeline: &Pipeline) -> Vec<u8> {
    let (gates, outputs) = stage_commands(&pipeline.raw);
    let parts = pipeline.parts.iter().map(part_command).collect();
    let care = pipeline
        .raw
        .care
        .iter()
        .map(|&word| care_word(word))
        .collect();
    let commands = if random.chance(1, 2) {
        [gates, parts, outputs, care].concat()
    } else {
        let commands = mixed(random, gates, parts);
        let commands = mixed(random, commands, outputs);
        mixed(random, commands, care)
    };
    file_of(pipeline.raw.inputs, &commands)
}

/// A rail of an output behind a buffer and a gate that waits for the rail and the buffer.
fn slow_rail(random: &mut Random, stage: &mut Stage) {
    let output = random.below(stage.outputs.len());
    let side = random.below(2);
    let rail = stage.outputs[output][side];
    let buffer = stage.nets();
    stage.gates.push(Gate {
        kind: 1,
        pins: vec![rail, rail],
    });
    stage.gates.push(Gate {
        kind: 2,
        pins: vec![buffer, rail],
    });
    stage.outputs[output][side] = buffer + 1;
}

/// A stage without loops and its reference, mostly accepted, and what the check says of it.
fn circuits(random: &mut Random) -> (Stage, Reference, Verdict) {
    loop {
        let size = random.pick(&[Size::Small, Size::Small, Size::Medium]);
        let (mut stage, reference) = super::accepted(random, size);
        if random.chance(1, 5) {
            mutate_stage(random, &mut stage);
        }
        if random.chance(1, 6) {
            stage.care = some_list(random, stage.inputs);
        }
        // Some gates without hold; now and then behind a gate that they do not wait for.
        if random.chance(1, 6) {
            if random.chance(1, 2) {
                slow_rail(random, &mut stage);
            }
            for gate in &mut stage.gates {
                if !is_relaxed(gate.kind) && random.chance(1, 3) {
                    gate.kind += 128;
                }
            }
        }
        if stage.inputs > 5 || least_gate_on_a_loop(&stage).is_some() {
            continue;
        }
        let verdict = match least_retired_gate(&stage) {
            Some(gate) => [28, STAGE, gate as u64, 0],
            None => check_circuits(&stage, &reference),
        };
        return (stage, reference, verdict);
    }
}

/// A plan that is wired as the rule says.
fn well_wired(random: &mut Random) -> (Plan, Reference, Verdict) {
    loop {
        let (stage, reference, verdict) = circuits(random);
        let mut plan = Plan::with_registers(random, &stage);
        if plan.registers.len() > MOST_REGISTERS {
            continue;
        }
        plan.complete(random);
        plan.add_free_elements(random);
        if plan.fits() {
            return (plan, reference, verdict);
        }
    }
}

fn generated(
    random: &mut Random,
    family: &'static str,
    (pipeline, reference): (&Pipeline, &Reference),
    known: Known,
) -> Generated {
    Generated {
        family,
        pair: FilePair {
            stage: pipeline_file(random, pipeline),
            reference: reference_file(random, reference),
        },
        known,
    }
}

/// A pipeline that is wired as the rule says: its verdict is that of the stage without registers.
fn pipeline(random: &mut Random) -> Generated {
    let (plan, reference, verdict) = well_wired(random);
    let numbered = plan.numbered(random);
    let known = Known::Verdict(verdict);
    generated(random, "pipeline", (&numbered.pipeline, &reference), known)
}

/// A pipeline with one fault at a register: 33, 34 or 35 there.
fn one_fault(random: &mut Random) -> Generated {
    let (mut plan, reference, number, register) = loop {
        let (mut plan, reference, _) = well_wired(random);
        if plan.registers.is_empty() || plan.elements.len() == MOST_ELEMENTS {
            continue;
        }
        let register = random.below(plan.registers.len());
        let ki = plan.registers[register].1;
        let own = ELEMENTS + plan.elements.len();
        let fault = random.below(5);
        // The outside Ki stands at no pin.
        if ki == OUTSIDE && matches!(fault, 1 | 2 | 3) {
            continue;
        }
        let number = match fault {
            // One of its rails as its data.
            0 => {
                let side = random.below(2);
                plan.registers[register].0[side] = rail(register, random.below(2));
                33
            }
            // A C-element on its own net before the Ki.
            1 => {
                plan.elements.push(vec![ki, own]);
                plan.registers[register].1 = own;
                33
            }
            // Its own Ko, or a net that is no Ko, is in the way.
            2 => {
                let barred = [
                    ko(register),
                    rail(register, 0),
                    random.below(plan.stage.nets()),
                ];
                plan.elements.push(vec![ki, random.pick(&barred)]);
                plan.registers[register].1 = own;
                35
            }
            3 => {
                plan.registers[register].1 = OUTSIDE;
                34
            }
            // It reaches none, but has a Ki.
            _ if ki == OUTSIDE => {
                let other = random.below(plan.registers.len());
                plan.registers[register].1 = random.pick(&[ko(other), rail(other, 1), 0]);
                35
            }
            // The Ko of another register that reaches none is all that is there.
            _ => {
                plan.registers[register].1 = ko(register);
                34
            }
        };
        break (plan, reference, number, register);
    };
    if plan.elements.len() < MOST_ELEMENTS && random.chance(1, 2) {
        plan.elements.push(vec![0, 1]);
    }
    let numbered = plan.numbered(random);
    let at = numbered.register_at[register] as u64;
    let known = Known::Verdict([number, STAGE, at, 0]);
    generated(
        random,
        "one fault of wiring",
        (&numbered.pipeline, &reference),
        known,
    )
}

/// How many nets a stage as it is read has, and which of them are data.
fn nets_of(pipeline: &Pipeline) -> (Vec<usize>, Vec<usize>) {
    let mut all: Vec<usize> = (0..pipeline.raw.nets()).collect();
    let mut data = all.clone();
    for part in &pipeline.parts {
        let next = all.len();
        match part {
            Part::Register { .. } => {
                all.extend([next, next + 1, next + 2]);
                data.extend([next, next + 1]);
            }
            Part::Element { .. } => all.push(next),
        }
    }
    (data, all)
}

/// One operand of the wiring changed; the stage stays readable.
fn rewire(random: &mut Random, pipeline: &mut Pipeline) {
    let (data, all) = nets_of(pipeline);
    let kos: Vec<usize> = all
        .iter()
        .copied()
        .filter(|net| !data.contains(net))
        .collect();
    let behind = |random: &mut Random| {
        if random.chance(1, 5) || kos.is_empty() {
            random.pick(&all)
        } else {
            random.pick(&kos)
        }
    };
    if pipeline.parts.is_empty() {
        return;
    }
    let place = random.below(pipeline.parts.len());
    match &mut pipeline.parts[place] {
        Part::Register { data: rails, ki } => match random.below(5) {
            0 => rails[random.below(2)] = random.pick(&data),
            1 => rails.swap(0, 1),
            2 => *ki = OUTSIDE,
            _ => *ki = behind(random),
        },
        Part::Element { pins } => match random.below(4) {
            0 if pins.len() > 2 => {
                let pin = random.below(pins.len());
                pins.remove(pin);
            }
            1 if pins.len() < 4 => pins.push(behind(random)),
            _ => {
                let pin = random.below(pins.len());
                pins[pin] = behind(random);
            }
        },
    }
}

/// A pipeline with some operands of its wiring, or a pin of a gate, changed.
fn damaged_wiring(random: &mut Random) -> Generated {
    let (plan, reference, _) = well_wired(random);
    let mut pipeline = plan.numbered(random).pipeline;
    let (data, _) = nets_of(&pipeline);
    rewire(random, &mut pipeline);
    while random.chance(1, 3) {
        rewire(random, &mut pipeline);
    }
    if !pipeline.raw.gates.is_empty() && random.chance(1, 4) {
        let gate = random.below(pipeline.raw.gates.len());
        let pins = &mut pipeline.raw.gates[gate].pins;
        let pin = random.below(pins.len());
        pins[pin] = random.pick(&data);
    }
    generated(
        random,
        "damaged wiring",
        (&pipeline, &reference),
        Known::Nothing,
    )
}

/// Registers and C-elements on any nets. In most the data come from nets before them, and in most
/// each Ki has what is needed and perhaps more.
fn mesh(random: &mut Random) -> Generated {
    let inputs = random.from_to(1, 3);
    let mut stage = Stage {
        inputs,
        ..Stage::default()
    };
    let count = random.from_to(1, 7);
    let forward = random.chance(4, 5);
    let levelled = random.pick(&[2, 10, 10]);
    let mut levels: Vec<usize> = Vec::new();
    let mut plan = Plan::of(&stage);
    // Data nets so far with the level at which they are meant to be.
    let mut nets: Vec<(usize, usize)> = (0..2 * inputs).map(|net| (net, 0)).collect();
    let pick = |random: &mut Random, nets: &[(usize, usize)], level: Option<usize>| {
        let same: Vec<(usize, usize)> = nets
            .iter()
            .copied()
            .filter(|&(_, here)| level.is_none_or(|level| level == here))
            .collect();
        random.pick(&same)
    };
    for register in 0..count {
        if random.chance(1, 2) {
            let mut gate: Gate = random_gate(random, 1);
            let (first, level) = pick(random, &nets, None);
            let equal = random.chance(levelled - 1, levelled).then_some(level);
            for pin in &mut gate.pins {
                *pin = pick(random, &nets, equal).0;
            }
            gate.pins[0] = first;
            stage.gates.push(gate);
            nets.push((stage.nets() - 1, level));
        }
        let (first, level) = pick(random, &nets, None);
        let equal = random.chance(levelled - 1, levelled).then_some(level);
        let mut second = pick(random, &nets, equal).0;
        if !forward && random.chance(1, 4) {
            second = rail(random.below(count), random.below(2));
        }
        plan.registers.push(([first, second], OUTSIDE));
        levels.push(level + 1);
        nets.extend([
            (rail(register, 0), level + 1),
            (rail(register, 1), level + 1),
        ]);
    }
    for _ in 0..random.from_to(1, 3) {
        let (first, level) = pick(random, &nets, None);
        let second = pick(random, &nets, Some(level)).0;
        stage.outputs.push([first, second]);
    }
    plan.stage = stage;
    plan.levels = levels;
    plan.complete(random);
    plan.add_free_elements(random);
    let mut pipeline = plan.numbered(random).pipeline;
    while random.chance(2, 5) {
        rewire(random, &mut pipeline);
    }
    let outputs = pipeline.raw.outputs.len();
    let mut reference = random_reference(random, inputs, 2);
    reference.outputs.resize(outputs, 0);
    generated(random, "mesh", (&pipeline, &reference), Known::Nothing)
}

/// A pipeline with one refusal of the reader in a register or a C-element.
fn refused_part(random: &mut Random) -> Generated {
    let (mut plan, reference, _) = well_wired(random);
    if plan.elements.len() < MOST_ELEMENTS {
        plan.elements.push(vec![0, 1]);
    }
    if plan.registers.len() < MOST_REGISTERS {
        plan.registers.push(([0, 1], OUTSIDE));
    }
    let mut pipeline = plan.numbered(random).pipeline;
    let number = random.pick(&[1, 5, 6, 9, 9]);
    let is_register = random.chance(1, 2);
    if number == 6 {
        let is_sort = |part: &Part| matches!(part, Part::Register { .. }) == is_register;
        let most = if is_register {
            MOST_REGISTERS
        } else {
            MOST_ELEMENTS
        };
        let have = pipeline.parts.iter().filter(|part| is_sort(part)).count();
        let more = random.pick(&[1, 1, 2, 9]);
        for _ in have..most + more {
            pipeline.parts.push(if is_register {
                Part::Register {
                    data: [0, 1],
                    ki: OUTSIDE,
                }
            } else {
                Part::Element { pins: vec![0, 1] }
            });
        }
    }
    let (data, all) = nets_of(&pipeline);
    let mut pair = FilePair {
        stage: pipeline_file(random, &pipeline),
        reference: reference_file(random, &reference),
    };
    let file = &mut pair.stage;
    let starts = super::starts_of(file);
    let of_byte = |byte: u8| -> Vec<usize> {
        let starts = starts.iter().copied();
        starts.filter(|&start| file[start] == byte).collect()
    };
    let (registers, elements) = (of_byte(0x04), of_byte(0x05));
    let at = match number {
        1 => {
            let start = random.pick(if is_register { &registers } else { &elements });
            let width = if is_register { 7 } else { 9 };
            file.truncate(start + random.from_to(1, width - 1));
            file.len()
        }
        5 => {
            let start = random.pick(&elements);
            let at = start + random.pick(&[1, 3, 7]);
            if at == start + 7 {
                put_u16_at(file, start + 5, ABSENT);
                put_u16_at(file, at, random.pick(&[0, OUTSIDE, 0x00FF]));
            } else {
                put_u16_at(file, at, ABSENT);
            }
            at
        }
        6 => {
            let places = if is_register { &registers } else { &elements };
            places[if is_register {
                MOST_REGISTERS
            } else {
                MOST_ELEMENTS
            }]
        }
        _ => {
            let no_data: Vec<usize> = all
                .iter()
                .copied()
                .filter(|net| !data.contains(net))
                .collect();
            let absent = random.pick(&[all.len(), all.len() + 1, 0x8000, 0xFFFD]);
            if is_register {
                let start = random.pick(&registers);
                let at = start + random.pick(&[1, 3, 5]);
                let value = match random.below(4) {
                    0 => ABSENT,
                    1 if at < start + 5 => OUTSIDE,
                    2 if at < start + 5 => random.pick(&no_data),
                    _ => absent,
                };
                put_u16_at(file, at, value);
                at
            } else {
                let start = random.pick(&elements);
                let at = start + random.pick(&[1, 3]);
                put_u16_at(file, at, random.pick(&[OUTSIDE, absent]));
                at
            }
        }
    };
    Generated {
        family: "one refusal in a register or C-element",
        pair,
        known: Known::Verdict([number, STAGE, at as u64, 0]),
    }
}

/// Bytes of a pipeline damaged.
fn damaged_bytes(random: &mut Random) -> Generated {
    let mut generated = pipeline(random);
    for _ in 0..random.from_to(1, 3) {
        damage(random, &mut generated.pair.stage);
    }
    Generated {
        family: "damaged pipeline",
        known: Known::Nothing,
        ..generated
    }
}

/// Pair number `index` of a seed, with registers and C-elements.
pub fn pipeline_pair(seed: u64, index: u64) -> Generated {
    let random = &mut Random::new(seed ^ 0x4E61, index);
    match random.below(100) {
        0..=29 => pipeline(random),
        30..=44 => one_fault(random),
        45..=64 => damaged_wiring(random),
        65..=84 => mesh(random),
        85..=93 => refused_part(random),
        _ => damaged_bytes(random),
    }
}
