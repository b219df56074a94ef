//! Registers and completion (document 02, M-111) in the plainest way, from the paper alone: which
//! registers reach which, their levels, what stands behind each Ki, and the stage in which a register
//! is two wires.

use crate::judge::{drivers, Driver, Gate, Part, Pipeline, Stage, OUTSIDE};
use std::collections::BTreeSet;

/// A register: "data rail 0, data rail 1, Ki".
#[derive(Clone, Copy, PartialEq, Eq, Debug)]
pub struct Register {
    pub data: [usize; 2],
    pub ki: usize,
}

/// Where data come from: an input, or a register.
#[derive(Clone, Copy, PartialEq, Eq, PartialOrd, Ord, Debug)]
pub enum Source {
    Input(usize),
    Register(usize),
}

/// What stands behind a Ki once its C-elements are opened.
#[derive(Clone, Copy, PartialEq, Eq, PartialOrd, Ord, Debug)]
pub enum Behind {
    Outside,
    Ko(usize),
    /// An input, a gate, or a rail of a register.
    Data(usize),
}

/// A stage as it is read, its registers and its C-elements each in their own order.
pub struct Wiring<'a> {
    raw: &'a Stage,
    drivers: Vec<Driver>,
    pub registers: Vec<Register>,
    pub elements: Vec<Vec<usize>>,
    /// What each register's data come from, "through gates or straight".
    pub sources: Vec<BTreeSet<Source>>,
    /// The levels where no register reaches itself.
    pub levels: Vec<usize>,
}

fn level_of(levels: &[usize], source: &Source) -> usize {
    match source {
        Source::Input(_) => 0,
        Source::Register(register) => levels[*register],
    }
}

impl Wiring<'_> {
    pub fn of(pipeline: &Pipeline) -> Wiring<'_> {
        let (mut registers, mut elements) = (Vec::new(), Vec::new());
        for part in &pipeline.parts {
            match part {
                Part::Register { data, ki } => registers.push(Register {
                    data: *data,
                    ki: *ki,
                }),
                Part::Element { pins } => elements.push(pins.clone()),
            }
        }
        let mut wiring = Wiring {
            raw: &pipeline.raw,
            drivers: drivers(&pipeline.raw, &pipeline.parts),
            registers,
            elements,
            sources: Vec::new(),
            levels: Vec::new(),
        };
        let registers = wiring.registers.iter();
        wiring.sources = registers
            .map(|register| wiring.sources_of(register.data))
            .collect();
        wiring.levels = wiring.all_levels();
        wiring
    }

    fn sources_of(&self, nets: [usize; 2]) -> BTreeSet<Source> {
        let mut sources = BTreeSet::new();
        let mut gates = BTreeSet::new();
        let mut to_do = nets.to_vec();
        while let Some(net) = to_do.pop() {
            match self.drivers[net] {
                Driver::Input(input) => {
                    sources.insert(Source::Input(input));
                }
                Driver::Rail(register, _) => {
                    sources.insert(Source::Register(register));
                }
                Driver::Gate(gate) => {
                    if gates.insert(gate) {
                        to_do.extend(&self.raw.gates[gate].pins);
                    }
                }
                Driver::Ko(_) | Driver::Element(_) => unreachable!("9: such a net is no data"),
            }
        }
        sources
    }

    /// "Inputs have level 0; a register's level is one more than the highest level its data comes
    /// from." As many rounds as there are registers reach every one of them.
    fn all_levels(&self) -> Vec<usize> {
        let mut levels = vec![0; self.registers.len()];
        for _ in 0..self.registers.len() {
            let highest = |sources: &BTreeSet<Source>| {
                let sources = sources.iter();
                sources.map(|source| level_of(&levels, source)).max()
            };
            let next = self
                .sources
                .iter()
                .map(|sources| 1 + highest(sources).unwrap_or(0));
            levels = next.collect();
        }
        levels
    }

    /// Every register "that this one's outputs reach through gates or straight".
    pub fn reached(&self, register: usize) -> BTreeSet<usize> {
        let all = 0..self.registers.len();
        all.filter(|&other| self.sources[other].contains(&Source::Register(register)))
            .collect()
    }

    /// "A register that reaches itself, also through other registers."
    pub fn reaches_itself(&self, register: usize) -> bool {
        let mut seen = BTreeSet::new();
        let mut to_do = vec![register];
        while let Some(here) = to_do.pop() {
            for other in self.reached(here) {
                if seen.insert(other) {
                    to_do.push(other);
                }
            }
        }
        seen.contains(&register)
    }

    /// The C-elements on a net or among these nets.
    fn elements_among(&self, nets: &[usize]) -> Vec<usize> {
        let driven = nets.iter().filter_map(|&net| self.drivers.get(net));
        driven
            .filter_map(|driver| match driver {
                Driver::Element(element) => Some(*element),
                _ => None,
            })
            .collect()
    }

    /// The C-elements that stand behind these nets, further behind too.
    fn elements_behind(&self, nets: &[usize]) -> BTreeSet<usize> {
        let mut seen = BTreeSet::new();
        let mut to_do = self.elements_among(nets);
        while let Some(element) = to_do.pop() {
            if seen.insert(element) {
                to_do.extend(self.elements_among(&self.elements[element]));
            }
        }
        seen
    }

    /// "Has a C-element loop behind its Ki."
    pub fn has_element_loop(&self, register: usize) -> bool {
        let behind = self.elements_behind(&[self.registers[register].ki]);
        behind.into_iter().any(|element| {
            self.elements_behind(&self.elements[element])
                .contains(&element)
        })
    }

    /// "One fed from unequal levels."
    pub fn is_fed_unequally(&self, register: usize) -> bool {
        let sources = self.sources[register].iter();
        let levels: BTreeSet<usize> = sources
            .map(|source| level_of(&self.levels, source))
            .collect();
        levels.len() > 1
    }

    /// "The C-elements behind a Ki are opened, and opened again until only registers' Ko remain", or
    /// nets that are none. There is no loop of C-elements behind it.
    pub fn behind(&self, register: usize) -> BTreeSet<Behind> {
        let ki = self.registers[register].ki;
        if ki == OUTSIDE {
            return BTreeSet::from([Behind::Outside]);
        }
        // A net that is an element's is one already opened.
        let opened = self.elements_behind(&[ki]);
        let pins = opened.iter().flat_map(|&element| &self.elements[element]);
        let mut behind = BTreeSet::new();
        for &net in pins.chain([&ki]) {
            match self.drivers[net] {
                Driver::Ko(register) => {
                    behind.insert(Behind::Ko(register));
                }
                Driver::Element(_) => {}
                _ => {
                    behind.insert(Behind::Data(net));
                }
            }
        }
        behind
    }

    /// 34, "a needed Ko missing": "those must include every register that this one's outputs reach".
    pub fn lacks_a_ko(&self, register: usize) -> bool {
        let behind = self.behind(register);
        let mut reached = self.reached(register).into_iter();
        reached.any(|other| !behind.contains(&Behind::Ko(other)))
    }

    /// 35, "a net behind a Ki that the rule bars": "otherwise only registers of the next level. A
    /// register reaching no other takes FFFE."
    pub fn has_a_barred_net(&self, register: usize) -> bool {
        let reached = self.reached(register);
        let mut behind = self.behind(register).into_iter();
        behind.any(|net| match net {
            Behind::Outside => !reached.is_empty(),
            Behind::Data(_) => true,
            Behind::Ko(other) => {
                let next_level = self.levels[other] == self.levels[register] + 1;
                reached.is_empty() || !(reached.contains(&other) || next_level)
            }
        })
    }

    /// The first of 33, 34 and 35 with its least register. 33 has two passes: "a register that
    /// reaches itself, also through other registers, or has a C-element loop behind its Ki, or if
    /// none, one fed from unequal levels".
    pub fn refusal(&self) -> Option<(u64, usize)> {
        let least = |number: u64, refused: &dyn Fn(usize) -> bool| {
            let found = (0..self.registers.len()).find(|&register| refused(register));
            found.map(|register| (number, register))
        };
        least(33, &|r| self.reaches_itself(r) || self.has_element_loop(r))
            .or_else(|| least(33, &|r| self.is_fed_unequally(r)))
            .or_else(|| least(34, &|r| self.lacks_a_ko(r)))
            .or_else(|| least(35, &|r| self.has_a_barred_net(r)))
    }

    /// The net that a rail of a register comes from, "a register counts as two wires", and any
    /// other data net itself.
    fn resolved(&self, net: usize) -> usize {
        match self.drivers[net] {
            Driver::Rail(register, rail) => self.resolved(self.registers[register].data[rail]),
            _ => net,
        }
    }

    /// The stage in which each register is two wires.
    pub fn wired(&self) -> Stage {
        let resolved = |&net: &usize| self.resolved(net);
        let gates = self.raw.gates.iter().map(|gate| Gate {
            kind: gate.kind,
            pins: gate.pins.iter().map(resolved).collect(),
        });
        let outputs = self.raw.outputs.iter();
        Stage {
            inputs: self.raw.inputs,
            gates: gates.collect(),
            outputs: outputs
                .map(|rails| [resolved(&rails[0]), resolved(&rails[1])])
                .collect(),
            care: self.raw.care.clone(),
        }
    }
}
