//! How the registers and C-elements of a stage are wired, followed in what its file says: for showing 33, 34 and 35, and for changes that the library
//! then judges.

use crate::netlist::{Driver, Stage, OUTSIDE};
use std::collections::VecDeque;

/// Where the data of a register come from.
#[derive(Clone, Copy, PartialEq, Eq, PartialOrd, Ord, Debug)]
pub enum Source {
    Input(usize),
    Register(usize),
}

/// A source of a register with the gates on the way from it, the first to read it first; none where it comes straight.
#[derive(Clone, Debug)]
pub struct Fed {
    pub source: Source,
    pub gates: Vec<usize>,
}

/// A stage with registers, what feeds each of them, and their levels.
pub struct Wiring<'a> {
    pub stage: &'a Stage,
    pub fed: Vec<Vec<Fed>>,
    /// One more than the highest level that a register's data comes from. Where some register reaches itself they mean nothing.
    pub levels: Vec<usize>,
}

impl<'a> Wiring<'a> {
    pub fn of(stage: &'a Stage) -> Wiring<'a> {
        let fed: Vec<Vec<Fed>> = stage.registers.iter().map(|register| fed_by(stage, register.data)).collect();
        let mut levels = vec![0; fed.len()];
        for _ in 0..fed.len() {
            let highest = |feeding: &Vec<Fed>| feeding.iter().map(|fed| level_in(&levels, fed.source)).max();
            levels = fed.iter().map(|feeding| 1 + highest(feeding).unwrap_or(0)).collect();
        }
        Wiring { stage, fed, levels }
    }

    pub fn level(&self, source: Source) -> usize {
        level_in(&self.levels, source)
    }

    /// What feeds a register from another one.
    pub fn way(&self, from: usize, to: usize) -> Option<&Fed> {
        self.fed.get(to)?.iter().find(|fed| fed.source == Source::Register(from))
    }

    /// The registers that one reaches through gates or straight.
    pub fn reached(&self, register: usize) -> Vec<usize> {
        (0..self.fed.len()).filter(|&other| self.way(register, other).is_some()).collect()
    }

    /// The registers from one to itself by the fewest steps, each reached from the one before it; the last is the register. None where it does not
    /// reach itself.
    pub fn ring(&self, start: usize) -> Vec<usize> {
        let mut ways = VecDeque::from([vec![start]]);
        let mut seen = vec![false; self.fed.len()];
        while let Some(way) = ways.pop_front() {
            for next in self.reached(way[way.len() - 1]) {
                if next == start {
                    return way[1..].iter().copied().chain([start]).collect();
                }
                if !seen[next] {
                    seen[next] = true;
                    ways.push_back([way.as_slice(), &[next]].concat());
                }
            }
        }
        Vec::new()
    }

    /// What stands behind a net once the C-elements there are opened, and opened again: the nets of other sorts, and these C-elements.
    pub fn opened(&self, net: usize) -> (Vec<usize>, Vec<usize>) {
        let (mut nets, mut elements, mut todo) = (Vec::new(), Vec::new(), VecDeque::from([net]));
        while let Some(net) = todo.pop_front() {
            match self.stage.source(net) {
                Driver::Element(element) if !elements.contains(&element) => {
                    elements.push(element);
                    todo.extend(&self.stage.elements[element].pins);
                }
                Driver::Element(_) => {}
                _ if !nets.contains(&net) => nets.push(net),
                _ => {}
            }
        }
        (nets, elements)
    }

    /// The C-elements behind a register's Ki that lead back to themselves.
    pub fn element_loop(&self, register: usize) -> Vec<usize> {
        let (_, elements) = self.opened(self.stage.registers[register].ki);
        let again = |&element: &usize| self.stage.elements[element].pins.iter().any(|&pin| self.opened(pin).1.contains(&element));
        elements.into_iter().filter(again).collect()
    }

    /// The registers that one reaches and whose Ko does not stand behind its Ki.
    pub fn missing(&self, register: usize) -> Vec<usize> {
        let (behind, _) = self.opened(self.stage.registers[register].ki);
        self.reached(register).into_iter().filter(|&other| !behind.contains(&self.stage.registers[other].ko())).collect()
    }

    /// The nets behind a register's Ki that the rule bars.
    pub fn barred(&self, register: usize) -> Vec<usize> {
        let ki = self.stage.registers[register].ki;
        let reached = self.reached(register);
        if reached.is_empty() {
            return if ki == OUTSIDE { Vec::new() } else { vec![ki] };
        }
        let bars = |&net: &usize| match self.stage.source(net) {
            Driver::Ko(other) => !reached.contains(&other) && self.levels[other] != self.levels[register] + 1,
            _ => net != OUTSIDE,
        };
        self.opened(ki).0.into_iter().filter(bars).collect()
    }
}

fn level_in(levels: &[usize], source: Source) -> usize {
    match source {
        Source::Input(_) => 0,
        Source::Register(register) => levels[register],
    }
}

/// The inputs and registers from which some nets come, each by the fewest gates.
fn fed_by(stage: &Stage, nets: [usize; 2]) -> Vec<Fed> {
    let mut fed: Vec<Fed> = Vec::new();
    let mut seen = vec![false; stage.gates.len()];
    let mut todo: VecDeque<(usize, Vec<usize>)> = nets.into_iter().map(|net| (net, Vec::new())).collect();
    while let Some((net, gates)) = todo.pop_front() {
        let source = match stage.source(net) {
            Driver::Input(input) => Source::Input(input),
            Driver::Rail(register, _) => Source::Register(register),
            Driver::Gate(gate) => {
                if !std::mem::replace(&mut seen[gate], true) {
                    let way = [&[gate], gates.as_slice()].concat();
                    todo.extend(stage.gates[gate].pins.iter().map(|&pin| (pin, way.clone())));
                }
                continue;
            }
            _ => continue,
        };
        if fed.iter().all(|other| other.source != source) {
            fed.push(Fed { source, gates });
        }
    }
    fed.sort_by_key(|fed| fed.source);
    fed
}
