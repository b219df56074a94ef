//! What a drawing shows: the levels, the marks of a verdict, and which gates.

use crate::explain::{Order, DEPTH};
use crate::levels::{Levels, Odd, Row};
use crate::netlist::{relaxed, Driver, Reference, Stage};
use crate::situation::{data, once, pair_state, Situation};
use crate::wiring::Wiring;
use fovaheju::Verdict;

/// A stage with more gates is drawn around its fault only, with at most so many of them.
const MOST: usize = 40;
const NEAR: usize = 24;

/// What a verdict says of a part.
#[derive(Clone, PartialEq, Eq, Debug, Default)]
pub enum Mark {
    #[default]
    None,
    /// The fault itself, with what is said of it.
    Fault(String),
    /// It has switched without waiting, or makes a wrong level.
    Look(String),
    /// It is low in this word, so the waiting for what it reads ends here.
    End,
    /// It is still to follow.
    Late,
}

/// A stage as it is drawn.
pub struct Scene<'a> {
    pub stage: &'a Stage,
    /// Above the drawing.
    pub title: Vec<String>,
    pub row: Row,
    pub inputs: Vec<Mark>,
    pub gates: Vec<Mark>,
    pub outputs: Vec<Mark>,
    pub registers: Vec<Mark>,
    /// The nets that are still to follow.
    pub late: Vec<bool>,
    /// The gates of a loop, each reading the one before it.
    pub path: Vec<usize>,
    /// Which gates are drawn, and how many are not.
    pub shown: Vec<bool>,
    pub hidden: usize,
    /// Whether levels are shown: some net is high.
    pub levels: bool,
}

impl<'a> Scene<'a> {
    /// A readable stage with all nets low, and nothing marked.
    pub fn plain(stage: &'a Stage, title: Vec<String>) -> Scene<'a> {
        let (nets, gates) = (stage.all_nets(), stage.gates.len());
        Scene {
            stage,
            title,
            row: vec![false; nets],
            inputs: vec![Mark::None; stage.inputs],
            gates: vec![Mark::None; gates],
            outputs: vec![Mark::None; stage.outputs.len()],
            registers: vec![Mark::None; stage.registers.len()],
            late: vec![false; nets],
            path: Vec::new(),
            shown: vec![true; gates],
            hidden: 0,
            levels: false,
        }
    }

    /// The levels of all nets by those of inputs and gates: the rails of a register are wires.
    fn all_nets(&self, nets: &[bool]) -> Vec<bool> {
        (0..self.stage.all_nets()).map(|net| nets.get(self.stage.resolved(net)) == Some(&true)).collect()
    }

    /// The same with the levels that it settles to for these rails. The file and what it holds are those in which a register is two wires.
    pub fn settled(mut self, file: &[u8], plain: &Stage, values: &[Option<bool>]) -> Scene<'a> {
        if let Some(row) = Levels::new(file, plain).settled_for(values) {
            self.levels = row.contains(&true);
            self.row = self.all_nets(&row);
        }
        self
    }

    /// The same with what a verdict says of it.
    pub fn judged(mut self, verdict: Verdict, (file, plain): (&[u8], &Stage), reference: &[u8], order: Order) -> Scene<'a> {
        let at = verdict.at as usize;
        match verdict.number {
            12 => {
                self.path = self.stage.shortest_loop(at);
                for &gate in &self.path {
                    self.gates[gate] = Mark::Look("on the loop".into());
                }
                self.mark_gate(at, "reaches itself");
            }
            28 => self.stage.alike(at).into_iter().for_each(|gate| self.mark_gate(gate, "no longer cast")),
            32 => self.mark_gate(at, "never rises"),
            33..=35 if at < self.registers.len() => self.miswired(verdict.number, at),
            _ => {
                if let Some(case) = Situation::of(verdict, file, plain, order) {
                    self.in_a_word(&case, verdict, reference);
                }
            }
        }
        self
    }

    /// 33, 34 and 35: the register, and those that it has to do with.
    fn miswired(&mut self, number: u64, at: usize) {
        let wiring = Wiring::of(self.stage);
        let (others, look, says) = match number {
            33 if !wiring.ring(at).is_empty() => (wiring.ring(at), "on the ring", "reaches itself".into()),
            33 if !wiring.element_loop(at).is_empty() => (Vec::new(), "", "a loop of C-elements behind its Ki".into()),
            33 => (Vec::new(), "", "fed from unequal levels".into()),
            34 => (wiring.missing(at), "its Ko is missing", "a Ko is missing behind its Ki".into()),
            _ => {
                let barred: Vec<String> = wiring.barred(at).iter().map(|&net| self.stage.net_name(net)).collect();
                (Vec::new(), "", format!("not behind its Ki: {}", barred.join(", ")))
            }
        };
        for other in others {
            self.registers[other] = Mark::Look(look.into());
        }
        self.registers[at] = Mark::Fault(says);
    }

    fn mark_gate(&mut self, gate: usize, says: &str) {
        if let Some(mark) = self.gates.get_mut(gate) {
            *mark = Mark::Fault(says.into());
        }
    }

    fn in_a_word(&mut self, case: &Situation, verdict: Verdict, reference: &[u8]) {
        self.row = self.all_nets(&case.row);
        self.levels = true;
        match case.odd {
            None => self.wrong(case, verdict.at as usize, &Reference::of(reference)),
            Some(odd) => self.not_awaited(case, odd),
        }
    }

    /// 13: the output, and the gates that make its wrong rails.
    fn wrong(&mut self, case: &Situation, at: usize, reference: &Reference) {
        let answer = reference.answer(&case.values);
        let value = |output: usize| answer.get(output).copied().unwrap_or(false);
        for (output, &rails) in self.stage.outputs.iter().enumerate() {
            if pair_state(&self.row, rails) != data(value(output)) {
                let says = format!("should be {}", data(value(output)));
                self.outputs[output] = if output == at { Mark::Fault(says) } else { Mark::Look(says) };
            }
        }
        let mut seen = Vec::new();
        for (_, net) in case.wrong_rails(at, value(at)) {
            case.behind(net, DEPTH, &mut seen);
        }
        for gate in seen {
            self.gates[gate] = Mark::Look(String::new());
        }
    }

    /// 14, 15, 20 and 21: what is missing, what still waits for it, and who does not.
    fn not_awaited(&mut self, case: &Situation, odd: Odd) {
        let late: Vec<bool> = (0..self.stage.nets()).map(|net| case.late(net)).collect();
        self.late = self.all_nets(&late);
        for gate in (0..self.stage.gates.len()).filter(|&gate| case.late(self.stage.net_of(gate))) {
            self.gates[gate] = Mark::Late;
        }
        for end in case.ends() {
            for reader in &end.readers {
                if !reader.ahead {
                    self.gates[reader.gate] = Mark::End;
                    continue;
                }
                let how = match (case.falls, relaxed(self.stage.gates[reader.gate].kind)) {
                    (false, _) => "rose without",
                    (true, true) => "no hold: fell without",
                    (true, false) => "fell without",
                };
                self.gates[reader.gate] = Mark::Look(format!("{how} {}", self.stage.net_name(end.net)));
            }
        }
        match odd {
            Odd::Input(input) => {
                let says = if case.falls { "still DATA" } else { "still NULL" };
                if let Some(mark) = self.inputs.get_mut(input) {
                    *mark = Mark::Fault(says.into());
                }
            }
            Odd::Gate(gate) => self.mark_gate(gate, if case.falls { "still high" } else { "still low" }),
        }
    }

    /// Of a large stage what stands around the fault; all of it where that is asked for, or nothing is marked.
    pub fn near(mut self, all: bool) -> Scene<'a> {
        let marked = self.marked();
        if all || self.stage.gates.len() <= MOST || marked.is_empty() {
            return self;
        }
        // The marked gates, the way from there to an output, what they read, and the outputs with what drives both rails.
        let stage = self.stage;
        let read = |gates: &[usize]| gates.iter().flat_map(|&gate| &stage.gates[gate].pins).filter_map(|&pin| stage.driver(pin)).collect();
        let mut near = marked.clone();
        marked.iter().filter(|&&gate| matches!(self.gates[gate], Mark::Look(_))).for_each(|&gate| near.extend(self.way_out(gate)));
        let before: Vec<usize> = read(&marked);
        let ways = near.clone();
        let driven = |rails: &&[usize; 2]| rails.iter().any(|&net| stage.driver(net).is_some_and(|gate| ways.contains(&gate)));
        let rails: Vec<usize> = stage.outputs.iter().filter(driven).flatten().filter_map(|&net| stage.driver(net)).collect();
        near.extend(before);
        near.extend(&rails);
        near.extend::<Vec<usize>>(read(&rails));
        let mut near = once(&near);
        near.truncate(NEAR);
        self.shown = (0..stage.gates.len()).map(|gate| near.contains(&gate)).collect();
        self.hidden = stage.gates.len() - near.len();
        let (drawn, all) = (near.len(), stage.gates.len());
        self.title.push(format!("{drawn} of the {all} gates are drawn, those around the fault; --all draws every gate"));
        self
    }

    /// The shortest way from a gate to an output through gates of its level: how it gets there.
    fn way_out(&self, start: usize) -> Vec<usize> {
        let level = |gate: usize| self.row[self.stage.net_of(gate)];
        let mut ways = vec![vec![start]];
        let mut k = 0;
        while k < ways.len() {
            let way = ways[k].clone();
            let net = self.stage.net_of(way[way.len() - 1]);
            if self.stage.outputs.iter().flatten().any(|&rail| rail == net) {
                return way;
            }
            for gate in self.stage.readers(net) {
                if level(gate) == level(start) && !ways.iter().any(|other| other.contains(&gate)) {
                    ways.push([way.as_slice(), &[gate]].concat());
                }
            }
            k += 1;
        }
        Vec::new()
    }

    /// The gates that are marked: the fault, those to be looked at, where the waiting ends, and what is late; and those beside a marked input or output.
    fn marked(&self) -> Vec<usize> {
        let of = |wanted: fn(&Mark) -> bool| (0..self.gates.len()).filter(move |&gate| wanted(&self.gates[gate]));
        let faults = of(|mark| matches!(mark, Mark::Fault(_)));
        let looks = of(|mark| matches!(mark, Mark::Look(_)));
        let rest = of(|mark| matches!(mark, Mark::End)).chain(of(|mark| matches!(mark, Mark::Late)));
        let inputs = (0..self.inputs.len()).filter(|&input| self.inputs[input] != Mark::None);
        let beside = inputs.flat_map(|input| [2 * input, 2 * input + 1]).flat_map(|net| self.stage.readers(net));
        let outputs = (0..self.outputs.len()).filter(|&output| matches!(self.outputs[output], Mark::Fault(_)));
        let behind = outputs.flat_map(|output| self.stage.outputs[output]).filter_map(|net| self.stage.driver(net));
        once(&faults.chain(behind).chain(looks).chain(rest).chain(beside).collect::<Vec<usize>>())
    }

    /// Whether an input is drawn: something that is drawn reads it, or it is marked.
    pub fn input_shown(&self, input: usize) -> bool {
        let read = |net: usize| self.stage.readers(net).into_iter().any(|gate| self.shown[gate]);
        let out = |net: usize| self.stage.outputs.iter().flatten().any(|&rail| rail == net);
        self.hidden == 0 || self.inputs[input] != Mark::None || (2 * input..2 * input + 2).any(|net| read(net) || out(net))
    }

    /// Whether an output is drawn: a rail of it is, or it is marked.
    pub fn output_shown(&self, output: usize) -> bool {
        let rails = self.stage.outputs[output];
        self.outputs[output] != Mark::None || rails.into_iter().any(|net| self.net_shown(net))
    }

    /// Whether registers and C-elements are drawn: where all is.
    pub fn parts_shown(&self) -> bool {
        self.hidden == 0
    }

    /// Whether what drives a net is drawn.
    pub fn net_shown(&self, net: usize) -> bool {
        match self.stage.source(net) {
            Driver::Gate(gate) => self.shown[gate],
            Driver::Input(input) => self.input_shown(input),
            Driver::Nothing => false,
            _ => self.parts_shown(),
        }
    }
}
