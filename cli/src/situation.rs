//! The situation that a verdict speaks of: a word, the levels at its rest and where the fault shows, what is late by then, and where the
//! waiting ends. The levels are the library's.

use crate::explain::Order;
use crate::levels::{Levels, Odd, Row};
use crate::netlist::Stage;
use fovaheju::Verdict;

/// How many places where the waiting ends are looked at; the rest is only counted.
pub const PLACES: usize = 6;

/// A stage at the rest of a word, and in the row that shows the fault.
pub struct Situation<'a> {
    pub stage: &'a Stage,
    /// The value of each input in the word.
    pub values: Vec<bool>,
    pub rest: Row,
    pub row: Row,
    /// What is missing, held or kept; nothing where an output is wrong.
    pub odd: Option<Odd>,
    /// Whether it is on the way back to NULL.
    pub falls: bool,
}

/// A net where the waiting ends: it is late, and nothing that is late reads it.
pub struct End {
    pub net: usize,
    /// The gates that read it.
    pub readers: Vec<Reader>,
}

/// A gate that reads a late net and is not late.
pub struct Reader {
    pub gate: usize,
    /// It has switched without the net; else it is low in this word, whatever the net does.
    pub ahead: bool,
}

/// A gate behind a net, and how far back it stands.
pub struct Behind {
    pub gate: usize,
    pub depth: usize,
    /// It came before.
    pub again: bool,
}

/// What 32 speaks of: gates that rise in no word that the stage cares for.
pub struct Idle {
    /// The rest of each of these words.
    pub rests: Vec<Row>,
    /// The gates that are low in all of them.
    pub gates: Vec<usize>,
    /// The words that are not cared for and in which the gate that is named rises; words of files have input i as bit i.
    pub words: Vec<usize>,
}

impl Idle {
    /// None where the stage has no such gate, or its levels cannot be had.
    pub fn of(gate: usize, file: &[u8], stage: &Stage) -> Option<Idle> {
        let levels = Levels::new(file, stage);
        let cared = stage.words();
        let rests: Vec<Row> = cared.iter().map(|&word| levels.rest(&stage.values(word))).collect::<Option<_>>()?;
        let low = |gate: &usize| rests.iter().all(|rest| !rest[stage.net_of(*gate)]);
        let gates: Vec<usize> = (0..stage.gates.len()).filter(low).collect();
        let others = (0..1 << stage.inputs).filter(|word| cared.binary_search(word).is_err());
        let high = |&word: &usize| levels.rest(&stage.values(word)).is_some_and(|rest| rest[stage.net_of(gate)]);
        let words = if gates.contains(&gate) { others.filter(high).collect() } else { return None };
        Some(Idle { rests, gates, words })
    }
}

impl<'a> Situation<'a> {
    /// The situation of 13, 14, 15, 20 or 21; of other numbers there is none.
    pub fn of(verdict: Verdict, file: &[u8], stage: &'a Stage, order: Order) -> Option<Situation<'a>> {
        let (levels, at) = (Levels::new(file, stage), verdict.at as usize);
        let values = order.values(verdict.word, stage.inputs);
        let odd = match verdict.number {
            13 => None,
            14 | 20 => Some(Odd::Input(at)),
            15 | 21 => Some(Odd::Gate(at)),
            _ => return None,
        };
        let falls = matches!(verdict.number, 20 | 21);
        let rest = levels.rest(&values)?;
        let row = match odd {
            None => rest.clone(),
            Some(odd) if falls => levels.fallen(&values, odd)?,
            Some(odd) => levels.without(&values, odd)?,
        };
        Some(Situation { stage, values, rest, row, odd, falls })
    }

    /// The net that is missing, held or kept.
    pub fn odd_net(&self) -> Option<usize> {
        match self.odd? {
            Odd::Input(input) => Some(2 * input + usize::from(self.values.get(input) == Some(&true))),
            Odd::Gate(gate) => Some(self.stage.net_of(gate)),
        }
    }

    pub fn high(&self, net: usize) -> bool {
        self.row.get(net) == Some(&true)
    }

    /// Whether a net is still to follow: to rise, or on the way back to fall.
    pub fn late(&self, net: usize) -> bool {
        self.rest.get(net) == Some(&true) && self.high(net) == self.falls
    }

    /// Where the waiting ends.
    pub fn ends(&self) -> Vec<End> {
        let late_gate = |gate: &usize| self.late(self.stage.net_of(*gate));
        let mut ends = Vec::new();
        for net in (0..self.stage.nets()).filter(|&net| self.late(net)) {
            let readers = self.stage.readers(net);
            if !readers.iter().any(late_gate) {
                let reader = |gate: usize| Reader { gate, ahead: self.rest.get(self.stage.net_of(gate)) == Some(&true) };
                ends.push(End { net, readers: readers.into_iter().map(reader).collect() });
            }
        }
        ends
    }

    /// The gates that are high and read a high input rail: those from which the outputs have their DATA.
    pub fn first_gates(&self) -> Vec<usize> {
        let rails = 2 * self.stage.inputs;
        let fed = |gate: &usize| self.stage.gates[*gate].pins.iter().any(|&pin| pin < rails && self.high(pin));
        (0..self.stage.gates.len()).filter(|&gate| self.high(self.stage.net_of(gate))).filter(fed).collect()
    }

    /// The pins of a gate that make its level: those that have it too.
    pub fn makers(&self, gate: usize) -> Vec<usize> {
        let level = self.high(self.stage.net_of(gate));
        self.stage.gates[gate].pins.iter().copied().filter(|&pin| self.high(pin) == level).collect()
    }

    /// The gates behind a net that make its level, up to a depth; one that is among those seen is not followed again.
    pub fn behind(&self, net: usize, most: usize, seen: &mut Vec<usize>) -> Vec<Behind> {
        let mut listed = Vec::new();
        let mut todo = vec![(net, 0)];
        while let Some((net, depth)) = todo.pop() {
            let Some(gate) = self.stage.driver(net) else { continue };
            let again = seen.contains(&gate);
            listed.push(Behind { gate, depth, again });
            if !again {
                seen.push(gate);
                let makers = self.makers(gate).into_iter().rev().filter(|_| depth < most);
                todo.extend(makers.map(|pin| (pin, depth + 1)));
            }
        }
        listed
    }

    /// The rails of an output that are not as its value asks, each with its number.
    pub fn wrong_rails(&self, output: usize, value: bool) -> Vec<(usize, usize)> {
        let rails = self.stage.outputs.get(output).map_or(Vec::new(), |rails| rails.iter().copied().enumerate().collect());
        rails.into_iter().filter(|&(rail, net)| self.high(net) != (value == (rail == 1))).collect()
    }

    /// The gates that went ahead: those that read a late net and have switched without it, and those that the other inputs set.
    pub fn early(&self) -> Vec<usize> {
        let ahead = self.ends().into_iter().flat_map(|end| end.readers).filter(|reader| reader.ahead).map(|reader| reader.gate);
        once(&ahead.chain(self.first_gates()).collect::<Vec<usize>>())
    }

    /// The gates to look at where something is not awaited, the likeliest first.
    pub fn places(&self) -> Vec<usize> {
        let mut places = Vec::new();
        for end in self.ends().into_iter().take(PLACES) {
            if end.readers.is_empty() {
                places.extend(self.stage.driver(end.net));
            }
            places.extend(end.readers.into_iter().filter(|reader| reader.ahead).map(|reader| reader.gate));
        }
        if !self.falls {
            places.extend(self.first_gates());
            places.extend(self.stage.outputs.iter().flatten().filter(|&&net| self.high(net)).filter_map(|&net| self.stage.driver(net)));
        }
        once(&places)
    }
}

/// A list without what came before.
pub fn once(list: &[usize]) -> Vec<usize> {
    let mut kept = Vec::new();
    for item in list {
        if !kept.contains(item) {
            kept.push(*item);
        }
    }
    kept
}

/// What an output pair shows.
pub fn pair_state(row: &Row, [low, high]: [usize; 2]) -> &'static str {
    match (row.get(low) == Some(&true), row.get(high) == Some(&true)) {
        (false, false) => "NULL",
        (true, false) => "DATA0",
        (false, true) => "DATA1",
        (true, true) => "both rails high",
    }
}

/// A value as an output pair shows it.
pub fn data(value: bool) -> &'static str {
    if value {
        "DATA1"
    } else {
        "DATA0"
    }
}
