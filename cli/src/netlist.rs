//! What the bytes of the two files say: their commands one by one, and what a readable file holds. For showing only: that a file reads, and
//! every number of a verdict, comes from the proved library. Names are those of a text where the stage came as one, and else those that a
//! written text has: input i is `xi` with the rails `xi_0` and `xi_1`, gate k is `gk`, output j is `yj`; signal k of a reference is `sk`.
//! Register k is `rk` with the rails `rk_0` and `rk_1` and the acknowledge output `rk_ko`, C-element k is `ck`.

use std::collections::VecDeque;

/// An operand that is not used.
pub const ABSENT: usize = 0xFFFF;
/// The outside at a Ki.
pub const OUTSIDE: usize = 0xFFFE;

/// Which of the two files.
#[derive(Clone, Copy, PartialEq, Eq, Debug)]
pub enum Side {
    Stage,
    Reference,
}

/// The 27 cells: name and set expression; a plus is OR, letters side by side are AND.
pub const CELLS: [(&str, &str); 27] = [
    ("TH12", "A+B"),
    ("TH22", "AB"),
    ("TH13", "A+B+C"),
    ("TH23", "AB+AC+BC"),
    ("TH33", "ABC"),
    ("TH23w2", "A+BC"),
    ("TH33w2", "AB+AC"),
    ("TH14", "A+B+C+D"),
    ("TH24", "AB+AC+AD+BC+BD+CD"),
    ("TH34", "ABC+ABD+ACD+BCD"),
    ("TH44", "ABCD"),
    ("TH24w2", "A+BC+BD+CD"),
    ("TH34w2", "AB+AC+AD+BCD"),
    ("TH44w2", "ABC+ABD+ACD"),
    ("TH34w3", "A+BCD"),
    ("TH44w3", "AB+AC+AD"),
    ("TH24w22", "A+B+CD"),
    ("TH34w22", "AB+AC+AD+BC+BD"),
    ("TH44w22", "AB+ACD+BCD"),
    ("TH54w22", "ABC+ABD"),
    ("TH34w32", "A+BC+BD"),
    ("TH54w32", "AB+ACD"),
    ("TH44w322", "AB+AC+AD+BC"),
    ("TH54w322", "AB+AC+BCD"),
    ("THxor0", "AB+CD"),
    ("THand0", "AB+BC+AD"),
    ("TH24comp", "AC+BC+AD+BD"),
];

/// The operations 1 to 6 of a reference.
pub const OPERATIONS: [&str; 6] = ["NOT", "AND", "OR", "XOR", "NAND", "NOR"];

/// The cell of a kind: 1 to 27, and 129 to 155 without hold.
fn cell(kind: u8) -> Option<(&'static str, &'static str)> {
    CELLS.get(usize::from(kind & 0x7F).checked_sub(1)?).copied()
}

/// A kind without hold.
pub fn relaxed(kind: u8) -> bool {
    kind > 128
}

/// A kind by its name, a relaxed one with a leading r.
pub fn kind_name(kind: u8) -> Option<String> {
    let mark = if relaxed(kind) { "r" } else { "" };
    Some(format!("{mark}{}", cell(kind)?.0))
}

pub fn set_expression(kind: u8) -> Option<&'static str> {
    Some(cell(kind)?.1)
}

/// The kind of a name.
pub fn kind_of(name: &str) -> Option<u8> {
    let (cell, hold) = match name.strip_prefix('r') {
        Some(cell) => (cell, 0x80),
        None => (name, 0),
    };
    let place = CELLS.iter().position(|row| row.0 == cell)?;
    Some((place as u8 + 1) | hold)
}

/// How many pins a kind has, from A on.
pub fn pin_count(kind: u8) -> Option<usize> {
    let most = cell(kind)?.1.bytes().filter(u8::is_ascii_uppercase).max()?;
    Some(usize::from(most - b'A') + 1)
}

/// An operation by its name.
pub fn operation_name(operation: u8) -> Option<&'static str> {
    OPERATIONS.get(usize::from(operation).checked_sub(1)?).copied()
}

/// The commands of the two files. A new command has a row here, and what it says in `Listing::said`.
#[derive(Clone, Copy, PartialEq, Eq, Debug)]
pub enum Form {
    Inputs,
    Gate,
    Output,
    Register,
    Element,
    Care,
    Operation,
    Signal,
    End,
}

const FORMS: [(Side, u8, usize, Form); 11] = [
    (Side::Stage, 0x01, 2, Form::Inputs),
    (Side::Stage, 0x02, 10, Form::Gate),
    (Side::Stage, 0x03, 5, Form::Output),
    (Side::Stage, 0x04, 7, Form::Register),
    (Side::Stage, 0x05, 9, Form::Element),
    (Side::Stage, 0x06, 3, Form::Care),
    (Side::Stage, 0x00, 1, Form::End),
    (Side::Reference, 0x01, 2, Form::Inputs),
    (Side::Reference, 0x11, 6, Form::Operation),
    (Side::Reference, 0x12, 3, Form::Signal),
    (Side::Reference, 0x00, 1, Form::End),
];

/// How many bytes a command of a file has.
pub fn length_of(side: Side, byte: u8) -> Option<usize> {
    FORMS.iter().find(|row| row.0 == side && row.1 == byte).map(|row| row.2)
}

/// A command where it stands: its bytes, and its form unless the byte is none of this file's or the file ends within it.
pub struct Command<'a> {
    pub at: usize,
    pub bytes: &'a [u8],
    pub form: Option<Form>,
}

impl Command<'_> {
    /// The operand of two bytes at a place of the command.
    fn operand(&self, place: usize) -> usize {
        usize::from(self.bytes[place]) | usize::from(self.bytes[place + 1]) << 8
    }
}

/// The commands of a file up to the end command, or to the first that cannot be told; then what is left over as one more.
pub fn commands(file: &[u8], side: Side) -> Vec<Command<'_>> {
    let (mut listed, mut at) = (Vec::new(), 0);
    while at < file.len() {
        let row = FORMS.iter().find(|row| row.0 == side && row.1 == file[at]);
        let known = row.filter(|row| at + row.2 <= file.len());
        let Some(&(_, _, width, form)) = known else {
            let rest = row.map_or(1, |_| file.len() - at);
            listed.push(Command { at, bytes: &file[at..at + rest], form: None });
            return listed;
        };
        listed.push(Command { at, bytes: &file[at..at + width], form: Some(form) });
        at += width;
        if form == Form::End {
            break;
        }
    }
    if at < file.len() {
        listed.push(Command { at, bytes: &file[at..], form: None });
    }
    listed
}

/// A gate of a stage, with the pins that its kind has.
#[derive(Clone, Debug)]
pub struct Gate {
    pub kind: u8,
    pub pins: Vec<usize>,
    /// The byte at which its command stands.
    pub at: usize,
}

impl Gate {
    pub fn name(&self) -> String {
        kind_name(self.kind).unwrap_or_else(|| format!("kind {}", self.kind))
    }
}

/// A register, which only the check reads: the nets at its data rails and at its Ki.
#[derive(Clone, Debug)]
pub struct Register {
    pub data: [usize; 2],
    pub ki: usize,
    /// The byte at which its command stands.
    pub at: usize,
    /// Its rail 0; rail 1 and Ko are the two nets behind it.
    pub net: usize,
}

impl Register {
    pub fn ko(&self) -> usize {
        self.net + 2
    }
}

/// A C-element, with the pins that it uses.
#[derive(Clone, Debug)]
pub struct Element {
    pub pins: Vec<usize>,
    pub at: usize,
    pub net: usize,
}

/// What drives a net.
#[derive(Clone, Copy, PartialEq, Eq, Debug)]
pub enum Driver {
    Input(usize),
    Gate(usize),
    /// A rail of a register.
    Rail(usize, usize),
    Ko(usize),
    Element(usize),
    Nothing,
}

/// The names that a text gives: those of its inputs, of its outputs, and of the nets of its gates.
#[derive(Clone, Debug, Default, PartialEq, Eq)]
pub struct Names {
    pub inputs: Vec<String>,
    pub outputs: Vec<String>,
    pub gates: Vec<String>,
}

/// What a stage file holds, as far as it can be told.
#[derive(Clone, Debug, Default)]
pub struct Stage {
    pub inputs: usize,
    pub gates: Vec<Gate>,
    pub outputs: Vec<[usize; 2]>,
    pub registers: Vec<Register>,
    pub elements: Vec<Element>,
    pub care: Vec<usize>,
    /// Where it came as text: what the text calls its parts.
    pub names: Option<Names>,
}

impl Stage {
    pub fn of(file: &[u8]) -> Stage {
        let mut stage = Stage::default();
        let listed = commands(file, Side::Stage);
        // The nets of registers and C-elements are numbered behind all gates, in the order of the file.
        let gates = listed.iter().filter(|command| command.form == Some(Form::Gate)).count();
        let inputs = listed.iter().find(|command| command.form == Some(Form::Inputs)).map_or(0, |command| usize::from(command.bytes[1]));
        let mut net = 2 * inputs + gates;
        for command in listed {
            match command.form {
                Some(Form::Inputs) => stage.inputs = command.bytes[1].into(),
                Some(Form::Register) => {
                    let [low, high, ki] = [1, 3, 5].map(|place| command.operand(place));
                    stage.registers.push(Register { data: [low, high], ki, at: command.at, net });
                    net += 3;
                }
                Some(Form::Element) => {
                    let pins = (0..4).map(|pin| command.operand(1 + 2 * pin)).filter(|&pin| pin != ABSENT).collect();
                    stage.elements.push(Element { pins, at: command.at, net });
                    net += 1;
                }
                Some(Form::Gate) => {
                    let kind = command.bytes[1];
                    let count = pin_count(kind).unwrap_or(4);
                    let pins = (0..count).map(|pin| command.operand(2 + 2 * pin)).collect();
                    stage.gates.push(Gate { kind, pins, at: command.at });
                }
                Some(Form::Output) => stage.outputs.push([command.operand(1), command.operand(3)]),
                Some(Form::Care) => stage.care.push(command.operand(1)),
                _ => {}
            }
        }
        stage
    }

    /// The stage file: inputs, care words, gates, outputs, end.
    pub fn encoded(&self) -> Vec<u8> {
        let mut file = vec![0x01, self.inputs as u8];
        self.care.iter().for_each(|&word| file.extend([0x06].into_iter().chain((word as u16).to_le_bytes())));
        self.gates.iter().for_each(|gate| file.extend(gate_command(gate.kind, &gate.pins)));
        for rails in &self.outputs {
            file.push(0x03);
            file.extend(two(*rails));
        }
        file.push(0x00);
        file
    }

    pub fn nets(&self) -> usize {
        2 * self.inputs + self.gates.len()
    }

    /// Whether it has registers or C-elements, which only the check reads.
    pub fn has_parts(&self) -> bool {
        !self.registers.is_empty() || !self.elements.is_empty()
    }

    /// How many nets there are with those of registers and C-elements.
    pub fn all_nets(&self) -> usize {
        self.nets() + 3 * self.registers.len() + self.elements.len()
    }

    /// What drives a net.
    pub fn source(&self, net: usize) -> Driver {
        let register = || self.registers.iter().position(|register| (register.net..register.net + 3).contains(&net));
        let element = || self.elements.iter().position(|element| element.net == net);
        if net < 2 * self.inputs {
            return Driver::Input(net / 2);
        }
        match (self.driver(net), register(), element()) {
            (Some(gate), _, _) => Driver::Gate(gate),
            (_, Some(k), _) if net == self.registers[k].ko() => Driver::Ko(k),
            (_, Some(k), _) => Driver::Rail(k, net - self.registers[k].net),
            (_, _, Some(k)) => Driver::Element(k),
            _ => Driver::Nothing,
        }
    }

    /// The nets that carry data: those of inputs, gates and the rails of registers.
    pub fn data_nets(&self) -> Vec<usize> {
        (0..self.nets()).chain(self.registers.iter().flat_map(|register| [register.net, register.net + 1])).collect()
    }

    /// The net that a rail of a register comes from, a register counting as two wires; any other net is its own.
    pub fn resolved(&self, mut net: usize) -> usize {
        for _ in 0..=self.registers.len() {
            match self.source(net) {
                Driver::Rail(k, rail) => net = self.registers[k].data[rail],
                _ => return net,
            }
        }
        net
    }

    /// The file of the stage in which each register is two wires: what the checks from 28 on and all runs are about.
    pub fn wired(&self) -> Vec<u8> {
        let gate = |gate: &Gate| Gate { pins: gate.pins.iter().map(|&pin| self.resolved(pin)).collect(), ..gate.clone() };
        let outputs = self.outputs.iter().map(|rails| rails.map(|net| self.resolved(net))).collect();
        let (registers, elements) = (Vec::new(), Vec::new());
        Stage { gates: self.gates.iter().map(gate).collect(), outputs, registers, elements, ..self.clone() }.encoded()
    }

    pub fn register_name(&self, register: usize) -> String {
        format!("r{register}")
    }

    pub fn element_name(&self, element: usize) -> String {
        format!("c{element}")
    }

    /// A C-element as `c1 = C(r2_ko, c0)`.
    pub fn element_text(&self, element: usize) -> String {
        let pins: Vec<String> = self.elements[element].pins.iter().map(|&pin| self.net_name(pin)).collect();
        format!("{} = C({})", self.element_name(element), pins.join(", "))
    }

    /// A register as `r0: data x0_0, x0_1, Ki r1_ko`.
    pub fn register_text(&self, register: usize) -> String {
        let Some(found) = self.registers.get(register) else { return self.register_name(register) };
        let [low, high] = found.data.map(|net| self.net_name(net));
        format!("{}: data {low}, {high}, Ki {}", self.register_name(register), self.net_name(found.ki))
    }

    /// How many registers and C-elements there are: `2 registers, 1 C-element`.
    pub fn part_counts(&self) -> String {
        let counts = [(self.registers.len(), "register"), (self.elements.len(), "C-element")];
        let said: Vec<String> = counts.iter().filter(|(count, _)| *count > 0).map(|&(count, what)| many(count, what)).collect();
        said.join(", ")
    }

    pub fn net_of(&self, gate: usize) -> usize {
        2 * self.inputs + gate
    }

    /// The gate that drives a net.
    pub fn driver(&self, net: usize) -> Option<usize> {
        net.checked_sub(2 * self.inputs).filter(|&gate| gate < self.gates.len())
    }

    /// What a text calls a part, or else its letter and number.
    fn called(&self, part: impl Fn(&Names) -> &Vec<String>, letter: char, number: usize) -> String {
        let given = self.names.as_ref().and_then(|names| part(names).get(number));
        given.cloned().unwrap_or_else(|| format!("{letter}{number}"))
    }

    pub fn input_name(&self, input: usize) -> String {
        self.called(|names| &names.inputs, 'x', input)
    }

    pub fn output_name(&self, output: usize) -> String {
        self.called(|names| &names.outputs, 'y', output)
    }

    pub fn gate_name(&self, gate: usize) -> String {
        self.called(|names| &names.gates, 'g', gate)
    }

    pub fn net_name(&self, net: usize) -> String {
        match self.source(net) {
            _ if net == ABSENT => "-".into(),
            _ if net == OUTSIDE => "the outside".into(),
            Driver::Input(input) => format!("{}_{}", self.input_name(input), net % 2),
            Driver::Gate(gate) => self.gate_name(gate),
            Driver::Rail(register, rail) => format!("{}_{rail}", self.register_name(register)),
            Driver::Ko(register) => format!("{}_ko", self.register_name(register)),
            Driver::Element(element) => self.element_name(element),
            Driver::Nothing => format!("net {net}"),
        }
    }

    /// A gate as `g3 = TH22(x0_1, g1)`.
    pub fn gate_text(&self, gate: usize) -> String {
        let Some(found) = self.gates.get(gate) else { return self.gate_name(gate) };
        let pins: Vec<String> = found.pins.iter().map(|&pin| self.net_name(pin)).collect();
        format!("{} = {}({})", self.gate_name(gate), found.name(), pins.join(", "))
    }

    /// The gates that read a net, in file order.
    pub fn readers(&self, net: usize) -> Vec<usize> {
        (0..self.gates.len()).filter(|&gate| self.gates[gate].pins.contains(&net)).collect()
    }

    /// The words that it cares for; words of files have input i as bit i.
    pub fn words(&self) -> Vec<usize> {
        if self.care.is_empty() {
            return (0..1 << self.inputs).collect();
        }
        self.care.clone()
    }

    /// How many these are: `4 words`, `2 care words`.
    pub fn word_count(&self) -> String {
        many(self.words().len(), if self.care.is_empty() { "word" } else { "care word" })
    }

    /// The value of each input in a word.
    pub fn values(&self, word: usize) -> Vec<bool> {
        (0..self.inputs).map(|input| word >> input & 1 == 1).collect()
    }

    /// The gates of the same cell as one, with hold or without.
    pub fn alike(&self, gate: usize) -> Vec<usize> {
        let cell = |k: usize| self.gates.get(k).map(|gate| gate.kind & 0x7F);
        (0..self.gates.len()).filter(|&k| cell(k) == cell(gate)).collect()
    }

    /// The gates from one to itself by the fewest steps, each reading the one before it; the last is the gate. None where it is on no loop.
    pub fn shortest_loop(&self, start: usize) -> Vec<usize> {
        let mut before = vec![None; self.gates.len()];
        let mut queue = VecDeque::from([start]);
        while let Some(gate) = queue.pop_front() {
            for reader in self.readers(self.net_of(gate)) {
                if before[reader].is_some() {
                    continue;
                }
                before[reader] = Some(gate);
                if reader == start {
                    return path_to(&before, start);
                }
                queue.push_back(reader);
            }
        }
        Vec::new()
    }

    /// The counts in words: `2 inputs, 3 gates, 1 output`.
    pub fn counts(&self) -> String {
        let relaxed = self.gates.iter().filter(|gate| relaxed(gate.kind)).count();
        let mut text = many(self.inputs, "input") + ", " + &many(self.gates.len(), "gate");
        if relaxed > 0 {
            text += &format!(" ({relaxed} relaxed)");
        }
        text += ", ";
        text += &many(self.outputs.len(), "output");
        if self.has_parts() {
            text += ", ";
            text += &self.part_counts();
        }
        if !self.care.is_empty() {
            text += ", ";
            text += &many(self.care.len(), "care word");
        }
        text
    }
}

/// The command of a gate.
pub fn gate_command(kind: u8, pins: &[usize]) -> Vec<u8> {
    let operands = (0..4).flat_map(|pin| (pins.get(pin).copied().unwrap_or(ABSENT) as u16).to_le_bytes());
    [0x02, kind].into_iter().chain(operands).collect()
}

/// Two operands as bytes.
pub fn two(nets: [usize; 2]) -> Vec<u8> {
    nets.iter().flat_map(|&net| (net as u16).to_le_bytes()).collect()
}

/// The way to a gate, by what came before each.
fn path_to(before: &[Option<usize>], start: usize) -> Vec<usize> {
    let mut path = vec![start];
    let mut gate = before[start].unwrap_or(start);
    while gate != start {
        path.push(gate);
        gate = before[gate].unwrap_or(start);
    }
    path.reverse();
    path
}

/// A gate of a reference: its operation and its operands.
#[derive(Clone, Debug)]
pub struct Operation {
    pub operation: u8,
    pub operands: [usize; 2],
}

/// What a reference file holds, as far as it can be told.
#[derive(Clone, Debug, Default)]
pub struct Reference {
    pub inputs: usize,
    pub gates: Vec<Operation>,
    pub outputs: Vec<usize>,
    /// What its inputs are called, where a names file says it.
    pub called: Vec<String>,
}

impl Reference {
    pub fn of(file: &[u8]) -> Reference {
        let mut reference = Reference::default();
        for command in commands(file, Side::Reference) {
            match command.form {
                Some(Form::Inputs) => reference.inputs = command.bytes[1].into(),
                Some(Form::Operation) => {
                    reference.gates.push(Operation { operation: command.bytes[1], operands: [command.operand(2), command.operand(4)] })
                }
                Some(Form::Signal) => reference.outputs.push(command.operand(1)),
                _ => {}
            }
        }
        reference
    }

    /// The reference file: inputs, gates, outputs, end.
    pub fn encoded(&self) -> Vec<u8> {
        let mut file = vec![0x01, self.inputs as u8];
        for gate in &self.gates {
            file.extend([0x11, gate.operation]);
            file.extend(two(gate.operands));
        }
        self.outputs.iter().for_each(|&signal| file.extend([0x12].into_iter().chain((signal as u16).to_le_bytes())));
        file.push(0x00);
        file
    }

    pub fn signal_name(&self, signal: usize) -> String {
        match signal {
            ABSENT => "-".into(),
            _ if signal < self.inputs => self.called.get(signal).cloned().unwrap_or_else(|| format!("x{signal}")),
            _ if signal < self.inputs + self.gates.len() => format!("s{signal}"),
            _ => format!("signal {signal}"),
        }
    }

    /// A signal as `s2 = AND(x0, x1)`; an input by its name alone.
    pub fn signal_text(&self, signal: usize) -> String {
        let name = self.signal_name(signal);
        let gate = signal.checked_sub(self.inputs).and_then(|k| self.gates.get(k));
        let Some(gate) = gate else { return name };
        let operation = operation_name(gate.operation).unwrap_or("?");
        let count = if gate.operation == 1 { 1 } else { 2 };
        let operands: Vec<String> = gate.operands[..count].iter().map(|&s| self.signal_name(s)).collect();
        format!("{name} = {operation}({})", operands.join(", "))
    }

    /// What the outputs answer where the inputs have these values.
    pub fn answer(&self, inputs: &[bool]) -> Vec<bool> {
        let mut values = inputs.to_vec();
        for gate in &self.gates {
            let [a, b] = gate.operands.map(|signal| values.get(signal).copied().unwrap_or(false));
            values.push(match gate.operation {
                1 => !a,
                2 => a & b,
                3 => a | b,
                4 => a ^ b,
                5 => !(a & b),
                _ => !(a | b),
            });
        }
        self.outputs.iter().map(|&signal| values.get(signal).copied().unwrap_or(false)).collect()
    }
}

/// What each command of a file says, one after the other.
pub struct Listing {
    stage: Stage,
    reference: Reference,
    gates: usize,
    outputs: usize,
    registers: usize,
    elements: usize,
}

impl Listing {
    pub fn of(file: &[u8], side: Side) -> Listing {
        let (stage, reference) = match side {
            Side::Stage => (Stage::of(file), Reference::default()),
            Side::Reference => (Stage::default(), Reference::of(file)),
        };
        Listing { stage, reference, gates: 0, outputs: 0, registers: 0, elements: 0 }
    }

    /// What the next command says.
    pub fn said(&mut self, command: &Command) -> String {
        match command.form {
            None => String::new(),
            Some(Form::End) => "end".into(),
            Some(Form::Inputs) => many(command.bytes[1].into(), "input"),
            Some(Form::Care) => format!("care word {}", command.operand(1)),
            Some(Form::Register) => {
                self.registers += 1;
                self.stage.register_text(self.registers - 1)
            }
            Some(Form::Element) => {
                self.elements += 1;
                self.stage.element_text(self.elements - 1)
            }
            Some(Form::Gate) => {
                self.gates += 1;
                self.stage.gate_text(self.gates - 1)
            }
            Some(Form::Output) => {
                self.outputs += 1;
                let [low, high] = [1, 3].map(|place| self.stage.net_name(command.operand(place)));
                format!("y{}: rail 0 is {low}, rail 1 is {high}", self.outputs - 1)
            }
            Some(Form::Operation) => {
                self.gates += 1;
                self.reference.signal_text(self.reference.inputs + self.gates - 1)
            }
            Some(Form::Signal) => {
                self.outputs += 1;
                format!("y{}: {}", self.outputs - 1, self.reference.signal_name(command.operand(1)))
            }
        }
    }
}

/// `1 gate`, `2 gates`.
pub fn many(count: usize, what: &str) -> String {
    format!("{count} {what}{}", if count == 1 { "" } else { "s" })
}
