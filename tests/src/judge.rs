//! The check of document 01 in the plainest way, with what document 02 adds to it.
//!
//! Everything here follows the paper's sentences one by one and computes by
//! definition: all words are swept, a row is settled by raising low gates until
//! nothing changes, every input is left out once and every high gate is held low
//! once. Nothing is done to be fast.

use crate::wiring::Wiring;
use std::sync::LazyLock;

/// "Four decimal numbers: number, file, at, word."
pub type Verdict = [u64; 4];

/// "Acceptance is 0 0 0 0."
pub const ACCEPTED: Verdict = [0, 0, 0, 0];

/// "File is 1 for stage, 2 for reference, 3 for a lent row or buffer, 0 for none."
pub const STAGE: u64 = 1;
pub const REFERENCE: u64 = 2;
pub const ROW: u64 = 3;
pub const NONE: u64 = 0;

/// The operand that stands for an absent pin or operand.
pub const ABSENT: usize = 0xFFFF;

/// Document 02, M-111: "FFFE stands for the outside Ki."
pub const OUTSIDE: usize = 0xFFFE;

/// Name and set expression of the kinds 1 to 27, as the paper spells them.
pub const KINDS: [(&str, &str); 27] = [
    ("TH12", "A+B"),
    ("TH22", "AB"),
    ("TH13", "A+B+C"),
    ("TH23", "AB+AC+BC"),
    ("TH33", "ABC"),
    ("TH23w2", "A+BC"),
    ("TH33w2", "AB+AC"),
    ("TH14", "A+B+C+D"),
    ("TH24", "AB+AC+AD+BC+BD+CD"),
    ("TH34", "ABC+ABD+ACD+BCD"),
    ("TH44", "ABCD"),
    ("TH24w2", "A+BC+BD+CD"),
    ("TH34w2", "AB+AC+AD+BCD"),
    ("TH44w2", "ABC+ABD+ACD"),
    ("TH34w3", "A+BCD"),
    ("TH44w3", "AB+AC+AD"),
    ("TH24w22", "A+B+CD"),
    ("TH34w22", "AB+AC+AD+BC+BD"),
    ("TH44w22", "AB+ACD+BCD"),
    ("TH54w22", "ABC+ABD"),
    ("TH34w32", "A+BC+BD"),
    ("TH54w32", "AB+ACD"),
    ("TH44w322", "AB+AC+AD+BC"),
    ("TH54w322", "AB+AC+BCD"),
    ("THxor0", "AB+CD"),
    ("THand0", "AB+BC+AD"),
    ("TH24comp", "AC+BC+AD+BD"),
];

/// Document 02, M-102: "Kinds 129 to 155 are kinds 1 to 27 whose output falls as soon as the set
/// expression is false." Such a kind is relaxed; the kind of its expression is its cell.
pub fn is_relaxed(kind: usize) -> bool {
    kind > 128
}

pub fn cell(kind: usize) -> usize {
    if is_relaxed(kind) {
        kind - 128
    } else {
        kind
    }
}

/// The pins that a kind has: the letters of its set expression, from A on.
pub fn pin_count(kind: usize) -> usize {
    let expression = KINDS[cell(kind) - 1].1;
    ["A", "B", "C", "D"]
        .iter()
        .filter(|letter| expression.contains(*letter))
        .count()
}

/// "A plus is OR, letters side by side are AND."
pub fn expression_holds(expression: &str, high: [bool; 4]) -> bool {
    expression.split('+').any(|product| {
        product
            .bytes()
            .all(|letter| high[usize::from(letter - b'A')])
    })
}

/// The value of each kind's set expression for each of the 16 patterns of pins; row
/// k is kind k (there is no kind 0), bit 0 of a pattern is pin A.
pub static SET: LazyLock<[[bool; 16]; 28]> = LazyLock::new(|| {
    let mut table = [[false; 16]; 28];
    for (row, (_, expression)) in table[1..].iter_mut().zip(KINDS) {
        for (pattern, entry) in row.iter_mut().enumerate() {
            let high = [0, 1, 2, 3].map(|pin| pattern >> pin & 1 == 1);
            *entry = expression_holds(expression, high);
        }
    }
    table
});

/// A gate of a stage: its kind and the nets on the pins that its kind has.
#[derive(Clone, PartialEq, Eq, Debug)]
pub struct Gate {
    pub kind: usize,
    pub pins: Vec<usize>,
}

/// A stage that has been read. Input i has nets 2i and 2i + 1, gate k drives net
/// 2n + k, an output is its net for rail 0 and its net for rail 1.
#[derive(Clone, PartialEq, Eq, Debug, Default)]
pub struct Stage {
    pub inputs: usize,
    pub gates: Vec<Gate>,
    pub outputs: Vec<[usize; 2]>,
    /// The care list of document 02, M-101, empty where there is none.
    pub care: Vec<u64>,
}

impl Stage {
    /// The words that are cared for: "without it every word is cared for".
    pub fn words(&self) -> Vec<u64> {
        if self.care.is_empty() {
            (0..1 << self.inputs).collect()
        } else {
            self.care.clone()
        }
    }

    pub fn nets(&self) -> usize {
        2 * self.inputs + self.gates.len()
    }

    pub fn net_of_gate(&self, gate: usize) -> usize {
        2 * self.inputs + gate
    }
}

/// A register or a C-element (document 02, M-111).
#[derive(Clone, PartialEq, Eq, Debug)]
pub enum Part {
    /// "A one-bit register, three u16: data rail 0, data rail 1, Ki."
    Register { data: [usize; 2], ki: usize },
    /// "A C-element with four u16 pins, A and B used, D only if C is": the pins that are used.
    Element { pins: Vec<usize> },
}

/// A stage as it is read, with its registers and C-elements in their joint file order. "New nets
/// are numbered after the gates in file order": a register "drives three nets, rail 0, rail 1 and
/// Ko", a C-element one.
#[derive(Clone, PartialEq, Eq, Debug, Default)]
pub struct Pipeline {
    pub raw: Stage,
    pub parts: Vec<Part>,
}

/// A gate of a reference: its operation and its operands, one for NOT, else two.
#[derive(Clone, PartialEq, Eq, Debug)]
pub struct Boolean {
    pub operation: usize,
    pub operands: Vec<usize>,
}

pub const NOT: usize = 1;
pub const AND: usize = 2;
pub const OR: usize = 3;
pub const XOR: usize = 4;
pub const NAND: usize = 5;
pub const NOR: usize = 6;

/// A reference that has been read. Input i is signal i, gate k is signal n + k.
#[derive(Clone, PartialEq, Eq, Debug, Default)]
pub struct Reference {
    pub inputs: usize,
    pub gates: Vec<Boolean>,
    pub outputs: Vec<usize>,
}

impl Reference {
    pub fn signals(&self) -> usize {
        self.inputs + self.gates.len()
    }
}

/// Document 02, M-106: the order in which words are counted and named.
#[derive(Clone, Copy, PartialEq, Eq, Debug, Default)]
pub enum WordOrder {
    /// "By default ... count input 0 as the highest bit of n."
    #[default]
    Input0Highest,
    /// "A caller that compares against stored verdicts sets a mark and gets the old order": bit i
    /// is input i, as in files.
    Input0Lowest,
}

impl WordOrder {
    /// The name of a word whose bit i is input i: a number of so many digits with input 0 as the
    /// leftmost, or the word itself. The word of a name is found in the same way.
    pub fn named(self, inputs: usize, word: u64) -> u64 {
        match self {
            WordOrder::Input0Lowest => word,
            WordOrder::Input0Highest => {
                let mut name = 0;
                for input in 0..inputs {
                    name = 2 * name + (word >> input & 1);
                }
                name
            }
        }
    }
}

impl Stage {
    /// The words that are cared for, each after its name, by rising names.
    pub fn named_words(&self, order: WordOrder) -> Vec<(u64, u64)> {
        let words = self.words().into_iter();
        let mut words: Vec<(u64, u64)> = words
            .map(|word| (order.named(self.inputs, word), word))
            .collect();
        words.sort();
        words
    }
}

/// Both orders, the default first.
pub const ORDERS: [WordOrder; 2] = [WordOrder::Input0Highest, WordOrder::Input0Lowest];

/// Number and place (a byte offset) of a refusal 1 to 9, 18 or 19.
pub type Refusal = (u64, usize);

/// How many gates a file may have.
#[derive(Clone, Copy, PartialEq, Eq, Debug)]
pub struct Limits {
    pub stage_gates: usize,
    pub reference_gates: usize,
}

/// Document 02, M-105: "The reader's limits rise to 256 stage and 512 reference gates": of the
/// check, the report and the settled-row call.
pub const LIMITS: Limits = Limits {
    stage_gates: 256,
    reference_gates: 512,
};

/// "A u16 operand has its low byte first."
fn u16_at(file: &[u8], at: usize) -> usize {
    usize::from(file[at]) + 256 * usize::from(file[at + 1])
}

/// Document 02, M-111: "Only the check reads these two commands; every other call answers 2."
#[derive(Clone, Copy, PartialEq, Eq, Debug)]
pub enum Call {
    Check,
    Other,
}

/// "A 65th register or a 65th C-element" is refused by 6.
pub const MOST_REGISTERS: usize = 64;
pub const MOST_ELEMENTS: usize = 64;

/// Reads a stage file for a call other than the check, or says which refusal comes first and where.
pub fn read_stage(file: &[u8]) -> Result<Stage, Refusal> {
    read_stage_within(LIMITS, file)
}

/// The same within other limits.
pub fn read_stage_within(limits: Limits, file: &[u8]) -> Result<Stage, Refusal> {
    read_commands(Call::Other, limits, file).map(|pipeline| pipeline.raw)
}

/// Reads a stage file for the check.
pub fn read_pipeline(file: &[u8]) -> Result<Pipeline, Refusal> {
    read_commands(Call::Check, LIMITS, file)
}

/// What an operand that names a net stands for.
#[derive(Clone, Copy, PartialEq, Eq, Debug)]
enum Role {
    /// A pin of a gate, a rail of an output, a data rail of a register.
    Data,
    /// A pin of a C-element.
    Pin,
    Ki,
}

/// Reads a stage file for a call.
///
/// "Within a command the order is 2, 1, then 6, then 3 or 4, then 5 by operand.
/// At the end command: 8, 7, then 9." Of a care word: 2, 1, 18, 19.
fn read_commands(call: Call, limits: Limits, file: &[u8]) -> Result<Pipeline, Refusal> {
    let mut stage = Stage::default();
    let mut parts: Vec<Part> = Vec::new();
    let mut first = true;
    // Every operand that names a net: its place, the net and its role, in file order.
    let mut named: Vec<(usize, usize, Role)> = Vec::new();
    let mut place = 0;
    loop {
        // 1, the file ends before the end command.
        if place == file.len() {
            return Err((1, file.len()));
        }
        let command = file[place];
        // 2, a command not in this file's list.
        let operand_bytes = match command {
            0x01 => 1,
            0x02 => 1 + 4 * 2,
            0x03 => 2 * 2,
            0x04 if call == Call::Check => 3 * 2,
            0x05 if call == Call::Check => 4 * 2,
            0x06 => 2,
            0x00 => 0,
            _ => return Err((2, place)),
        };
        // 2, the first command is not 01, or 01 comes again.
        if first != (command == 0x01) {
            return Err((2, place));
        }
        first = false;
        // 1, the file ends in a command.
        if file.len() - (place + 1) < operand_bytes {
            return Err((1, file.len()));
        }
        match command {
            0x01 => {
                // 3, n is not 1 to 10.
                let n = usize::from(file[place + 1]);
                if !(1..=10).contains(&n) {
                    return Err((3, place + 1));
                }
                stage.inputs = n;
            }
            0x02 => {
                // 6, one gate too many.
                if stage.gates.len() == limits.stage_gates {
                    return Err((6, place));
                }
                // 4, the kind is unknown.
                let kind = usize::from(file[place + 1]);
                if !(1..=27).contains(&kind) && !(129..=155).contains(&kind) {
                    return Err((4, place + 1));
                }
                // 5, a pin that the kind has holds FFFF, or one it lacks does not.
                let mut pins = Vec::new();
                let count = pin_count(kind);
                for pin in 0..4 {
                    let at = place + 2 + 2 * pin;
                    let net = u16_at(file, at);
                    let needed = pin < count;
                    if needed && net == ABSENT || !needed && net != ABSENT {
                        return Err((5, at));
                    }
                    if needed {
                        pins.push(net);
                        named.push((at, net, Role::Data));
                    }
                }
                stage.gates.push(Gate { kind, pins });
            }
            0x03 => {
                // 6, one output too many: a stage has at most 16.
                if stage.outputs.len() == 16 {
                    return Err((6, place));
                }
                let rails = [u16_at(file, place + 1), u16_at(file, place + 3)];
                named.push((place + 1, rails[0], Role::Data));
                named.push((place + 3, rails[1], Role::Data));
                stage.outputs.push(rails);
            }
            0x04 => {
                // 6, a 65th register.
                let is_register = |part: &&Part| matches!(part, Part::Register { .. });
                if parts.iter().filter(is_register).count() == MOST_REGISTERS {
                    return Err((6, place));
                }
                let data = [u16_at(file, place + 1), u16_at(file, place + 3)];
                let ki = u16_at(file, place + 5);
                named.push((place + 1, data[0], Role::Data));
                named.push((place + 3, data[1], Role::Data));
                named.push((place + 5, ki, Role::Ki));
                parts.push(Part::Register { data, ki });
            }
            0x05 => {
                // 6, a 65th C-element.
                let is_element = |part: &&Part| matches!(part, Part::Element { .. });
                if parts.iter().filter(is_element).count() == MOST_ELEMENTS {
                    return Err((6, place));
                }
                let operands = [1, 3, 5, 7].map(|offset| u16_at(file, place + offset));
                // "A and B used, D only if C is, unused ones FFFF, else 5 at the first of A, B, D
                // that breaks this."
                let [a, b, c, d] = operands.map(|operand| operand != ABSENT);
                for (pin, keeps) in [(0, a), (1, b), (3, c || !d)] {
                    if !keeps {
                        return Err((5, place + 1 + 2 * pin));
                    }
                }
                let mut pins = Vec::new();
                for (pin, &net) in operands.iter().enumerate() {
                    if net != ABSENT {
                        pins.push(net);
                        named.push((place + 1 + 2 * pin, net, Role::Pin));
                    }
                }
                parts.push(Part::Element { pins });
            }
            0x06 => {
                // 18, a care word not below 2 to the power n.
                let word = u16_at(file, place + 1) as u64;
                if word >= 1 << stage.inputs {
                    return Err((18, place + 1));
                }
                // 19, a care word not above the one before.
                if stage.care.last().is_some_and(|&before| word <= before) {
                    return Err((19, place + 1));
                }
                stage.care.push(word);
            }
            _ => {
                // 8, no output.
                if stage.outputs.is_empty() {
                    return Err((8, place));
                }
                // 7, bytes after end.
                if place + 1 < file.len() {
                    return Err((7, place + 1));
                }
                // 9, a net that is absent, or "Ko and C-element nets anywhere but at a Ki or a
                // C-element's pin, FFFE anywhere but at a Ki, or FFFF in a register", at the first
                // such operand.
                let drivers = drivers(&stage, &parts);
                for (at, net, role) in named {
                    let may_stand = match drivers.get(net) {
                        Some(Driver::Ko(_) | Driver::Element(_)) => role != Role::Data,
                        Some(_) => true,
                        None => net == OUTSIDE && role == Role::Ki,
                    };
                    if !may_stand {
                        return Err((9, at));
                    }
                }
                return Ok(Pipeline { raw: stage, parts });
            }
        }
        place += 1 + operand_bytes;
    }
}

/// What drives a net of a stage as it is read. Registers and C-elements are each counted by
/// themselves.
#[derive(Clone, Copy, PartialEq, Eq, Debug)]
pub enum Driver {
    Input(usize),
    Gate(usize),
    Rail(usize, usize),
    Ko(usize),
    Element(usize),
}

/// What drives each net, in the order of the nets.
pub fn drivers(raw: &Stage, parts: &[Part]) -> Vec<Driver> {
    let mut list = Vec::new();
    for rail in 0..2 * raw.inputs {
        list.push(Driver::Input(rail / 2));
    }
    for gate in 0..raw.gates.len() {
        list.push(Driver::Gate(gate));
    }
    let (mut registers, mut elements) = (0, 0);
    for part in parts {
        match part {
            Part::Register { .. } => {
                list.push(Driver::Rail(registers, 0));
                list.push(Driver::Rail(registers, 1));
                list.push(Driver::Ko(registers));
                registers += 1;
            }
            Part::Element { .. } => {
                list.push(Driver::Element(elements));
                elements += 1;
            }
        }
    }
    list
}

/// Reads a reference file, or says which refusal comes first and where.
pub fn read_reference(file: &[u8]) -> Result<Reference, Refusal> {
    read_reference_within(LIMITS, file)
}

/// The same within other limits.
pub fn read_reference_within(limits: Limits, file: &[u8]) -> Result<Reference, Refusal> {
    let mut reference = Reference::default();
    let mut first = true;
    // Every operand that names a signal, in file order: its place, the signal
    // and, in a gate, that gate's number.
    let mut named: Vec<(usize, usize, Option<usize>)> = Vec::new();
    let mut place = 0;
    loop {
        // 1, the file ends before the end command.
        if place == file.len() {
            return Err((1, file.len()));
        }
        let command = file[place];
        // 2, a command not in this file's list.
        let operand_bytes = match command {
            0x01 => 1,
            0x11 => 1 + 2 * 2,
            0x12 => 2,
            0x00 => 0,
            _ => return Err((2, place)),
        };
        // 2, the first command is not 01, or 01 comes again.
        if first != (command == 0x01) {
            return Err((2, place));
        }
        first = false;
        // 1, the file ends in a command.
        if file.len() - (place + 1) < operand_bytes {
            return Err((1, file.len()));
        }
        match command {
            0x01 => {
                // 3, n is not 1 to 10.
                let n = usize::from(file[place + 1]);
                if !(1..=10).contains(&n) {
                    return Err((3, place + 1));
                }
                reference.inputs = n;
            }
            0x11 => {
                // 6, one gate too many.
                if reference.gates.len() == limits.reference_gates {
                    return Err((6, place));
                }
                // 4, the operation is unknown.
                let operation = usize::from(file[place + 1]);
                if !(NOT..=NOR).contains(&operation) {
                    return Err((4, place + 1));
                }
                // 5, "NOT has FFFF as its second operand"; no other operand has.
                let mut operands = Vec::new();
                for operand in 0..2 {
                    let at = place + 2 + 2 * operand;
                    let signal = u16_at(file, at);
                    let needed = operand == 0 || operation != NOT;
                    if needed && signal == ABSENT || !needed && signal != ABSENT {
                        return Err((5, at));
                    }
                    if needed {
                        operands.push(signal);
                        named.push((at, signal, Some(reference.gates.len())));
                    }
                }
                reference.gates.push(Boolean {
                    operation,
                    operands,
                });
            }
            0x12 => {
                // 6, one output too many: a reference has at most 16.
                if reference.outputs.len() == 16 {
                    return Err((6, place));
                }
                let signal = u16_at(file, place + 1);
                named.push((place + 1, signal, None));
                reference.outputs.push(signal);
            }
            _ => {
                // 8, no output.
                if reference.outputs.is_empty() {
                    return Err((8, place));
                }
                // 7, bytes after end.
                if place + 1 < file.len() {
                    return Err((7, place + 1));
                }
                // 9, a signal that is absent, or in a gate not earlier. Signals
                // before gate k are those below n + k.
                for (at, signal, gate) in named {
                    let bound = match gate {
                        Some(gate) => reference.inputs + gate,
                        None => reference.signals(),
                    };
                    if signal >= bound {
                        return Err((9, at));
                    }
                }
                return Ok(reference);
            }
        }
        place += 1 + operand_bytes;
    }
}

/// Whether the set expression of a gate holds in a row.
pub fn set_expression_holds(gate: &Gate, row: &[bool]) -> bool {
    let mut pattern = 0;
    let mut pin = 0;
    while pin < gate.pins.len() {
        if row[gate.pins[pin]] {
            pattern |= 1 << pin;
        }
        pin += 1;
    }
    SET[cell(gate.kind)][pattern]
}

/// 12: the least gate that reaches itself through pins. "12 follows gates only": a pin on a
/// register's rail leads no further.
pub fn least_gate_on_a_loop(stage: &Stage) -> Option<usize> {
    (0..stage.gates.len()).find(|&gate| {
        // All gates that this one reaches through one pin or more.
        let mut reached = vec![false; stage.gates.len()];
        let mut to_do = vec![gate];
        while let Some(here) = to_do.pop() {
            for &net in &stage.gates[here].pins {
                let is_gate = (2 * stage.inputs..stage.nets()).contains(&net);
                if is_gate && !reached[net - 2 * stage.inputs] {
                    reached[net - 2 * stage.inputs] = true;
                    to_do.push(net - 2 * stage.inputs);
                }
            }
        }
        reached[gate]
    })
}

/// Document 02, M-108: "Kind 24 and its relaxed form 152 are no longer cast."
pub fn is_retired(kind: usize) -> bool {
    kind == 24 || kind == 152
}

/// 28: the least gate of a retired kind.
pub fn least_retired_gate(stage: &Stage) -> Option<usize> {
    (0..stage.gates.len()).find(|&gate| is_retired(stage.gates[gate].kind))
}

/// "Settled for given rails: each gate is high exactly if its set expression
/// holds. Settled with g held low: the same, except that gate g is low."
///
/// From all gates low, low gates are raised until nothing changes, going over the
/// gates in file order, then back, and so on. In a loop-free stage this gives the
/// one settled row.
pub fn settle(stage: &Stage, rails: &[bool], held_low: Option<usize>) -> Vec<bool> {
    let mut row = rails.to_vec();
    row.resize(stage.nets(), false);
    let mut order: Vec<usize> = (0..stage.gates.len()).collect();
    loop {
        let mut changed = false;
        for &k in &order {
            let net = stage.net_of_gate(k);
            if !row[net] && held_low != Some(k) && set_expression_holds(&stage.gates[k], &row) {
                row[net] = true;
                changed = true;
            }
        }
        if !changed {
            return row;
        }
        order.reverse();
    }
}

/// Whether a high gate may fall: "exactly if all the pins its kind has are low", and a relaxed
/// one exactly if its set expression is false.
pub fn may_fall(gate: &Gate, row: &[bool]) -> bool {
    if is_relaxed(gate.kind) {
        !set_expression_holds(gate, row)
    } else {
        gate.pins.iter().all(|&net| !row[net])
    }
}

/// "All inputs fallen but i, every gate settled by the fall rule", from the rest of a word; or
/// all inputs fallen, and a gate held high.
pub fn settle_fall(
    stage: &Stage,
    rest: &[bool],
    input_kept: Option<usize>,
    held_high: Option<usize>,
) -> Vec<bool> {
    let mut row = rest.to_vec();
    for input in 0..stage.inputs {
        if input_kept != Some(input) {
            row[2 * input] = false;
            row[2 * input + 1] = false;
        }
    }
    loop {
        let mut changed = false;
        for (k, gate) in stage.gates.iter().enumerate() {
            let net = stage.net_of_gate(k);
            if row[net] && held_high != Some(k) && may_fall(gate, &row) {
                row[net] = false;
                changed = true;
            }
        }
        if !changed {
            return row;
        }
    }
}

/// Whether a row is settled, by the words of the definition.
pub fn is_settled(stage: &Stage, row: &[bool], held_low: Option<usize>) -> bool {
    stage.gates.iter().enumerate().all(|(k, gate)| {
        let high = row[stage.net_of_gate(k)];
        if held_low == Some(k) {
            !high
        } else {
            high == set_expression_holds(gate, row)
        }
    })
}

/// The rails that a word calls for: "bit i is input i".
pub fn rails_of_word(inputs: usize, word: u64) -> Vec<bool> {
    let mut rails = Vec::new();
    for input in 0..inputs {
        let bit = word >> input & 1;
        rails.push(bit == 0);
        rails.push(bit == 1);
    }
    rails
}

/// "A pair is NULL (both rails low), DATA0 (only rail 0 high) or DATA1 (only rail
/// 1 high)." A pair with both rails high is none of these.
#[derive(Clone, Copy, PartialEq, Eq, Debug)]
pub enum PairState {
    Null,
    Data(bool),
    BothHigh,
}

pub fn pair_state(rail_0: bool, rail_1: bool) -> PairState {
    match (rail_0, rail_1) {
        (false, false) => PairState::Null,
        (true, false) => PairState::Data(false),
        (false, true) => PairState::Data(true),
        (true, true) => PairState::BothHigh,
    }
}

fn output_state(stage: &Stage, row: &[bool], output: usize) -> PairState {
    let [rail_0, rail_1] = stage.outputs[output];
    pair_state(row[rail_0], row[rail_1])
}

fn all_outputs_data(stage: &Stage, row: &[bool]) -> bool {
    (0..stage.outputs.len())
        .all(|output| matches!(output_state(stage, row, output), PairState::Data(_)))
}

fn all_outputs_null(stage: &Stage, row: &[bool]) -> bool {
    (0..stage.outputs.len()).all(|output| output_state(stage, row, output) == PairState::Null)
}

/// "Signal i is bit i of w, each gate's signal is its operation on its operands'
/// values, in file order, and output j answers its signal's value."
pub fn answer(reference: &Reference, word: u64) -> Vec<bool> {
    let mut signals: Vec<bool> = (0..reference.inputs).map(|i| word >> i & 1 == 1).collect();
    for gate in &reference.gates {
        let first = signals[gate.operands[0]];
        let value = match gate.operation {
            NOT => !first,
            AND => first & signals[gate.operands[1]],
            OR => first | signals[gate.operands[1]],
            XOR => first ^ signals[gate.operands[1]],
            NAND => !(first & signals[gate.operands[1]]),
            NOR => !(first | signals[gate.operands[1]]),
            _ => unreachable!("the reader knows no other operation"),
        };
        signals.push(value);
    }
    reference
        .outputs
        .iter()
        .map(|&signal| signals[signal])
        .collect()
}

/// The check of a stage file against a reference file, for a caller that sets the mark of M-106.
pub fn check(stage_file: &[u8], reference_file: &[u8]) -> Verdict {
    check_pipeline(WordOrder::Input0Lowest, stage_file, reference_file)
}

/// The same of files without registers, within other limits.
pub fn check_within(limits: Limits, stage_file: &[u8], reference_file: &[u8]) -> Verdict {
    check_in_order(WordOrder::Input0Lowest, limits, stage_file, reference_file)
}

/// The check in either order of words, within any limits, of files without registers: of a part
/// of a join, and for the report.
pub fn check_in_order(
    order: WordOrder,
    limits: Limits,
    stage_file: &[u8],
    reference_file: &[u8],
) -> Verdict {
    check_for(Call::Other, order, limits, stage_file, reference_file)
}

/// The check, which reads registers and C-elements too, in either order of words.
pub fn check_pipeline(order: WordOrder, stage_file: &[u8], reference_file: &[u8]) -> Verdict {
    check_for(Call::Check, order, LIMITS, stage_file, reference_file)
}

/// "The stage is read first, then the reference, then 10 to 15 follow in order. A
/// word or index named is the least: least word, then least index."
fn check_for(
    call: Call,
    order: WordOrder,
    limits: Limits,
    stage_file: &[u8],
    reference_file: &[u8],
) -> Verdict {
    let pipeline = match read_commands(call, limits, stage_file) {
        Ok(pipeline) => pipeline,
        Err((number, at)) => return [number, STAGE, at as u64, 0],
    };
    let stage = &pipeline.raw;
    let reference = match read_reference_within(limits, reference_file) {
        Ok(reference) => reference,
        Err((number, at)) => return [number, REFERENCE, at as u64, 0],
    };
    if stage.inputs != reference.inputs {
        return [10, NONE, stage.inputs as u64, reference.inputs as u64];
    }
    if stage.outputs.len() != reference.outputs.len() {
        return [
            11,
            NONE,
            stage.outputs.len() as u64,
            reference.outputs.len() as u64,
        ];
    }
    if let Some(gate) = least_gate_on_a_loop(stage) {
        return [12, STAGE, gate as u64, 0];
    }
    // 33, 34 and 35, "`at` the least register, in this order between 12 and 28".
    let wiring = Wiring::of(&pipeline);
    if let Some((number, register)) = wiring.refusal() {
        return [number, STAGE, register as u64, 0];
    }
    // "From 13 on, and in all said of runs, a register counts as two wires."
    let stage = wiring.wired();
    // 28, "a retired kind, between 12 and 13".
    if let Some(gate) = least_retired_gate(&stage) {
        return [28, STAGE, gate as u64, 0];
    }
    check_circuits_in_order(order, &stage, &reference)
}

/// 32, document 02, M-110: "least gate that rises in no care word". A gate rises in a word where it
/// is high at the rest.
pub fn least_gate_that_never_rises(stage: &Stage) -> Option<usize> {
    let mut rises = vec![false; stage.gates.len()];
    for word in stage.words() {
        let rest = settle(stage, &rails_of_word(stage.inputs, word), None);
        for (gate, rises) in rises.iter_mut().enumerate() {
            *rises |= rest[stage.net_of_gate(gate)];
        }
    }
    rises.iter().position(|&rises| !rises)
}

/// "Their acceptance reads 'unless a gate never rises'": what the check answers to a stage that
/// passes all checks before 32.
pub fn accepted_unless_a_gate_never_rises(stage: &Stage) -> Verdict {
    match least_gate_that_never_rises(stage) {
        Some(gate) => [32, STAGE, gate as u64, 0],
        None => ACCEPTED,
    }
}

/// The checks 13 to 15, 20, 21 and 32 of a loop-free stage against a reference with as many
/// inputs and outputs: they "cover care words only".
pub fn check_circuits(stage: &Stage, reference: &Reference) -> Verdict {
    check_circuits_in_order(WordOrder::Input0Lowest, stage, reference)
}

/// The same in either order of words. A verdict has the word's name.
pub fn check_circuits_in_order(order: WordOrder, stage: &Stage, reference: &Reference) -> Verdict {
    let words = stage.named_words(order);

    // 13: "settled output pair is not the reference's DATA".
    for &(name, word) in &words {
        let row = settle(stage, &rails_of_word(stage.inputs, word), None);
        let values = answer(reference, word);
        for (output, &value) in values.iter().enumerate() {
            if output_state(stage, &row, output) != PairState::Data(value) {
                return [13, STAGE, output as u64, name];
            }
        }
    }

    // 14: "with w given and input i NULL, all settled outputs are DATA".
    for &(name, word) in &words {
        for input in 0..stage.inputs {
            let mut rails = rails_of_word(stage.inputs, word);
            rails[2 * input] = false;
            rails[2 * input + 1] = false;
            let row = settle(stage, &rails, None);
            if all_outputs_data(stage, &row) {
                return [14, STAGE, input as u64, name];
            }
        }
    }

    // 15: "a gate high in w; settled with it held low, all outputs still DATA".
    for &(name, word) in &words {
        let rails = rails_of_word(stage.inputs, word);
        let row = settle(stage, &rails, None);
        for gate in 0..stage.gates.len() {
            if row[stage.net_of_gate(gate)] {
                let held = settle(stage, &rails, Some(gate));
                if all_outputs_data(stage, &held) {
                    return [15, STAGE, gate as u64, name];
                }
            }
        }
    }

    // 20: "all inputs fallen but i, which keeps its DATA, every gate settled by the fall rule,
    // all outputs NULL".
    for &(name, word) in &words {
        let rest = settle(stage, &rails_of_word(stage.inputs, word), None);
        for input in 0..stage.inputs {
            let row = settle_fall(stage, &rest, Some(input), None);
            if all_outputs_null(stage, &row) {
                return [20, STAGE, input as u64, name];
            }
        }
    }

    // 21: "a gate high in w is held high, all inputs fallen, every other gate settled so, all
    // outputs NULL".
    for &(name, word) in &words {
        let rest = settle(stage, &rails_of_word(stage.inputs, word), None);
        for gate in 0..stage.gates.len() {
            if rest[stage.net_of_gate(gate)] {
                let row = settle_fall(stage, &rest, None, Some(gate));
                if all_outputs_null(stage, &row) {
                    return [21, STAGE, gate as u64, name];
                }
            }
        }
    }

    // 32, "after all other checks", and of no word.
    accepted_unless_a_gate_never_rises(stage)
}

/// The switching report of document 02, M-100.
#[derive(Clone, PartialEq, Eq, Debug)]
pub struct Report {
    pub verdict: Verdict,
    /// "One line per word in rising order, the word and the number of gates high at rest."
    pub lines: Vec<(u64, u64)>,
    /// "The total equals the sum of the printed lines."
    pub total: u64,
}

/// The report on a stage file and a reference file, for a caller that sets the mark of M-106.
pub fn report(stage_file: &[u8], reference_file: &[u8]) -> Report {
    report_in_order(WordOrder::Input0Lowest, stage_file, reference_file)
}

/// The report in either order of words.
///
/// "For an accepted pair one line per word, then `total` and a number. A refused pair prints
/// its verdict line only."
pub fn report_in_order(order: WordOrder, stage_file: &[u8], reference_file: &[u8]) -> Report {
    let verdict = check_in_order(order, LIMITS, stage_file, reference_file);
    let mut lines = Vec::new();
    if verdict == ACCEPTED {
        let stage = read_stage(stage_file).expect("an accepted stage");
        lines = report_lines(order, &stage);
    }
    let total = lines.iter().map(|&(_, high)| high).sum();
    Report {
        verdict,
        lines,
        total,
    }
}

/// Each word's name and the number of gates high at its rest.
pub fn report_lines(order: WordOrder, stage: &Stage) -> Vec<(u64, u64)> {
    let mut lines = Vec::new();
    for (name, word) in stage.named_words(order) {
        let row = settle(stage, &rails_of_word(stage.inputs, word), None);
        let mut high = 0;
        for gate in 0..stage.gates.len() {
            if row[stage.net_of_gate(gate)] {
                high += 1;
            }
        }
        lines.push((name, high));
    }
    lines
}

/// The settled-row call: "a stage file and a lent row, one byte per net. Its
/// refusals are 1 to 9, 12, 16, 17, in that order; each leaves the row unchanged."
pub fn settled_row(stage_file: &[u8], row: &mut [u8]) -> Verdict {
    let stage = match read_stage(stage_file) {
        Ok(stage) => stage,
        Err((number, at)) => return [number, STAGE, at as u64, 0],
    };
    if let Some(gate) = least_gate_on_a_loop(&stage) {
        return [12, STAGE, gate as u64, 0];
    }
    // 16, the row length is not 2n plus gates.
    if row.len() != stage.nets() {
        return [16, ROW, row.len() as u64, 0];
    }
    // 17, an input rail above 1, or both rails 1.
    for input in 0..stage.inputs {
        let (rail_0, rail_1) = (row[2 * input], row[2 * input + 1]);
        if rail_0 > 1 || rail_1 > 1 || rail_0 == 1 && rail_1 == 1 {
            return [17, ROW, input as u64, 0];
        }
    }
    // "Input bytes keep their values, old gate bytes are ignored", gates are
    // written as 1 for high and 0 for low.
    let rails: Vec<bool> = row[..2 * stage.inputs]
        .iter()
        .map(|&byte| byte == 1)
        .collect();
    let settled = settle(&stage, &rails, None);
    for gate in 0..stage.gates.len() {
        let net = stage.net_of_gate(gate);
        row[net] = u8::from(settled[net]);
    }
    ACCEPTED
}
