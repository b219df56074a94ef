//! A netlist of Boolean gates as a reference: covers and cells become NOT and operations on two signals, each once. Buffers and constants go; signals
//! that lead to no output are never made.

use super::blif::{Netlist, Node, What};
use super::{printable, some, Fault};
use crate::netlist::{kind_of, many, Names, Operation, Reference, ABSENT};
use std::collections::HashMap;

/// What a file of a stage may have: document 01, and 02 for gates.
const INPUTS: usize = 10;
const OUTPUTS: usize = 16;
const GATES: usize = 512;
/// More than this are never built: the netlist is none of one stage.
const MOST: usize = 16 * GATES;

const NOT: u8 = 1;
const AND: u8 = 2;
const OR: u8 = 3;
const XOR: u8 = 4;
/// NAND, and NOR as far behind it as OR is behind AND.
const NAND: u8 = 5;

/// A reference, with what its ports are called, and what is to be said of it.
pub struct Made {
    pub reference: Reference,
    pub names: Names,
    pub notes: Vec<String>,
}

/// What drives a name.
#[derive(Clone, Copy)]
enum Source {
    Input(usize),
    Node(usize),
}

/// A signal as it is built: constant, or one of the reference.
#[derive(Clone, Copy, PartialEq, Eq, Debug)]
enum Value {
    Constant(bool),
    Signal(usize),
}

/// The reference of a netlist.
pub fn reference(netlist: &Netlist) -> Result<Made, Fault> {
    let names = Names {
        inputs: netlist.inputs.iter().map(|name| name.to_string()).collect(),
        outputs: netlist.outputs.iter().map(|name| name.to_string()).collect(),
        gates: Vec::new(),
    };
    counts(&names)?;
    let sources = sources(netlist)?;
    let mut building = Building::new(netlist.inputs.len());
    let mut values = vec![None; netlist.nodes.len()];
    let mut outputs = Vec::new();
    for &output in &netlist.outputs {
        outputs.push(value_of(output, netlist, &sources, &mut values, &mut building)?);
    }
    finish(building, &outputs, names)
}

/// Inputs and outputs as many as a stage may have.
fn counts(names: &Names) -> Result<(), Fault> {
    let (inputs, outputs) = (names.inputs.len(), names.outputs.len());
    if inputs > INPUTS {
        let words = format!(
            "{inputs} inputs, and a stage has at most {INPUTS}. Split the module, for instance by bits, and join the parts ('ncl join'). The inputs are {}",
            some(&names.inputs)
        );
        return Err(Fault::says(words));
    }
    if outputs > OUTPUTS {
        let words =
            format!("{outputs} outputs, and a stage has at most {OUTPUTS}. Split the module. The outputs are {}", some(&names.outputs));
        return Err(Fault::says(words));
    }
    match (inputs, outputs) {
        (0, _) => Err(Fault::says("no inputs: a stage has at least one")),
        (_, 0) => Err(Fault::says("no outputs: a stage has at least one")),
        _ => Ok(()),
    }
}

/// What drives each net; no net may have two drivers.
fn sources<'a>(netlist: &Netlist<'a>) -> Result<HashMap<&'a str, Source>, Fault> {
    let mut sources = HashMap::new();
    for (k, &input) in netlist.inputs.iter().enumerate() {
        if sources.insert(input, Source::Input(k)).is_some() {
            return Err(Fault::says(format!("input {} comes twice", printable(input))));
        }
    }
    for (k, node) in netlist.nodes.iter().enumerate() {
        let output = match &node.what {
            What::Cover { output, .. } => *output,
            What::Cell { cell, pins } => output_pin(cell, pins).ok_or_else(|| unknown(node.line, cell))?,
            What::Latch { output } => return Err(register(node.line, output)),
        };
        match sources.insert(output, Source::Node(k)) {
            None => {}
            Some(Source::Input(_)) => {
                let words = format!("{} is an input, and is driven here too: a port of a stage goes one way", printable(output));
                return Err(Fault::at(node.line, words));
            }
            Some(Source::Node(_)) => return Err(Fault::at(node.line, format!("{} is driven again", printable(output)))),
        }
    }
    Ok(sources)
}

fn register(line: usize, output: &str) -> Fault {
    let words = format!(
        "{} is held by a register or a latch. A stage is combinational: take the registers out of the module, they stand around the stage",
        printable(output)
    );
    Fault::at(line, words)
}

fn unknown(line: usize, cell: &str) -> Fault {
    if ["DFF", "LATCH", "FF_"].iter().any(|part| cell.to_ascii_uppercase().contains(part)) {
        return register(line, cell);
    }
    if kind_of(cell).is_some() {
        return Fault::at(line, format!("cell {cell} is a threshold cell; --stage makes a stage of such a netlist"));
    }
    let words = format!("cell {} is none of NOT, BUF, AND, OR, XOR, NAND, NOR, XNOR, ANDNOT and ORNOT", printable(cell));
    Fault::at(line, words)
}

/// A cell's name without the signs that yosys puts around it.
fn plain(cell: &str) -> &str {
    cell.trim_matches(|sign| sign == '$' || sign == '_')
}

fn pin<'a>(pins: &[(&str, &'a str)], name: &str) -> Option<&'a str> {
    pins.iter().find(|pin| pin.0 == name).map(|pin| pin.1)
}

/// The net that a cell drives, if it is one that is known.
fn output_pin<'a>(cell: &str, pins: &[(&str, &'a str)]) -> Option<&'a str> {
    let known = ["NOT", "INV", "BUF", "AND", "OR", "XOR", "NAND", "NOR", "XNOR", "ANDNOT", "ORNOT"]
        .contains(&plain(cell).to_ascii_uppercase().as_str());
    known.then(|| pin(pins, "Y").or(pin(pins, "O")).or(pin(pins, "Z")))?
}

/// The nets that a node reads.
fn read<'a>(node: &Node<'a>) -> Result<Vec<&'a str>, Fault> {
    match &node.what {
        What::Cover { inputs, .. } => Ok(inputs.clone()),
        What::Cell { cell, pins } => {
            let single = ["NOT", "INV", "BUF"].contains(&plain(cell).to_ascii_uppercase().as_str());
            let wanted: &[&str] = if single { &["A"] } else { &["A", "B"] };
            let missing = |name: &str| Fault::at(node.line, format!("cell {} without pin {name}", printable(cell)));
            wanted.iter().map(|name| pin(pins, name).ok_or_else(|| missing(name))).collect()
        }
        What::Latch { output } => Err(register(node.line, output)),
    }
}

/// A node whose inputs are looked at one after the other.
struct Open<'a> {
    node: usize,
    read: Vec<&'a str>,
    values: Vec<Value>,
}

/// The value of a net, and of all that it is made of. Nodes are opened on a list and not by recursion: a netlist may be deep.
fn value_of<'a>(
    name: &'a str,
    netlist: &Netlist<'a>,
    sources: &HashMap<&'a str, Source>,
    done: &mut [Option<Value>],
    building: &mut Building,
) -> Result<Value, Fault> {
    let mut opened = vec![false; netlist.nodes.len()];
    let mut open: Vec<Open<'a>> = Vec::new();
    let mut wanted = name;
    loop {
        let known = match sources.get(wanted) {
            _ if wanted == "$undef" => return Err(undriven(name)),
            Some(Source::Input(k)) => Some(Value::Signal(*k)),
            Some(Source::Node(k)) => match done[*k] {
                Some(value) => Some(value),
                None if opened[*k] => {
                    return Err(Fault::at(netlist.nodes[*k].line, format!("{} is on a loop: a stage is combinational", printable(wanted))));
                }
                None => {
                    opened[*k] = true;
                    open.push(Open { node: *k, read: read(&netlist.nodes[*k])?, values: Vec::new() });
                    None
                }
            },
            None => return Err(undriven(wanted)),
        };
        if let Some(value) = known {
            match open.last_mut() {
                None => return Ok(value),
                Some(top) => top.values.push(value),
            }
        }
        // Close what has all of its inputs, and go on with the next input of what is open.
        while let Some(top) = open.last() {
            if let Some(next) = top.read.get(top.values.len()) {
                wanted = next;
                break;
            }
            let value = building.node(&netlist.nodes[top.node], &top.values)?;
            done[top.node] = Some(value);
            opened[top.node] = false;
            open.pop();
            match open.last_mut() {
                None => return Ok(value),
                Some(below) => below.values.push(value),
            }
        }
    }
}

fn undriven(name: &str) -> Fault {
    Fault::says(format!("{} is used, and nothing drives it", printable(name)))
}

/// A reference as BLIF, by these names, or else by its own: input i is xi, output j yj.
pub fn blif(reference: &Reference, names: &Names) -> String {
    let named = |names: &[String], k: usize, letter: char| names.get(k).cloned().unwrap_or_else(|| format!("{letter}{k}"));
    // No port is called so.
    let signal = |signal: usize| if signal < reference.inputs { named(&names.inputs, signal, 'x') } else { format!("$s{signal}") };
    let inputs: Vec<String> = (0..reference.inputs).map(signal).collect();
    let outputs: Vec<String> = (0..reference.outputs.len()).map(|output| named(&names.outputs, output, 'y')).collect();
    let mut text = format!(".model reference\n.inputs {}\n.outputs {}\n", inputs.join(" "), outputs.join(" "));
    for (k, gate) in reference.gates.iter().enumerate() {
        let rows: &[&str] = match gate.operation {
            NOT => &["0 1"],
            AND => &["11 1"],
            OR => &["1- 1", "-1 1"],
            XOR => &["10 1", "01 1"],
            NAND => &["0- 1", "-0 1"],
            _ => &["00 1"],
        };
        let operands: Vec<String> = gate.operands.iter().filter(|&&operand| operand != ABSENT).map(|&operand| signal(operand)).collect();
        text += &format!(".names {} {}\n{}\n", operands.join(" "), signal(reference.inputs + k), rows.join("\n"));
    }
    for (output, &from) in outputs.iter().zip(&reference.outputs) {
        // An output that is an input has its name already.
        if *output != signal(from) {
            text += &format!(".names {} {output}\n1 1\n", signal(from));
        }
    }
    text + ".end\n"
}

/// A reference that is being built.
struct Building {
    inputs: usize,
    gates: Vec<Operation>,
    /// The signal of each operation, so that none is built twice.
    known: HashMap<(u8, usize, usize), usize>,
}

impl Building {
    fn new(inputs: usize) -> Building {
        Building { inputs, gates: Vec::new(), known: HashMap::new() }
    }

    /// The value of a node, from those of its inputs.
    fn node(&mut self, node: &Node, values: &[Value]) -> Result<Value, Fault> {
        let value = match &node.what {
            What::Cover { rows, on, .. } => {
                let sum = self.cover(rows, values)?;
                if *on {
                    sum
                } else {
                    self.not(sum)
                }
            }
            What::Cell { cell, .. } => self.cell(cell, values),
            What::Latch { output } => return Err(register(node.line, output)),
        };
        match self.gates.len() {
            count if count > MOST => {
                Err(Fault::says(format!("more than {GATES} gates: a reference has at most so many. Split the module")))
            }
            _ => Ok(value),
        }
    }

    fn cell(&mut self, cell: &str, values: &[Value]) -> Value {
        let a = values.first().copied().unwrap_or(Value::Constant(false));
        let b = values.get(1).copied().unwrap_or(Value::Constant(false));
        match plain(cell).to_ascii_uppercase().as_str() {
            "BUF" => a,
            "AND" => self.two(AND, a, b),
            "OR" => self.two(OR, a, b),
            "XOR" => self.two(XOR, a, b),
            "NAND" => self.inverted(AND, a, b),
            "NOR" => self.inverted(OR, a, b),
            "XNOR" => self.inverted(XOR, a, b),
            "ANDNOT" => {
                let b = self.not(b);
                self.two(AND, a, b)
            }
            "ORNOT" => {
                let b = self.not(b);
                self.two(OR, a, b)
            }
            _ => self.not(a),
        }
    }

    /// The sum of the products of some rows. Where two rows are those of an exclusive or, it is one.
    fn cover(&mut self, rows: &[&str], values: &[Value]) -> Result<Value, Fault> {
        if let ([first, second], &[a, b]) = (rows, values) {
            match (*first, *second) {
                ("10", "01") | ("01", "10") => return Ok(self.two(XOR, a, b)),
                ("00", "11") | ("11", "00") => return Ok(self.inverted(XOR, a, b)),
                _ => {}
            }
        }
        let mut products = Vec::new();
        for row in rows {
            let mut factors = Vec::new();
            for (sign, &value) in row.bytes().zip(values) {
                match sign {
                    b'1' => factors.push(value),
                    b'0' => factors.push(self.not(value)),
                    _ => {}
                }
            }
            products.push(self.tree(AND, factors));
            if self.gates.len() > MOST {
                return Err(Fault::says(format!("more than {GATES} gates: a reference has at most so many. Split the module")));
            }
        }
        Ok(self.tree(OR, products))
    }

    /// An operation on several values, as a tree.
    fn tree(&mut self, operation: u8, mut values: Vec<Value>) -> Value {
        while values.len() > 1 {
            values = values.chunks(2).map(|two| if let &[a, b] = two { self.two(operation, a, b) } else { two[0] }).collect();
        }
        values.first().copied().unwrap_or(Value::Constant(operation == AND))
    }

    fn not(&mut self, value: Value) -> Value {
        match value {
            Value::Constant(value) => Value::Constant(!value),
            Value::Signal(signal) => match self.gate(signal) {
                // NOT of NOT.
                Some(Operation { operation: NOT, operands: [inner, _] }) => Value::Signal(*inner),
                _ => self.signal(NOT, signal, ABSENT),
            },
        }
    }

    fn inverted(&mut self, operation: u8, a: Value, b: Value) -> Value {
        let value = self.two(operation, a, b);
        self.not(value)
    }

    fn gate(&self, signal: usize) -> Option<&Operation> {
        self.gates.get(signal.checked_sub(self.inputs)?)
    }

    /// Whether one value is NOT of the other.
    fn opposite(&self, a: usize, b: usize) -> bool {
        let not = |a: usize, b: usize| matches!(self.gate(a), Some(Operation { operation: NOT, operands: [inner, _] }) if *inner == b);
        not(a, b) || not(b, a)
    }

    /// AND, OR or XOR of two values; of constants, of one value twice and of a value and its inverse without a gate.
    fn two(&mut self, operation: u8, a: Value, b: Value) -> Value {
        match (a, b) {
            (Value::Constant(x), Value::Constant(y)) => Value::Constant(match operation {
                AND => x & y,
                OR => x | y,
                _ => x ^ y,
            }),
            (Value::Constant(x), other) | (other, Value::Constant(x)) => match (operation, x) {
                (AND, true) | (OR, false) | (XOR, false) => other,
                (XOR, _) => self.not(other),
                _ => Value::Constant(x),
            },
            (Value::Signal(x), Value::Signal(y)) if x == y => match operation {
                XOR => Value::Constant(false),
                _ => a,
            },
            (Value::Signal(x), Value::Signal(y)) if self.opposite(x, y) => Value::Constant(operation != AND),
            (Value::Signal(x), Value::Signal(y)) => self.signal(operation, x.min(y), x.max(y)),
        }
    }

    fn signal(&mut self, operation: u8, a: usize, b: usize) -> Value {
        let next = self.inputs + self.gates.len();
        let signal = *self.known.entry((operation, a, b)).or_insert(next);
        if signal == next {
            self.gates.push(Operation { operation, operands: [a, b] });
        }
        Value::Signal(signal)
    }

    /// The gates that lead to an output. A NOT takes the place of the AND or OR that nothing else uses: the two are NAND or NOR.
    fn fused(&self, outputs: &[usize], leads: &[bool]) -> Vec<Option<Operation>> {
        let mut uses = vec![0; leads.len()];
        outputs.iter().for_each(|&signal| uses[signal] += 1);
        let mut gates: Vec<Option<Operation>> = Vec::new();
        for (k, gate) in self.gates.iter().enumerate() {
            gates.push(leads[self.inputs + k].then(|| gate.clone()));
            for &operand in gate.operands.iter().filter(|&&operand| leads[self.inputs + k] && operand != ABSENT) {
                uses[operand] += 1;
            }
        }
        for k in 0..gates.len() {
            let Some(Operation { operation: NOT, operands: [inner, _] }) = gates[k] else { continue };
            let Some(place) = inner.checked_sub(self.inputs).filter(|_| uses[inner] == 1) else { continue };
            if let Some(Operation { operation: operation @ (AND | OR), operands }) = gates[place] {
                (gates[k], gates[place]) = (Some(Operation { operation: operation + NAND - AND, operands }), None);
            }
        }
        gates
    }

    /// A signal that has one value in every word: an input and itself never differ.
    fn constant(&mut self, value: bool) -> usize {
        let Value::Signal(zero) = self.signal(XOR, 0, 0) else { return 0 };
        match value {
            false => zero,
            true => match self.signal(NOT, zero, ABSENT) {
                Value::Signal(one) => one,
                Value::Constant(_) => zero,
            },
        }
    }
}

/// The reference of what was built, without what leads to no output, and what is to be said of it.
fn finish(mut building: Building, outputs: &[Value], names: Names) -> Result<Made, Fault> {
    let mut notes = Vec::new();
    let mut signals = Vec::new();
    for (output, value) in outputs.iter().enumerate() {
        signals.push(match *value {
            Value::Signal(signal) => signal,
            Value::Constant(value) => {
                notes.push(format!(
                    "output {} is always {}: in a stage its rail {} never rises, and the check refuses a gate that never does (32). Leave the output out",
                    printable(&names.outputs[output]),
                    u8::from(value),
                    u8::from(!value)
                ));
                building.constant(value)
            }
        });
    }
    let inputs = building.inputs;
    let mut leads = vec![false; inputs + building.gates.len()];
    let mut todo = signals.clone();
    while let Some(signal) = todo.pop() {
        if !std::mem::replace(&mut leads[signal], true) {
            if let Some(gate) = building.gate(signal) {
                todo.extend(gate.operands.iter().filter(|&&operand| operand != ABSENT));
            }
        }
    }
    let gates = building.fused(&signals, &leads);
    let mut place: Vec<usize> = (0..inputs).collect();
    let mut kept = Vec::new();
    for gate in gates {
        place.push(inputs + kept.len());
        if let Some(Operation { operation, operands }) = gate {
            kept.push(Operation { operation, operands: operands.map(|operand| place.get(operand).copied().unwrap_or(ABSENT)) });
        }
    }
    let gates = kept;
    if gates.len() > GATES {
        return Err(Fault::says(format!("{}, and a reference has at most {GATES}. Split the module", many(gates.len(), "gate"))));
    }
    let unused: Vec<String> = (0..inputs).filter(|&input| !leads[input]).map(|input| names.inputs[input].clone()).collect();
    if !unused.is_empty() {
        let (what, lead) = if unused.len() == 1 { ("input", "leads") } else { ("inputs", "lead") };
        notes.push(format!("{what} {} {lead} to no output: no stage is made of it (25). Take it out of the module", some(&unused)));
    }
    let outputs = signals.iter().map(|&signal| place[signal]).collect();
    Ok(Made { reference: Reference { inputs, gates, outputs, called: Vec::new() }, names, notes })
}
