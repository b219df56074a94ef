//! A netlist of threshold cells as a stage, and back. Ports are rails: NAME_0 and NAME_1 of each signal. A gate's number is that at the end of its
//! instance's name, so that a netlist comes back from other tools with its gates in order.

use super::blif::{Netlist, What};
use super::{printable, Fault};
use crate::netlist::{kind_of, many, pin_count, Gate, Names, Stage};
use std::collections::HashMap;

/// A stage, with what its ports are called, and what is to be said of it.
pub struct Made {
    pub stage: Stage,
    pub notes: Vec<String>,
}

/// What a stage file may have: documents 01 and 02.
const INPUTS: usize = 10;
const OUTPUTS: usize = 16;
const GATES: usize = 256;

const LETTERS: [&str; 4] = ["A", "B", "C", "D"];

/// A cell of the netlist that is a gate.
struct Cell<'a> {
    line: usize,
    kind: u8,
    instance: Option<&'a str>,
    output: &'a str,
    pins: Vec<&'a str>,
}

/// The stage of a netlist.
pub fn stage(netlist: &Netlist) -> Result<Made, Fault> {
    let inputs = signals(&netlist.inputs, "input")?;
    let outputs = signals(&netlist.outputs, "output")?;
    if inputs.len() > INPUTS || outputs.len() > OUTPUTS {
        let words =
            format!("{} and {}; a stage has at most {INPUTS} and {OUTPUTS}", many(inputs.len(), "input"), many(outputs.len(), "output"));
        return Err(Fault::says(words));
    }
    let mut cells = Vec::new();
    let mut wires: HashMap<&str, &str> = HashMap::new();
    for node in &netlist.nodes {
        match &node.what {
            What::Cell { cell, pins } => cells.push(gate(node.line, cell, pins, node.instance)?),
            What::Cover { inputs, output, rows, on } => match (inputs.as_slice(), rows.as_slice(), on) {
                ([from], ["1"], true) | ([from], ["0"], false) => {
                    wires.insert(output, from);
                }
                // What yosys calls its constants; they are only in the way where something reads them.
                ([], _, _) => {}
                _ => {
                    let words = format!("{} is a Boolean function, and a stage has threshold cells only", printable(output));
                    return Err(Fault::at(node.line, words));
                }
            },
            What::Latch { output } => {
                return Err(Fault::at(
                    node.line,
                    format!("{} is held by a latch, and a stage has threshold cells only", printable(output)),
                ));
            }
        }
    }
    if cells.len() > GATES {
        return Err(Fault::says(format!("{}; a stage has at most {GATES}", many(cells.len(), "gate"))));
    }
    let mut notes = Vec::new();
    if !ordered(&mut cells) {
        notes.push("the instances are not numbered from 0 on by the ends of their names: gates are in the order of the netlist".into());
    }
    let mut nets: HashMap<&str, usize> = HashMap::new();
    for (k, name) in inputs.iter().flat_map(|signal| &signal.rails).enumerate() {
        nets.insert(name, k);
    }
    for (k, cell) in cells.iter().enumerate() {
        if nets.insert(cell.output, 2 * inputs.len() + k).is_some() || wires.contains_key(cell.output) {
            return Err(Fault::at(cell.line, format!("{} is driven again", printable(cell.output))));
        }
    }
    let net = |name: &str| driver(name, &nets, &wires);
    let mut gates = Vec::new();
    for cell in &cells {
        let pins = cell.pins.iter().map(|pin| net(pin)).collect::<Result<Vec<usize>, Fault>>()?;
        gates.push(Gate { kind: cell.kind, pins, at: 0 });
    }
    let mut rails = Vec::new();
    for signal in &outputs {
        rails.push([net(signal.rails[0])?, net(signal.rails[1])?]);
    }
    let names = |signals: &[Signal]| signals.iter().map(|signal| signal.name.to_string()).collect();
    let names = Names { inputs: names(&inputs), outputs: names(&outputs), gates: Vec::new() };
    let stage = Stage { inputs: inputs.len(), gates, outputs: rails, names: Some(names), ..Stage::default() };
    Ok(Made { stage, notes })
}

/// The number of the net behind a name, through wires.
fn driver(name: &str, nets: &HashMap<&str, usize>, wires: &HashMap<&str, &str>) -> Result<usize, Fault> {
    let mut at = name;
    // As many steps as there are wires: more are a loop.
    for _ in 0..=wires.len() {
        match (nets.get(at), wires.get(at)) {
            (Some(&net), _) => return Ok(net),
            (None, Some(from)) => at = from,
            (None, None) => return Err(Fault::says(format!("{} is used, and nothing drives it", printable(at)))),
        }
    }
    Err(Fault::says(format!("{} is on a loop of wires", printable(name))))
}

/// A signal and its two rails.
struct Signal<'a> {
    name: &'a str,
    rails: [&'a str; 2],
}

/// The signals of some ports: each NAME_0 with its NAME_1, in the order in which they come first.
fn signals<'a>(ports: &[&'a str], what: &str) -> Result<Vec<Signal<'a>>, Fault> {
    let rail = |port: &'a str, end: &str| port.strip_suffix(end);
    let mut signals: Vec<Signal<'a>> = Vec::new();
    for &port in ports {
        let Some(name) = rail(port, "_0").or(rail(port, "_1")) else {
            let words = format!("{what} {} is no rail: the ports of a stage are NAME_0 and NAME_1 for each signal", printable(port));
            return Err(Fault::says(words));
        };
        if signals.iter().any(|signal| signal.name == name) {
            continue;
        }
        let find = |end: &str| ports.iter().copied().find(|other| rail(other, end) == Some(name));
        let (Some(low), Some(high)) = (find("_0"), find("_1")) else {
            let words = format!("{what} {} has one rail: the ports of a stage are NAME_0 and NAME_1 for each signal", printable(name));
            return Err(Fault::says(words));
        };
        signals.push(Signal { name, rails: [low, high] });
    }
    if 2 * signals.len() != ports.len() {
        return Err(Fault::says(format!("a port comes twice among the {what}s")));
    }
    Ok(signals)
}

/// A cell as a gate.
fn gate<'a>(line: usize, cell: &str, pins: &[(&str, &'a str)], instance: Option<&'a str>) -> Result<Cell<'a>, Fault> {
    let kind = kind_of(cell).ok_or_else(|| Fault::at(line, format!("cell {} is none of the threshold cells", printable(cell))))?;
    let find = |name: &str| pins.iter().find(|pin| pin.0 == name).map(|pin| pin.1);
    let missing = |name: &str| Fault::at(line, format!("cell {cell} without pin {name}"));
    let count = pin_count(kind).unwrap_or(0);
    let taken = LETTERS[..count].iter().map(|letter| find(letter).ok_or_else(|| missing(letter))).collect::<Result<Vec<&str>, Fault>>()?;
    if pins.len() != count + 1 {
        return Err(Fault::at(
            line,
            format!("cell {cell} has {} and the output Z, and {} here", many(count, "pin"), many(pins.len(), "connection")),
        ));
    }
    Ok(Cell { line, kind, instance, output: find("Z").ok_or_else(|| missing("Z"))?, pins: taken })
}

/// Puts gates in the order of the numbers that their instances' names end in; false where these are not 0, 1, 2 and so on.
fn ordered(cells: &mut [Cell]) -> bool {
    let number = |cell: &Cell| {
        let name = cell.instance?;
        let digits = name.len() - name.trim_end_matches(|sign: char| sign.is_ascii_digit()).len();
        name[name.len() - digits..].parse::<usize>().ok()
    };
    let mut numbers: Vec<Option<usize>> = cells.iter().map(number).collect();
    numbers.sort();
    let each = numbers.iter().enumerate().all(|(k, number)| *number == Some(k));
    if each {
        cells.sort_by_key(number);
    }
    each || cells.is_empty()
}

/// A stage as BLIF: a line for each gate, with its instance's name.
pub fn blif(stage: &Stage) -> String {
    let mut text =
        String::from("# A stage of NULL Convention Logic: each signal has the rails _0 and _1. Gate k is the instance uk.\n.model stage\n");
    text += &format!(".inputs {}\n", input_rails(stage).join(" "));
    text += &format!(".outputs {}\n", output_rails(stage).join(" "));
    for (k, gate) in stage.gates.iter().enumerate() {
        let pins: Vec<String> = gate.pins.iter().zip(LETTERS).map(|(&pin, letter)| format!("{letter}={}", stage.net_name(pin))).collect();
        text += &format!(".subckt {} {} Z={}\n.cname u{k}\n", gate.name(), pins.join(" "), stage.gate_name(k));
    }
    for (rails, names) in stage.outputs.iter().zip(output_rails(stage).chunks(2)) {
        for (&net, name) in rails.iter().zip(names) {
            text += &format!(".names {} {name}\n1 1\n", stage.net_name(net));
        }
    }
    text + ".end\n"
}

/// The rails of the inputs, in order.
pub fn input_rails(stage: &Stage) -> Vec<String> {
    (0..2 * stage.inputs).map(|net| stage.net_name(net)).collect()
}

/// The rails of the outputs, in order.
pub fn output_rails(stage: &Stage) -> Vec<String> {
    (0..stage.outputs.len()).flat_map(|output| [0, 1].map(|rail| format!("{}_{rail}", stage.output_name(output)))).collect()
}
