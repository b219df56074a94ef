//! The line form of a stage (document 01, "The line form", and document 02, M-109) in the plainest
//! way: a text becomes a stage file, and a stage file becomes a text.

use crate::files::{file_of, stage_gate, stage_output};
use crate::judge::{
    cell, is_relaxed, read_stage, Gate, Stage, Verdict, ACCEPTED, KINDS, LIMITS, ROW, STAGE,
};
use crate::make::Made;
use std::collections::HashMap;

/// "A name is 1 to 16 letters, digits or underscores".
pub const LONGEST_NAME: usize = 16;

/// "a pin or net has 1 to 18 such characters".
pub const LONGEST_NET: usize = 18;

/// "More than 10 inputs".
pub const MOST_INPUTS: usize = 10;

/// Writes the stage file of a text into a lent buffer.
pub fn read_text(text: &[u8], buffer: &mut [u8]) -> Made {
    put(file_of_text(text), buffer)
}

/// Writes the text of a stage file into a lent buffer.
pub fn write_text(stage_file: &[u8], buffer: &mut [u8]) -> Made {
    put(text_of_file(stage_file), buffer)
}

/// "A call that writes a file or text writes it from the start of its lent buffer. Bytes past each
/// end keep their values, and refusals write nothing." 24, a buffer too short, is the last refusal.
fn put(bytes: Result<Vec<u8>, Verdict>, buffer: &mut [u8]) -> Made {
    let refused = |verdict: Verdict| Made { verdict, len: 0 };
    let bytes = match bytes {
        Ok(bytes) => bytes,
        Err(verdict) => return refused(verdict),
    };
    if buffer.len() < bytes.len() {
        return refused([24, ROW, 0, 0]);
    }
    buffer[..bytes.len()].copy_from_slice(&bytes);
    Made {
        verdict: ACCEPTED,
        len: bytes.len(),
    }
}

// ---------------------------------------------------------------------------
// From a text to a stage file.

/// The stage file of a text, gates and then outputs, or the first of its refusals but 24.
pub fn file_of_text(text: &[u8]) -> Result<Vec<u8>, Verdict> {
    // "`at` is the least such line, 29 before 30 before 31."
    let refused = |number: u64| move |line: usize| [number, STAGE, line as u64, 0];
    let netlist = netlist_of(text).map_err(refused(29))?;
    netlist
        .undriven()
        .map_or(Ok(()), Err)
        .map_err(refused(30))?;
    netlist
        .driven_again()
        .map_or(Ok(()), Err)
        .map_err(refused(31))?;
    // "Then come the reader's numbers for the stage file made (before all others 3 for more than 10
    // inputs, then 6 for more than 256 gates)": 3 at the count, 6 at the first gate too many.
    if netlist.inputs.len() > MOST_INPUTS {
        return Err([3, STAGE, 1, 0]);
    }
    if netlist.gates.len() > LIMITS.stage_gates {
        let commands_before = 10 * LIMITS.stage_gates;
        return Err([6, STAGE, 2 + commands_before as u64, 0]);
    }
    let file = netlist.file();
    match read_stage(&file) {
        Ok(_) => Ok(file),
        Err((number, at)) => Err([number, STAGE, at as u64, 0]),
    }
}

/// A text whose lines have their form.
struct Netlist<'a> {
    inputs: Vec<&'a [u8]>,
    outputs: Vec<&'a [u8]>,
    gates: Vec<GateLine<'a>>,
}

struct GateLine<'a> {
    kind: usize,
    pins: Vec<&'a [u8]>,
    net: &'a [u8],
}

/// The line of gate k.
fn line_of_gate(k: usize) -> usize {
    2 + k
}

/// The lines of a text, or 29: "a line of another form, an empty one too, or line 0 or 1 missing".
fn netlist_of(text: &[u8]) -> Result<Netlist<'_>, usize> {
    let mut netlist = Netlist {
        inputs: vec![],
        outputs: vec![],
        gates: vec![],
    };
    // "Here every line ends in a newline." What stands behind the last newline is a line without one,
    // unless nothing does.
    let mut lines: Vec<&[u8]> = text.split(|&byte| byte == b'\n').collect();
    let unfinished = lines.pop().expect("a piece");
    for (line, bytes) in lines.iter().enumerate() {
        match line {
            // "Line 0 holds the input names and line 1 the output names."
            0 => netlist.inputs = names(bytes, LONGEST_NAME).ok_or(line)?,
            1 => netlist.outputs = names(bytes, LONGEST_NAME).ok_or(line)?,
            _ => netlist.gates.push(gate_line(bytes).ok_or(line)?),
        }
    }
    if !unfinished.is_empty() || lines.len() < 2 {
        return Err(lines.len());
    }
    Ok(netlist)
}

/// Names with a single comma between them, each of at most so many characters.
fn names(bytes: &[u8], longest: usize) -> Option<Vec<&[u8]>> {
    let list: Vec<&[u8]> = bytes.split(|&byte| byte == b',').collect();
    list.iter()
        .all(|name| is_name(name, longest))
        .then_some(list)
}

fn is_name(name: &[u8], longest: usize) -> bool {
    let character = |&byte: &u8| byte.is_ascii_alphanumeric() || byte == b'_';
    (1..=longest).contains(&name.len()) && name.iter().all(character)
}

/// "kind name as spelt above, a space, 1 to 4 pins from A on, a space, the gate's net."
fn gate_line(bytes: &[u8]) -> Option<GateLine<'_>> {
    let columns: Vec<&[u8]> = bytes.split(|&byte| byte == b' ').collect();
    let [kind, pins, net] = columns[..] else {
        return None;
    };
    let pins = names(pins, LONGEST_NET)?;
    let line = GateLine {
        kind: kind_spelt(kind)?,
        pins,
        net,
    };
    (line.pins.len() <= 4 && is_name(net, LONGEST_NET)).then_some(line)
}

/// "Relaxed kinds with a leading `r`."
fn kind_spelt(word: &[u8]) -> Option<usize> {
    let (relaxed, name) = match word.strip_prefix(b"r") {
        Some(name) => (128, name),
        None => (0, word),
    };
    let place = KINDS.iter().position(|(kind, _)| kind.as_bytes() == name)?;
    Some(relaxed + place + 1)
}

/// "A signal's rails are its name with _0 and _1."
fn rails(name: &[u8]) -> [Vec<u8>; 2] {
    [[name, b"_0"].concat(), [name, b"_1"].concat()]
}

impl Netlist<'_> {
    /// "Inputs drive their rails, a gate line drives its net": each name with its line, in the order
    /// of the nets.
    fn drivers(&self) -> Vec<(Vec<u8>, usize)> {
        let inputs = self.inputs.iter().flat_map(|name| rails(name));
        let gates = self.gates.iter().enumerate();
        let gates = gates.map(|(k, gate)| (gate.net.to_vec(), line_of_gate(k)));
        inputs.map(|name| (name, 0)).chain(gates).collect()
    }

    /// The net of each driven name.
    fn nets(&self) -> HashMap<Vec<u8>, usize> {
        let drivers = self.drivers().into_iter().enumerate();
        drivers.map(|(net, (name, _))| (name, net)).collect()
    }

    /// 30, "a name nobody drives": "pins and the rails of outputs must be driven".
    fn undriven(&self) -> Option<usize> {
        let nets = self.nets();
        let mut rails = self.outputs.iter().flat_map(|name| rails(name));
        if rails.any(|rail| !nets.contains_key(&rail)) {
            return Some(1);
        }
        let undriven = |gate: &GateLine| gate.pins.iter().any(|&pin| !nets.contains_key(pin));
        self.gates.iter().position(undriven).map(line_of_gate)
    }

    /// 31: "A line that drives a name already driven by an earlier name or line drives it again."
    fn driven_again(&self) -> Option<usize> {
        let mut driven = HashMap::new();
        let mut drivers = self.drivers().into_iter();
        let again = drivers.find(|(name, line)| driven.insert(name.clone(), *line).is_some());
        again.map(|(_, line)| line)
    }

    /// The stage file of at most 10 inputs, all names driven once. A pin that is not named holds FFFF.
    fn file(&self) -> Vec<u8> {
        let nets = self.nets();
        let gates = self.gates.iter().map(|line| {
            stage_gate(&Gate {
                kind: line.kind,
                pins: line.pins.iter().map(|&pin| nets[pin]).collect(),
            })
        });
        let outputs = self.outputs.iter().map(|name| {
            let [rail_0, rail_1] = rails(name);
            stage_output([nets[&rail_0], nets[&rail_1]])
        });
        let commands: Vec<Vec<u8>> = gates.chain(outputs).collect();
        file_of(self.inputs.len(), &commands)
    }
}

// ---------------------------------------------------------------------------
// From a stage file to a text.

/// The text of a stage file, or the first of its refusals but 24: "after the reader's numbers, 29
/// with `at` 0 means a care list, 31 the least output that would give a net a second name".
pub fn text_of_file(stage_file: &[u8]) -> Result<Vec<u8>, Verdict> {
    let stage = match read_stage(stage_file) {
        Ok(stage) => stage,
        Err((number, at)) => return Err([number, STAGE, at as u64, 0]),
    };
    if !stage.care.is_empty() {
        return Err([29, STAGE, 0, 0]);
    }
    match named(&stage) {
        Ok(names) => Ok(names.text(&stage).into_bytes()),
        Err(output) => Err([31, STAGE, output as u64, 0]),
    }
}

/// The names of a stage that is written.
struct Names {
    inputs: Vec<String>,
    outputs: Vec<String>,
    nets: Vec<String>,
}

/// "Written names are x0, x1 for inputs, y0, y1 for outputs, and g with the gate's number for other
/// gates; an output that is an input pair, rail 0 first, bears the input's name." Or the least
/// output that would give a net a second name.
fn named(stage: &Stage) -> Result<Names, usize> {
    let inputs: Vec<String> = (0..stage.inputs).map(|i| format!("x{i}")).collect();
    let mut nets: Vec<Option<String>> = vec![None; stage.nets()];
    for (i, name) in inputs.iter().enumerate() {
        nets[2 * i] = Some(format!("{name}_0"));
        nets[2 * i + 1] = Some(format!("{name}_1"));
    }
    let mut outputs = Vec::new();
    for (j, &rails) in stage.outputs.iter().enumerate() {
        if let Some(i) = (0..stage.inputs).find(|i| rails == [2 * i, 2 * i + 1]) {
            outputs.push(inputs[i].clone());
            continue;
        }
        let name = format!("y{j}");
        for (b, net) in rails.into_iter().enumerate() {
            if nets[net].is_some() {
                return Err(j);
            }
            nets[net] = Some(format!("{name}_{b}"));
        }
        outputs.push(name);
    }
    let nets = nets.into_iter().enumerate().map(|(net, name)| {
        // A net without a name is a gate's: the rails of inputs have theirs.
        name.unwrap_or_else(|| format!("g{}", net - 2 * stage.inputs))
    });
    Ok(Names {
        inputs,
        outputs,
        nets: nets.collect(),
    })
}

impl Names {
    fn text(&self, stage: &Stage) -> String {
        let mut text = format!("{}\n{}\n", self.inputs.join(","), self.outputs.join(","));
        for (k, gate) in stage.gates.iter().enumerate() {
            let pins: Vec<&str> = gate.pins.iter().map(|&pin| &self.nets[pin][..]).collect();
            let net = &self.nets[stage.net_of_gate(k)];
            text += &format!("{} {} {net}\n", kind_name(gate.kind), pins.join(","));
        }
        text
    }
}

/// The name of a kind as it is spelt in a text.
pub fn kind_name(kind: usize) -> String {
    let relaxed = if is_relaxed(kind) { "r" } else { "" };
    format!("{relaxed}{}", KINDS[cell(kind) - 1].0)
}
