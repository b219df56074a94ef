//! BLIF, the form in which yosys and abc hand on netlists: its commands, one by one. What they mean is left to who asks.

use super::{printable, Fault};

/// A netlist as it stands in the text.
#[derive(Debug, Default)]
pub struct Netlist<'a> {
    pub model: Option<&'a str>,
    pub inputs: Vec<&'a str>,
    pub outputs: Vec<&'a str>,
    pub nodes: Vec<Node<'a>>,
}

/// A command that drives nets.
#[derive(Debug)]
pub struct Node<'a> {
    pub line: usize,
    pub what: What<'a>,
    /// What yosys calls the instance (`.cname`).
    pub instance: Option<&'a str>,
}

#[derive(Debug)]
pub enum What<'a> {
    /// `.names`: the inputs, the output, and the rows of its cover, which are those where it is 1, or where it is 0.
    Cover { inputs: Vec<&'a str>, output: &'a str, rows: Vec<&'a str>, on: bool },
    /// `.gate` or `.subckt`: the cell, and its pins with their nets.
    Cell { cell: &'a str, pins: Vec<(&'a str, &'a str)> },
    /// `.latch`: the net that it drives.
    Latch { output: &'a str },
}

/// A line, or several that are continued by a backslash, as its words.
struct Line<'a> {
    number: usize,
    words: Vec<&'a str>,
}

/// The lines that say something.
fn lines(text: &str) -> Vec<Line<'_>> {
    let mut lines: Vec<Line> = Vec::new();
    let mut goes_on = false;
    for (k, line) in text.lines().enumerate() {
        let line = line.split('#').next().unwrap_or_default().trim_end();
        let (line, more) = match line.strip_suffix('\\') {
            Some(line) => (line, true),
            None => (line, false),
        };
        match lines.last_mut() {
            Some(last) if goes_on => last.words.extend(line.split_ascii_whitespace()),
            _ => lines.push(Line { number: k + 1, words: line.split_ascii_whitespace().collect() }),
        }
        goes_on = more;
    }
    lines.retain(|line| !line.words.is_empty());
    lines
}

/// Reads the first model of a text.
pub fn read(text: &str) -> Result<Netlist<'_>, Fault> {
    let mut netlist = Netlist::default();
    let lines = lines(text);
    let mut lines = lines.iter().peekable();
    let mut ended = false;
    while let Some(Line { number, words }) = lines.next() {
        let (number, command, rest) = (*number, words[0], &words[1..]);
        match command {
            ".model" if netlist.model.is_some() || ended => {
                let words = format!(
                    "a second model, {}: flatten the design into one (yosys: synth -flatten)",
                    printable(rest.first().unwrap_or(&"?"))
                );
                return Err(Fault::at(number, words));
            }
            ".model" => netlist.model = Some(rest.first().copied().unwrap_or_default()),
            _ if ended => return Err(Fault::at(number, format!("{} stands behind .end", printable(command)))),
            ".inputs" => netlist.inputs.extend(rest),
            ".outputs" => netlist.outputs.extend(rest),
            ".names" => {
                let Some((&output, inputs)) = rest.split_last() else { return Err(Fault::at(number, ".names without a net")) };
                let mut rows = Vec::new();
                let mut on = None;
                while let Some(line) = lines.next_if(|line| !line.words[0].starts_with('.')) {
                    let (row, value) = row(line, inputs.len())?;
                    if *on.get_or_insert(value) != value {
                        return Err(Fault::at(line.number, "a cover has rows for 1 or rows for 0, not both"));
                    }
                    rows.push(row);
                }
                let what = What::Cover { inputs: inputs.to_vec(), output, rows, on: on.unwrap_or(true) };
                netlist.nodes.push(Node { line: number, what, instance: None });
            }
            ".gate" | ".subckt" => {
                let Some((&cell, pins)) = rest.split_first() else { return Err(Fault::at(number, format!("{command} without a cell"))) };
                let wrong = |pin: &str| Fault::at(number, format!("{} is no pin=net", printable(pin)));
                let pins = pins.iter().map(|pin| pin.split_once('=').ok_or_else(|| wrong(pin))).collect::<Result<Vec<_>, Fault>>()?;
                netlist.nodes.push(Node { line: number, what: What::Cell { cell, pins }, instance: None });
            }
            ".conn" => match rest {
                [from, to] => {
                    let what = What::Cover { inputs: vec![from], output: to, rows: vec!["1"], on: true };
                    netlist.nodes.push(Node { line: number, what, instance: None });
                }
                _ => return Err(Fault::at(number, ".conn takes two nets")),
            },
            ".latch" | ".mlatch" => {
                let output = rest.get(1).copied().unwrap_or("?");
                netlist.nodes.push(Node { line: number, what: What::Latch { output }, instance: None });
            }
            ".cname" => {
                if let Some(node) = netlist.nodes.last_mut() {
                    node.instance = rest.first().copied();
                }
            }
            ".attr" | ".param" | ".area" | ".delay" | ".wire_load_slope" | ".default_input_arrival" | ".default_output_required" => {}
            ".end" => ended = true,
            _ => return Err(Fault::at(number, format!("{} is no command of BLIF that is taken here", printable(command)))),
        }
    }
    match netlist.model {
        Some(_) => Ok(netlist),
        None => Err(Fault::says("no model in it: BLIF begins with .model")),
    }
}

/// A row of a cover: a sign for each input, and the value.
fn row<'a>(line: &Line<'a>, inputs: usize) -> Result<(&'a str, bool), Fault> {
    let wrong = || Fault::at(line.number, "is no row of a cover: a sign 0, 1 or - for each input, then 0 or 1");
    let (row, value) = match (line.words.as_slice(), inputs) {
        ([value], 0) => ("", *value),
        ([row, value], _) if inputs > 0 => (*row, *value),
        _ => return Err(wrong()),
    };
    let fits = row.len() == inputs && row.bytes().all(|sign| b"01-".contains(&sign));
    match value {
        "0" if fits => Ok((row, false)),
        "1" if fits => Ok((row, true)),
        _ => Err(wrong()),
    }
}
