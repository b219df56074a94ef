//! A names file: what the inputs and outputs of a stage are called, as `ncl from` writes it. Bits of a bus are spelt `a[0]`, `a[1]` and so on, and are shown
//! together as a number.

use crate::failure::{Failure, Outcome};
use crate::input::read_within;
use crate::netlist::{many, Names};
use std::path::Path;

/// So many bytes of a names file are taken, and so many signs of a name.
const MOST: usize = 16_384;
const LONG: usize = 200;

/// The names of a file.
pub struct NamesFile {
    /// What the file is called.
    pub file: String,
    pub names: Names,
}

impl NamesFile {
    /// Reads a names file: the inputs' names on one line, the outputs' on the next, with commas between them.
    pub fn read(path: &Path) -> Outcome<NamesFile> {
        let input = read_within(path, MOST)?;
        let wrong = |words: String| Failure::says(format!("{}: {words}", input.name));
        let text = std::str::from_utf8(&input.bytes).map_err(|_| wrong("is no text".into()))?;
        let lines: Vec<&str> = text.lines().collect();
        let &[inputs, outputs] = lines.as_slice() else {
            let words =
                format!("has {}; a names file has the inputs' names on one line, and the outputs' on the next", many(lines.len(), "line"));
            return Err(wrong(words));
        };
        if input.longer {
            return Err(wrong("is too long for a names file".into()));
        }
        let list = |line: &str| line.split(',').map(|name| name.trim().to_string()).collect::<Vec<String>>();
        let names = Names { inputs: list(inputs), outputs: list(outputs), gates: Vec::new() };
        let odd = |name: &&String| name.is_empty() || name.chars().count() > LONG || name.chars().any(odd_sign);
        if let Some(name) = names.inputs.iter().chain(&names.outputs).find(odd) {
            return Err(wrong(format!("'{}' is no name", name.escape_debug())));
        }
        Ok(NamesFile { file: input.name, names })
    }

    /// That there are as many names as inputs and outputs.
    pub fn fit(&self, inputs: usize, outputs: usize) -> Outcome<()> {
        for (named, there, what) in [(self.names.inputs.len(), inputs, "input"), (self.names.outputs.len(), outputs, "output")] {
            if named != there {
                let words =
                    format!("{}: names {}, and there {} {there}", self.file, many(named, what), if there == 1 { "is" } else { "are" });
                return Err(Failure::says(words));
            }
        }
        Ok(())
    }
}

/// A sign that no name has: it would end a name here or in BLIF.
fn odd_sign(sign: char) -> bool {
    sign.is_whitespace() || sign.is_control() || "#=\\\",".contains(sign)
}

/// The text of a names file. Odd signs, which other tools may have in names, become underscores.
pub fn names_file(names: &Names) -> String {
    let plain = |name: &String| name.chars().take(LONG).map(|sign| if odd_sign(sign) { '_' } else { sign }).collect::<String>();
    let line = |names: &[String]| names.iter().map(plain).collect::<Vec<String>>().join(",");
    format!("{}\n{}\n", line(&names.inputs), line(&names.outputs))
}

/// Signals that are shown together: a bus with its bits, the highest first, or one by itself.
#[derive(Debug, PartialEq, Eq)]
pub struct Bus<'a> {
    pub name: &'a str,
    /// The places of its bits among the names; of a signal by itself one.
    pub bits: Vec<usize>,
}

/// A name with the number of its bit.
fn bit(name: &str) -> Option<(&str, u32)> {
    let (bus, rest) = name.split_once('[')?;
    Some((bus, rest.strip_suffix(']')?.parse().ok()?))
}

/// The buses of some names, in the order in which they come first.
pub fn buses(names: &[String]) -> Vec<Bus<'_>> {
    let mut buses: Vec<Bus> = Vec::new();
    for (k, name) in names.iter().enumerate() {
        let bus = bit(name).map(|bit| bit.0);
        let known = buses.iter_mut().find(|known| bus.is_some() && bit(&names[known.bits[0]]).map(|bit| bit.0) == bus);
        match known {
            Some(known) => known.bits.push(k),
            None => buses.push(Bus { name: bus.unwrap_or(name), bits: vec![k] }),
        }
    }
    for bus in &mut buses {
        match bus.bits.as_slice() {
            // One bit alone is no number.
            &[single] => bus.name = &names[single],
            _ => bus.bits.sort_by_key(|&k| std::cmp::Reverse(bit(&names[k]).map(|bit| bit.1))),
        }
    }
    buses
}

/// Values by their names: `a = 4 (0100), ci = 1`. A dot is NULL, and a bus with one has no number.
pub fn values_text(names: &[String], values: &[Option<bool>]) -> String {
    let sign = |value: &Option<bool>| value.map_or('.', |value| if value { '1' } else { '0' });
    let one = |bus: Bus| {
        let digits: String = bus.bits.iter().map(|&k| values.get(k).map_or('.', sign)).collect();
        match u64::from_str_radix(&digits, 2) {
            Ok(number) if bus.bits.len() > 1 => format!("{} = {number} ({digits})", bus.name),
            _ => format!("{} = {digits}", bus.name),
        }
    };
    buses(names).into_iter().map(one).collect::<Vec<String>>().join(", ")
}
