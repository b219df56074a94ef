//! Netlists of other tools, both ways: BLIF, and Verilog through yosys, as a reference or a stage; a stage as structural Verilog with its cells and a
//! bench, and as BLIF. What is made is a file like any other: the library reads and judges it.

pub mod blif;
pub mod logic;
pub mod threshold;
pub mod verilog;
pub mod yosys;

use crate::failure::{Failure, Outcome};
use crate::input::read_within;
use std::path::Path;

/// So many bytes of a netlist are taken; a stage of 256 gates needs far less, so what is longer is something else.
pub const MOST: usize = 4 << 20;

/// A netlist that cannot be taken: why, and the line where that is known.
#[derive(Debug)]
pub struct Fault {
    pub line: Option<usize>,
    pub words: String,
}

impl Fault {
    pub fn at(line: usize, words: impl Into<String>) -> Fault {
        Fault { line: Some(line), words: words.into() }
    }

    pub fn says(words: impl Into<String>) -> Fault {
        Fault { line: None, words: words.into() }
    }

    /// As what ends the command. Of a netlist that another program wrote on the way the user has no lines to look at.
    pub fn of(self, name: &str, lines: bool) -> Failure {
        match self.line {
            Some(line) if lines => Failure::says(format!("{name}, line {line}: {}", self.words)),
            _ => Failure::says(format!("{name}: {}", self.words)),
        }
    }
}

/// The text of a netlist.
pub fn text(path: &Path) -> Outcome<(crate::input::Input, String)> {
    let input = read_within(path, MOST)?;
    if input.longer {
        return Err(Failure::says(format!("{}: has more than {MOST} bytes, too many for a netlist of one stage", input.name)));
    }
    let text = String::from_utf8(input.bytes.clone()).map_err(|_| Failure::says(format!("{}: is no text", input.name)))?;
    Ok((input, text))
}

/// Some names, the first ones, for a message.
pub fn some(names: &[String]) -> String {
    const SHOWN: usize = 24;
    let more = if names.len() > SHOWN { " .." } else { "" };
    names.iter().take(SHOWN).map(|name| printable(name)).collect::<Vec<String>>().join(" ") + more
}

/// A name for a message, without signs that would move a terminal's cursor, and not too long.
pub fn printable(name: &str) -> String {
    const LONG: usize = 60;
    let mut shown: String = name.chars().take(LONG).flat_map(|sign| sign.escape_debug()).collect();
    if name.chars().nth(LONG).is_some() {
        shown += "..";
    }
    shown
}
