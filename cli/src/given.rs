//! A stage as it is given: a stage file, or a text in the line form, of which the library makes one. That it is a text is said by an option
//! or by its name, never by what it holds.

use crate::explain::Order;
use crate::failure::{Failure, Outcome};
use crate::input::{read_within, Input, MOST};
use crate::names::NamesFile;
use crate::netlist::{Names, Reference, Stage};
use fovaheju::{Verdict, MADE_STAGE};
use std::path::Path;

/// So many bytes of a text are taken, and a longer one is refused in words: a cut could leave a text that reads.
pub const MOST_TEXT: usize = 32_768;

pub struct Given {
    /// What was read.
    pub input: Input,
    /// Of a text: the answer of reading it, and the stage file that was made.
    made: Option<(Verdict, Vec<u8>)>,
    /// What its inputs and outputs are called, where a names file says it.
    names: Option<Names>,
}

/// Whether a name asks for a text.
pub fn names_text(path: &Path) -> bool {
    path.as_os_str().as_encoded_bytes().ends_with(b".txt")
}

impl Given {
    /// Reads a stage, or standard input for '-'. It is a text where that is asked for, or its name ends in .txt.
    pub fn read(path: &Path, text: bool) -> Outcome<Given> {
        if text || names_text(path) {
            Given::text(path)
        } else {
            Ok(Given::file(read_within(path, MOST)?))
        }
    }

    /// A stage file.
    pub fn file(input: Input) -> Given {
        Given { input, made: None, names: None }
    }

    /// Reads a text.
    pub fn text(path: &Path) -> Outcome<Given> {
        let input = read_within(path, MOST_TEXT)?;
        if input.longer {
            let words = format!("{}: has more than {MOST_TEXT} bytes, and no text of a stage has more than 27322", input.name);
            return Err(Failure::says(words));
        }
        let mut file = vec![0; MADE_STAGE];
        let written = fovaheju::read_text(&input.bytes, &mut file);
        file.truncate(written.count as usize);
        Ok(Given { input, made: Some((written.verdict, file)), names: None })
    }

    pub fn name(&self) -> &str {
        &self.input.name
    }

    /// The bytes of the stage file; none of a text that is refused.
    pub fn bytes(&self) -> &[u8] {
        self.made.as_ref().map_or(&self.input.bytes, |made| &made.1)
    }

    /// The verdict that refuses the text.
    pub fn refused(&self) -> Option<Verdict> {
        self.made.as_ref().map(|made| made.0).filter(|verdict| !verdict.accepts())
    }

    /// The verdict on the stage and a reference.
    pub fn check(&self, order: Order, reference: &[u8]) -> Verdict {
        self.refused().unwrap_or_else(|| fovaheju::check(order.mark(), self.bytes(), reference))
    }

    /// The verdict of reading the stage without registers: a text's, or that of the settled-row call with all inputs NULL, which is 0 or 12 where it
    /// reads.
    pub fn plain_verdict(&self) -> Verdict {
        self.refused().unwrap_or_else(|| fovaheju::settled_row(self.bytes(), &mut vec![0; Stage::of(self.bytes()).nets()]))
    }

    /// The verdict of reading the stage. One with registers only the check reads: it is asked with a reference of as many inputs and outputs, and what it
    /// says of registers counts too, 33 to 35, but nothing that follows.
    pub fn read_verdict(&self) -> Verdict {
        let stage = Stage::of(self.bytes());
        if self.refused().is_some() || !stage.has_parts() {
            return self.plain_verdict();
        }
        let outputs = vec![0; stage.outputs.len().clamp(1, 16)];
        let reference = Reference { inputs: stage.inputs.clamp(1, 10), outputs, ..Reference::default() };
        let verdict = fovaheju::check(Order::default().mark(), self.bytes(), &reference.encoded());
        if matches!((verdict.number, verdict.file), (1..=9 | 12 | 18 | 19 | 33..=35, 1)) {
            verdict
        } else {
            Verdict::ACCEPTED
        }
    }

    /// Whether it reads: whether it holds a stage, with loops or without, its registers well wired or not.
    pub fn reads(&self) -> bool {
        matches!(self.read_verdict().number, 0 | 12 | 33..=35)
    }

    /// The stage as its runs see it, where it has registers: each of them is two wires. Other calls than the check take it then. There is none
    /// where the registers or the gates have loops.
    pub fn wired(&self) -> Option<Given> {
        let stage = self.stage();
        if !stage.has_parts() || !self.read_verdict().accepts() {
            return None;
        }
        let input = Input { bytes: stage.wired(), ..self.input.clone() };
        Some(Given { input, made: None, names: self.names.clone() })
    }

    /// The same by the names of a file, which has to fit a stage that reads.
    pub fn called(self, file: NamesFile) -> Outcome<Given> {
        if self.reads() {
            let stage = Stage::of(self.bytes());
            file.fit(stage.inputs, stage.outputs.len())?;
            return Ok(Given { names: Some(file.names), ..self });
        }
        Ok(self)
    }

    /// What the stage holds, with the names of the text where it came as one, or of a names file.
    pub fn stage(&self) -> Stage {
        let spelt = (self.made.is_some() && self.refused().is_none()).then(|| names(&self.input.bytes));
        let names = match (&self.names, spelt) {
            (Some(called), spelt) => Some(Names { gates: spelt.unwrap_or_default().gates, ..called.clone() }),
            (None, spelt) => spelt,
        };
        Stage { names, ..Stage::of(self.bytes()) }
    }
}

/// The names in a text that reads.
fn names(text: &[u8]) -> Names {
    let text = String::from_utf8_lossy(text);
    let mut lines = text.lines();
    let mut list = || lines.next().unwrap_or_default().split(',').map(str::to_string).collect();
    let (inputs, outputs) = (list(), list());
    let gates = lines.map(|line| line.rsplit(' ').next().unwrap_or_default().to_string()).collect();
    Names { inputs, outputs, gates }
}
