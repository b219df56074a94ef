//! A text that gives no stage: the lines around the place, with a mark under it, and what is wrong there. Which line it is, and why by its
//! number, the library says; here is only looked for what a reader wants to see in that line.

use super::Text;
use crate::given::Given;
use crate::netlist::{kind_name, many, pin_count};
use fovaheju::Verdict;
use std::collections::HashMap;
use strsim::jaro_winkler;

/// The most characters of a name in lines 0 and 1, and of a pin or a net.
const NAME: usize = 16;
const NET: usize = 18;
/// How many signs of a long line are shown, and how many of them before the mark.
const WIDE: usize = 80;
const BEFORE: usize = 40;
/// Names that are at least so much alike are shown; 1 is the same name.
const ALIKE: f64 = 0.85;

/// What is wrong in a line: where, and in words.
struct Fault {
    line: usize,
    from: usize,
    wide: usize,
    /// Another line that belongs to it.
    also: Option<usize>,
    found: String,
    todo: String,
}

/// The listing and the sentences for 29 to 31, and for 3, 5 and 6 of the stage file that a text would give. `instead` is what to do with a
/// stage file that was taken for a text.
pub fn refused(text: &mut Text, verdict: Verdict, given: &Given, instead: &str) {
    let lines = Lines::of(&given.input.bytes);
    let at = verdict.at as usize;
    let fault = match verdict.number {
        29 if at == 0 && is_stage_file(&given.input.bytes) => {
            let found = "the file begins like a stage file, with its inputs (01), and a text with their names";
            lines.fault(0, (0, &given.input.bytes[..1]), found.into(), instead)
        }
        3 => lines.too_many_inputs(),
        5 => lines.wrong_pins(at),
        6 => lines.too_many(),
        29 => lines.of_another_form(at),
        30 => lines.not_driven(at),
        _ => lines.driven_again(at),
    };
    text.row("text", &format!("{}, line {} (the first line is line 0)", given.name(), fault.line));
    lines.list(text, &fault);
    text.row("found", &fault.found);
    text.row("to do", &fault.todo);
}

/// The lines of a text, and whether the last one ends in a newline.
struct Lines<'a> {
    lines: Vec<&'a [u8]>,
    ended: bool,
}

/// Whether a file begins with the inputs command. It decides what is said, not what is read.
fn is_stage_file(bytes: &[u8]) -> bool {
    matches!(bytes, [1, 1..=10, 0..=6, ..])
}

/// A part of a line, and where it begins.
type Part<'a> = (usize, &'a [u8]);

/// The parts of some bytes between separators, each with its place in the line.
fn split((start, bytes): Part, by: u8) -> Vec<Part> {
    let mut at = start;
    let mut parts = Vec::new();
    for part in bytes.split(|&byte| byte == by) {
        parts.push((at, part));
        at += part.len() + 1;
    }
    parts
}

fn words(bytes: &[u8]) -> String {
    String::from_utf8_lossy(bytes).chars().map(|sign| if sign.is_control() { '?' } else { sign }).collect()
}

impl<'a> Lines<'a> {
    fn of(text: &'a [u8]) -> Lines<'a> {
        let mut lines: Vec<&[u8]> = text.split(|&byte| byte == b'\n').collect();
        let ended = lines.last().is_some_and(|last| last.is_empty());
        if ended {
            lines.pop();
        }
        Lines { lines, ended }
    }

    fn line(&self, line: usize) -> &'a [u8] {
        self.lines.get(line).copied().unwrap_or_default()
    }

    /// The names of line 0 or 1.
    fn names(&self, line: usize) -> Vec<Part<'a>> {
        split((0, self.line(line)), b',')
    }

    /// Kind, pins and net of a gate's line.
    fn parts(&self, line: usize) -> Vec<Part<'a>> {
        split((0, self.line(line)), b' ')
    }

    fn pins(&self, line: usize) -> Vec<Part<'a>> {
        self.parts(line).get(1).map_or(Vec::new(), |&pins| split(pins, b','))
    }

    fn net(&self, line: usize) -> Part<'a> {
        self.parts(line).last().copied().unwrap_or_default()
    }

    /// The line of the place with those before and after it, and the mark.
    fn list(&self, text: &mut Text, fault: &Fault) {
        let first = fault.line.saturating_sub(1);
        if let Some(also) = fault.also.filter(|&also| also < first) {
            text.plain(&format!("{also:>7}  {}", shown(self.line(also), 0).0));
            if also + 1 < first {
                text.plain("     ..");
            }
        }
        for line in first..=fault.line + 1 {
            if line == fault.line {
                let (words, cut) = shown(self.line(line), fault.from);
                let missing = if line >= self.lines.len() { "(the text ends here)" } else { "" };
                text.plain(&format!("{line:>7}  {words}{missing}"));
                text.mark(9 + fault.from - cut, fault.wide.clamp(1, WIDE - BEFORE));
            } else if line < self.lines.len() {
                text.plain(&format!("{line:>7}  {}", shown(self.line(line), 0).0));
            }
        }
    }

    fn fault(&self, line: usize, (from, part): Part, found: String, todo: &str) -> Fault {
        Fault { line, from, wide: part.len().max(1), also: None, found, todo: todo.into() }
    }

    /// 29: a line of another form, or one that is not there.
    fn of_another_form(&self, line: usize) -> Fault {
        let whole = (0, self.line(line));
        if line >= self.lines.len() {
            let (found, todo) = match line {
                0 => ("the text is empty", "see why nothing was written into it; line 0 has the names of the inputs"),
                _ => ("the text has no line 1", "write the names of the outputs into line 1"),
            };
            return self.fault(line, whole, found.into(), todo);
        }
        if whole.1.is_empty() {
            return self.fault(line, whole, "the line is empty".into(), "take it out: every line is a list of names or a gate");
        }
        let fault = if line < 2 { self.wrong_names(line) } else { self.wrong_gate(line) };
        let last = line + 1 == self.lines.len() && !self.ended;
        fault.unwrap_or_else(|| match last {
            true => self.fault(line, (whole.1.len(), b""), "the last line has no newline".into(), "end it with a newline"),
            false => self.fault(line, whole, "the line is of another form".into(), FORM),
        })
    }

    /// What is wrong in line 0 or 1.
    fn wrong_names(&self, line: usize) -> Option<Fault> {
        self.names(line).into_iter().find_map(|name| self.wrong_name(line, name, NAME))
    }

    /// What is wrong with a name.
    fn wrong_name(&self, line: usize, (at, name): Part, most: usize) -> Option<Fault> {
        if name.is_empty() {
            let todo = "one comma stands between two names, and none at either end";
            return Some(self.fault(line, (at, name), "a name is missing".into(), todo));
        }
        let odd = |&byte: &u8| !byte.is_ascii_alphanumeric() && byte != b'_';
        if let Some(k) = name.iter().position(odd) {
            return Some(self.odd_byte(line, at + k));
        }
        let too_long = name.len() > most;
        let what = if line < 2 { "a name" } else { "a pin or a net" };
        too_long.then(|| {
            let todo = format!("use a shorter name: {what} has at most {most}");
            self.fault(line, (at, name), format!("{what} of {} characters", name.len()), &todo)
        })
    }

    /// A byte that cannot stand in a name.
    fn odd_byte(&self, line: usize, at: usize) -> Fault {
        let rest = &self.line(line)[at..];
        match rest {
            [b'\r'] => {
                let todo = "save the text with plain newlines: tr -d '\\r' < TEXT > NEW-TEXT does it";
                self.fault(line, (at, rest), "the line ends in a carriage return before its newline".into(), todo)
            }
            [0xEF, 0xBB, 0xBF, ..] if line == 0 && at == 0 => {
                let found = "the text begins with a byte order mark, EF BB BF, and a name has letters, digits and underscores";
                self.fault(line, (at, &rest[..3]), found.into(), "save the text without a byte order mark, as plain ASCII")
            }
            [b' ', ..] if line < 2 => {
                let todo =
                    "one comma stands between two names, and no space. Lines 0 and 1 have the names of inputs and outputs, gates follow";
                self.fault(line, (at, &rest[..1]), "a space".into(), todo)
            }
            [b'\t', ..] if line >= 2 => self.fault(line, (at, &rest[..1]), "byte 09, a tab".into(), FORM),
            _ => {
                let (sign, wide) = sign_at(rest);
                let found = format!("{sign} cannot stand in a name");
                self.fault(line, (at, &rest[..wide]), found, "use letters, digits and underscores")
            }
        }
    }

    /// What is wrong in a gate's line.
    fn wrong_gate(&self, line: usize) -> Option<Fault> {
        // Where a sign cannot be seen, or is of another alphabet, the parts of the line would mislead.
        let hidden = |byte: &u8| byte.is_ascii_control() || !byte.is_ascii();
        if let Some(at) = self.line(line).iter().position(hidden) {
            return Some(self.odd_byte(line, at));
        }
        let parts = self.parts(line);
        let &kind = parts.first()?;
        if !kind.1.is_empty() && kind_of(kind.1).is_none() {
            return Some(self.fault(line, kind, format!("{} is no kind of gate", words(kind.1)), &kind_meant(kind.1)));
        }
        if let Some(&(at, _)) = parts.iter().find(|part| part.1.is_empty()) {
            let place = (at.min(self.line(line).len() - 1), &b" "[..]);
            return Some(self.fault(line, place, "a space too many".into(), FORM));
        }
        if parts.len() != 3 {
            let found = format!("the line has {}, and a gate has three", many(parts.len(), "part"));
            let place = parts.get(3).copied().unwrap_or((self.line(line).len(), b""));
            return Some(self.fault(line, place, found, FORM));
        }
        let pins = self.pins(line);
        if let Some(fault) = pins.iter().find_map(|&pin| self.wrong_name(line, pin, NET)) {
            return Some(fault);
        }
        if let Some(&pin) = pins.get(4) {
            let found = format!("{}; a gate has 1 to 4", many(pins.len(), "pin"));
            return Some(self.fault(line, pin, found, "give as many pins as the kind has, or split the gate"));
        }
        self.wrong_name(line, self.net(line), NET)
    }

    /// The names that are driven, each with the least line that drives it.
    fn driven(&self) -> HashMap<Vec<u8>, usize> {
        let mut driven = HashMap::new();
        for line in (2..self.lines.len()).rev() {
            driven.insert(self.net(line).1.to_vec(), line);
        }
        for (_, name) in self.names(0) {
            for rail in RAILS {
                driven.insert([name, rail].concat(), 0);
            }
        }
        driven
    }

    /// 30: a name that nobody drives.
    fn not_driven(&self, line: usize) -> Fault {
        let driven = self.driven();
        let missing = |name: &[u8]| !driven.contains_key(name);
        if line < 2 {
            let rails = |name: &[u8]| RAILS.map(|rail| [name, rail].concat());
            let outputs = self.names(line).into_iter();
            let part = outputs.into_iter().find(|part| rails(part.1).iter().any(|rail| missing(rail))).unwrap_or_default();
            let lost: Vec<String> = rails(part.1).iter().filter(|rail| missing(rail)).map(|rail| words(rail)).collect();
            let found = format!("nobody drives {}; the rails of an output are its name with _0 and _1", lost.join(" and "));
            let todo = match is_rail(part.1) {
                true => SIGNALS,
                false => "let a gate drive each rail, or write the name of a signal whose rails are both driven",
            };
            return self.fault(line, part, found, todo);
        }
        let pins = self.pins(line).into_iter().zip(["A", "B", "C", "D"]);
        let (part, letter) = pins.into_iter().find(|(part, _)| missing(part.1)).unwrap_or_default();
        let found = format!("nobody drives {}, pin {letter} of this gate", words(part.1));
        if self.names(0).iter().any(|name| name.1 == part.1 && is_rail(name.1)) {
            return self.fault(line, part, found + "; line 0 has it as the name of a whole signal", SIGNALS);
        }
        let mut todo = "write the name of an input's rail or of a gate's net, or add the gate that drives it".to_string();
        let near = alike(part.1, driven.keys());
        if !near.is_empty() {
            todo += &format!(". Names like it that are driven: {}", near.join(", "));
        }
        self.fault(line, part, found, &todo)
    }

    /// 31: a name that is driven again.
    fn driven_again(&self, line: usize) -> Fault {
        if line == 0 {
            let names = self.names(0);
            let again = names.iter().enumerate().find(|(k, name)| names[..*k].iter().any(|other| other.1 == name.1));
            let place = again.map_or((0, self.line(0)), |(_, &name)| name);
            let found = format!("input {} is there twice", words(place.1));
            return self.fault(0, place, found, "give each input a name of its own");
        }
        let net = self.net(line);
        let by = self.driven().get(net.1).copied().unwrap_or(0);
        let whose = if by == 0 { "an input (line 0)".to_string() } else { format!("the gate of line {by}") };
        let found = format!("{} is driven already, by {whose}", words(net.1));
        let todo = "give the net of this line another name, or take one of the two lines out";
        Fault { also: Some(by), ..self.fault(line, net, found, todo) }
    }

    /// 3: more than 10 inputs.
    fn too_many_inputs(&self) -> Fault {
        let names = self.names(0);
        let found = format!("{}; a stage has 1 to 10", many(names.len(), "input"));
        let place = names.get(10).copied().unwrap_or_default();
        self.fault(0, place, found, "split the circuit, check the parts, and join them ('ncl join')")
    }

    /// 6: a 257th gate, or a 17th output.
    fn too_many(&self) -> Fault {
        let gates = self.lines.len().saturating_sub(2);
        if gates > 256 {
            let found = format!("{}; a stage has at most 256", many(gates, "gate"));
            return self.fault(258, (0, self.line(258)), found, "split the circuit, check the parts, and join them ('ncl join')");
        }
        let names = self.names(1);
        let found = format!("{}; a stage has at most 16", many(names.len(), "output"));
        self.fault(1, names.get(16).copied().unwrap_or_default(), found, "split the circuit: a stage has at most 16 outputs")
    }

    /// 5: a gate with a pin too few or too many. The place is in the file that would be made: gates of ten bytes behind the two of the inputs.
    fn wrong_pins(&self, at: usize) -> Fault {
        let gate = at.saturating_sub(2) / 10;
        let line = gate + 2;
        let pins = self.pins(line);
        let kind = self.parts(line).first().and_then(|part| kind_of(part.1)).unwrap_or(0);
        let name = kind_name(kind).unwrap_or_default();
        let count = pin_count(kind).unwrap_or(0);
        let found = format!("{name} has {}, and {} given", many(count, "pin"), are(pins.len()));
        let place = pins.get(count).copied().unwrap_or_else(|| {
            let &(at, last) = pins.last().unwrap_or(&(0, b""));
            (at + last.len(), b"")
        });
        self.fault(line, place, found, &format!("give {name} {}, or use a kind that has {}", many(count, "pin"), pins.len()))
    }
}

const RAILS: [&[u8]; 2] = [b"_0", b"_1"];
const SIGNALS: &str = "lines 0 and 1 have signals, each once and without _0 and _1: a for a_0 and a_1";
const FORM: &str = "a gate's line is its kind, its pins and its net, with one space between them and one comma between pins";

/// Whether a name is written like that of a rail.
fn is_rail(name: &[u8]) -> bool {
    RAILS.iter().any(|rail| name.ends_with(rail))
}

/// The first sign of some bytes in words, and how many bytes it has.
fn sign_at(bytes: &[u8]) -> (String, usize) {
    let called = |byte: u8| match byte {
        0 => ", a zero byte,",
        b'\t' => ", a tab,",
        b'\r' => ", a carriage return,",
        0x1B => ", an escape,",
        0x7F => ", a delete,",
        _ => "",
    };
    let whole = (1..=bytes.len().min(4)).find_map(|wide| Some((std::str::from_utf8(&bytes[..wide]).ok()?, wide)));
    match whole {
        Some((sign, wide)) if !sign.chars().any(char::is_control) => (format!("'{sign}'"), wide),
        _ => {
            let byte = bytes.first().copied().unwrap_or(0);
            (format!("byte {byte:02X}{}", called(byte)), 1)
        }
    }
}

fn are(count: usize) -> String {
    format!("{count} {}", if count == 1 { "is" } else { "are" })
}

/// A line for a reader, a sign for each byte, and how many bytes at its start are left out.
fn shown(line: &[u8], mark: usize) -> (String, usize) {
    let sign = |&byte: &u8| match byte {
        0..=0x1F => char::from_u32(0x2400 + u32::from(byte)).unwrap_or('?'),
        0x20..=0x7E => char::from(byte),
        _ => '\u{FFFD}',
    };
    let from = if mark + BEFORE > WIDE { (mark - BEFORE).min(line.len()) } else { 0 };
    let mut words: String = line[from..].iter().take(WIDE).map(sign).collect();
    if line.len() > from + WIDE {
        words += " ..";
    }
    (words, from)
}

/// A kind by its name.
fn kind_of(name: &[u8]) -> Option<u8> {
    kinds().find(|&kind| kind_name(kind).is_some_and(|known| known.as_bytes() == name))
}

fn kinds() -> impl Iterator<Item = u8> {
    (1..=27).chain(129..=155)
}

/// What to write in place of a kind that is unknown.
fn kind_meant(name: &[u8]) -> String {
    let known: Vec<String> = kinds().filter_map(kind_name).collect();
    let given = words(name);
    if let Some(meant) = known.iter().find(|known| known.eq_ignore_ascii_case(&given)) {
        return format!("write {meant}: small and capital letters count");
    }
    let near = alike(name, known.iter().map(String::as_bytes));
    let meant = if near.is_empty() { "docs/FILES.md lists the kinds".into() } else { format!("kinds like it are {}", near.join(", ")) };
    format!("use a kind of gate: {meant}. Registers and C-elements have no line in this form; leave them out")
}

/// Names that differ little from one, the nearest first.
fn alike<N: AsRef<[u8]>>(name: &[u8], among: impl Iterator<Item = N>) -> Vec<String> {
    let name = words(name);
    let mut near: Vec<(f64, String)> = among.map(|other| words(other.as_ref())).map(|other| (jaro_winkler(&name, &other), other)).collect();
    near.retain(|(alike, _)| *alike >= ALIKE);
    near.sort_by(|a, b| b.0.total_cmp(&a.0).then_with(|| a.1.cmp(&b.1)));
    near.into_iter().take(3).map(|(_, other)| other).collect()
}
