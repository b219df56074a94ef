//! A file that cannot be read: the commands around the place, with a mark under it, and what is wrong there.

use super::Text;
use crate::input::{Input, MOST};
use crate::netlist::{
    commands, kind_name, length_of, many, operation_name, Command, Driver, Form, Listing, Reference, Side, Stage, ABSENT, OUTSIDE,
};
use fovaheju::Verdict;

/// How many commands are shown before and after the one that is meant.
const BEFORE: usize = 2;
const AFTER: usize = 1;
/// How many bytes of one command are shown: as many as the longest has.
const SHOWN: usize = 10;

/// How a call takes a file.
#[derive(Clone, Copy)]
pub struct Taken {
    pub side: Side,
    /// How many gates it may have.
    pub most: usize,
    /// Whether the call takes a stage as text too.
    pub texts: bool,
    /// The call, where it takes this file alone; else a stage comes with its reference.
    pub alone: Option<&'static str>,
}

/// The listing and the sentence for 1 to 9, 18 and 19.
pub fn unreadable(text: &mut Text, verdict: Verdict, file: &Input, taken: Taken) {
    let at = verdict.at as usize;
    let length = if file.longer { format!("more than {MOST}") } else { file.bytes.len().to_string() };
    text.row("file", &format!("{}, byte {at} of {length}", file.name));
    list(text, verdict, file, taken.side);
    let [found, todo] = wrong(verdict, file, taken);
    text.row("found", &found);
    text.row("to do", &todo);
}

fn list(text: &mut Text, verdict: Verdict, file: &Input, side: Side) {
    let at = verdict.at as usize;
    let listed = commands(&file.bytes, side);
    let meant = listed.iter().position(|command| at < command.at + command.bytes.len()).unwrap_or(listed.len());
    let mut listing = Listing::of(&file.bytes, side);
    let wide = if matches!(verdict.number, 5 | 9 | 18 | 19) { 5 } else { 2 };
    for (k, command) in listed.iter().enumerate() {
        let said = listing.said(command);
        if k + BEFORE < meant || k > meant + AFTER {
            continue;
        }
        let bytes = &command.bytes[..command.bytes.len().min(SHOWN)];
        let hex: Vec<String> = bytes.iter().map(|byte| format!("{byte:02X}")).collect();
        let more = if command.bytes.len() > SHOWN { " .." } else { "" };
        text.plain(&format!("{:>7}  {:<33}{said}", command.at, hex.join(" ") + more));
        if k == meant {
            text.mark(9 + 3 * (at - command.at), wide);
        }
    }
    if meant == listed.len() {
        text.plain(&format!("{at:>7}  (the file ends here)"));
        text.mark(9, 2);
    }
}

/// What is wrong at the place, and what to do.
fn wrong(verdict: Verdict, file: &Input, taken: Taken) -> [String; 2] {
    let (at, bytes, side) = (verdict.at as usize, &file.bytes[..], taken.side);
    let byte = bytes.get(at).copied().unwrap_or(0);
    let operand = usize::from(byte) | usize::from(bytes.get(at + 1).copied().unwrap_or(0)) << 8;
    let listed = commands(bytes, side);
    let command = listed.iter().find(|command| at >= command.at && at < command.at + command.bytes.len());
    let (found, todo) = match verdict.number {
        1 if bytes.is_empty() => ("the file is empty".into(), "see why nothing was written into it".into()),
        1 => (cut_off(&listed, side), "see whether it was written to its end".into()),
        2 if at == 0 && is_text(bytes) => like_a_text(file, taken),
        2 => out_of_step(byte, at, &listed, taken),
        3 => (
            format!("{}; a file has 1 to 10", many(byte.into(), "input")),
            if byte == 0 { "give the count of inputs" } else { "split the circuit, check the parts, and join them ('ncl join')" }.into(),
        ),
        4 => match side {
            Side::Stage => (
                format!("{byte:02X}, in decimal {byte}, is no kind of gate"),
                "use a kind 1 to 27, or 129 to 155 for the same cells without hold".into(),
            ),
            Side::Reference => {
                (format!("{byte:02X}, in decimal {byte}, is no operation"), "use 1 NOT, 2 AND, 3 OR, 4 XOR, 5 NAND or 6 NOR".into())
            }
        },
        5 => operand_wrong(at, operand, command, side),
        6 => too_many(command, side, taken.most),
        7 => {
            let count = if file.longer { "bytes".into() } else { many(bytes.len() - at.min(bytes.len()), "byte") };
            (format!("{count} after the end command"), "cut the file off there: end stands last".into())
        }
        8 => ("the file ends without an output".into(), "add an output command before the end".into()),
        9 => absent(operand, command, bytes, side),
        18 => {
            let inputs = bytes.get(1).copied().unwrap_or(0);
            let last = (1_u64 << inputs.min(16)) - 1;
            (
                format!("care word {operand}, but words of {} are 0 to {last}", many(inputs.into(), "input")),
                "give a word of the inputs that are there; input i is bit i".into(),
            )
        }
        _ => (format!("care word {operand} is not above the one before it"), "give the care words in rising order, each once".into()),
    };
    [found, todo]
}

/// Whether the first line is one of names, as that of a text: letters, digits, underscores and commas. It decides what is said, not what
/// is read.
fn is_text(bytes: &[u8]) -> bool {
    let line = bytes.split(|&byte| byte == b'\n').next().unwrap_or_default();
    let of_name = |byte: &u8| byte.is_ascii_alphanumeric() || b"_,\r".contains(byte);
    !line.is_empty() && line.len() < bytes.len() && line.iter().all(of_name)
}

/// 2: a text in place of a file.
fn like_a_text(file: &Input, taken: Taken) -> (String, String) {
    let this = if taken.side == Side::Stage { "stage file" } else { "reference" };
    let todo = match taken.side {
        Side::Stage if taken.texts => "where it is a stage in the line form, say so: --text, or a name that ends in .txt".into(),
        Side::Stage => {
            format!("where it is a stage in the line form, make a stage file of it first: ncl text read {} NEW-STAGE", file.name)
        }
        Side::Reference => "give a reference file: a reference has no line form".into(),
    };
    (format!("the file begins like a text, and a {this} with its inputs (01)"), todo)
}

/// 2: no command of this file, or the inputs command where it does not belong.
fn out_of_step(byte: u8, at: usize, listed: &[Command], taken: Taken) -> (String, String) {
    let side = taken.side;
    let (this, other) = match side {
        Side::Stage => ("stage", "reference"),
        Side::Reference => ("reference", "stage"),
    };
    if byte == 0x01 && at > 0 {
        return ("the inputs command comes a second time".into(), "give the inputs once, at the start".into());
    }
    // The check never answers this: it reads them.
    if side == Side::Stage && at > 0 && [0x04, 0x05].contains(&byte) {
        let what = if byte == 0x04 { "a register" } else { "a C-element" };
        return (
            format!("{byte:02X} is {what}, and only the check reads registers and C-elements"),
            "give such a stage to 'ncl check' and 'ncl explain'; every other call takes one without them, with the gates of one level"
                .into(),
        );
    }
    let known = listed.iter().any(|command| command.at == at && command.form.is_some());
    if known {
        return (format!("a {this} begins with its inputs (01), not with {byte:02X}"), "put the inputs command first".into());
    }
    let of_other = match side {
        Side::Stage => [0x11, 0x12].contains(&byte),
        Side::Reference => (0x02..=0x06).contains(&byte),
    };
    let todo = match taken.alone {
        Some(call) if of_other => format!("{byte:02X} is a command of a {other}, so this is one: '{call}' takes a {this}"),
        None if of_other => format!("{byte:02X} is a command of a {other}: give the stage first and its reference second, each once"),
        _ => "see whether this is the right file, and whether the command before it has all its operands".into(),
    };
    (format!("{byte:02X} is no command of a {this}"), todo)
}

/// 5: an operand left out that the kind or operation needs, or one given that it lacks.
fn operand_wrong(at: usize, operand: usize, command: Option<&Command>, side: Side) -> (String, String) {
    let Some(command) = command.filter(|command| command.bytes.len() > 1) else { return Default::default() };
    if command.form == Some(Form::Element) {
        let pin = ["A", "B", "C", "D"][((at - command.at).saturating_sub(1) / 2).min(3)];
        return match operand {
            ABSENT => (format!("a C-element waits for A and B at least, and its pin {pin} is FFFF"), format!("give pin {pin}")),
            _ => ("pin D of the C-element is used, and its pin C is FFFF".into(), "use pin C first, or write FFFF here".into()),
        };
    }
    let place = (at - command.at).saturating_sub(2) / 2;
    let kind = command.bytes[1];
    let (name, which) = match side {
        Side::Stage => (kind_name(kind).unwrap_or_default(), format!("pin {}", ["A", "B", "C", "D"][place.min(3)])),
        Side::Reference => {
            let name = operation_name(kind).unwrap_or_default();
            (name.to_string(), format!("{} operand", ["first", "second"][place.min(1)]))
        }
    };
    let sort = if side == Side::Stage { "kind" } else { "operation" };
    if operand == ABSENT {
        (format!("{name} has a {which}, and FFFF stands for none"), format!("give the {which}, or use another {sort}"))
    } else {
        (format!("{name} has no {which}, but {operand} is given"), format!("write FFFF here, or use another {sort}"))
    }
}

/// 1: what is missing at the end.
fn cut_off(listed: &[Command], side: Side) -> String {
    match listed.last().filter(|command| command.form.is_none()) {
        Some(command) => {
            let whole = length_of(side, command.bytes[0]).unwrap_or_default();
            let there = many(command.bytes.len(), "byte");
            format!("the file ends within the command at byte {}: {there} of {whole}", command.at)
        }
        None => "the file ends before its end command (00)".into(),
    }
}

/// 6: one gate or output too many.
fn too_many(command: Option<&Command>, side: Side, most: usize) -> (String, String) {
    let whole = if side == Side::Stage { 256 } else { 512 };
    let whose = match side {
        _ if most < whole => "a part of a join",
        Side::Stage => "a stage",
        Side::Reference => "a reference",
    };
    match command.and_then(|command| command.form) {
        Some(Form::Output | Form::Signal) => ("a 17th output".into(), "split the circuit: a file has at most 16 outputs".into()),
        Some(Form::Register) => ("a 65th register".into(), "split the pipeline: a stage has at most 64 registers".into()),
        Some(Form::Element) => {
            ("a 65th C-element".into(), "use pins C and D of the others, or split the pipeline: a stage has at most 64".into())
        }
        _ => (format!("one gate more than {most}"), format!("split the circuit: {whose} has at most {most} gates")),
    }
}

/// 9 where there are registers or C-elements: a net that is not there, or may not stand at this place.
fn not_here(operand: usize, command: Option<&Command>, stage: &Stage) -> (String, String) {
    let place = match command.and_then(|command| command.form) {
        Some(Form::Register) => "a data rail of a register",
        Some(Form::Element) => "a pin of a C-element",
        Some(Form::Output) => "a rail of an output",
        _ => "a pin of a gate",
    };
    match (operand, stage.source(operand)) {
        (ABSENT, _) => ("FFFF stands for no net, and this place needs one".into(), "name a net here".into()),
        (OUTSIDE, _) => (
            format!("FFFE is the outside at a Ki, and this is {place}"),
            "name a net here; FFFE stands only at the Ki of a register that reaches no other".into(),
        ),
        (_, Driver::Ko(_) | Driver::Element(_)) => (
            format!("{} carries no data, and this is {place}", stage.net_name(operand)),
            "name an input, a gate or a rail of a register; a Ko or a C-element stands at a Ki or at a pin of a C-element".into(),
        ),
        _ => {
            let last = stage.all_nets().saturating_sub(1);
            let data = stage.nets();
            let parts = if data <= last { format!(", from {data} on those of registers and C-elements") } else { String::new() };
            (format!("net {operand} is not there: the stage has nets 0 to {last}{parts}"), "name a net that is there".into())
        }
    }
}

/// 9: a net or signal that is not there, or not yet.
fn absent(operand: usize, command: Option<&Command>, bytes: &[u8], side: Side) -> (String, String) {
    let none = if operand == ABSENT { " (FFFF)" } else { "" };
    match side {
        Side::Stage if Stage::of(bytes).has_parts() || operand == OUTSIDE => not_here(operand, command, &Stage::of(bytes)),
        Side::Stage => {
            let stage = Stage::of(bytes);
            let inputs = 2 * stage.inputs;
            let gates = match stage.gates.len() {
                0 => "there are no gates".to_string(),
                1 => format!("the gate drives net {inputs}"),
                count => format!("the {count} gates drive nets {inputs} to {}", inputs + count - 1),
            };
            let nets = format!("inputs have nets 0 to {}, {gates}", inputs.saturating_sub(1));
            (format!("net {operand}{none} is not there: {nets}"), "name a net that is there".into())
        }
        Side::Reference => {
            let reference = Reference::of(bytes);
            let signals = reference.inputs + reference.gates.len();
            let is_gate = command.is_some_and(|command| command.form == Some(Form::Operation));
            if is_gate && operand < signals {
                (
                    format!("signal {operand} comes later than this gate, or is the gate itself"),
                    "let the gate use inputs and earlier gates".into(),
                )
            } else {
                let last = signals.saturating_sub(1);
                (format!("signal {operand}{none} is not there: the file has signals 0 to {last}"), "name a signal that is there".into())
            }
        }
    }
}
