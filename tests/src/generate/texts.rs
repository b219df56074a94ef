//! Texts to read stages from, and stage files to write texts of (document 02, M-109), with buffers.

use super::*;
use crate::judge::{ROW, STAGE};
use crate::text::{kind_name, text_of_file, LONGEST_NAME, LONGEST_NET, MOST_INPUTS};
use std::collections::BTreeMap;

/// What is read, a text or a stage file, and the buffer that is lent for the other.
#[derive(Clone, PartialEq, Eq, Debug)]
pub struct TextCase {
    pub source: Vec<u8>,
    pub buffer: Vec<u8>,
}

/// A generated text or stage file with a buffer.
#[derive(Clone, Debug)]
pub struct GeneratedText {
    pub family: &'static str,
    pub case: TextCase,
    pub known: Known,
    /// What is written, where that is known by the way the case was made.
    pub written: Option<Vec<u8>>,
}

// ---------------------------------------------------------------------------
// Stages with names.

/// How long names are.
#[derive(Clone, Copy, PartialEq, Eq)]
enum Style {
    /// Of all lengths, most of them short.
    Mixed,
    /// Signals of 16 characters, nets of 18.
    Longest,
}

/// A stage that can be spelt in lines, with the names of its inputs, outputs and gates.
#[derive(Clone)]
struct Named {
    stage: Stage,
    inputs: Vec<String>,
    outputs: Vec<String>,
    gates: Vec<String>,
}

impl Named {
    fn net(&self, net: usize) -> String {
        match net.checked_sub(2 * self.inputs.len()) {
            Some(gate) => self.gates[gate].clone(),
            None => format!("{}_{}", self.inputs[net / 2], net % 2),
        }
    }

    /// The lines, without newlines.
    fn lines(&self) -> Vec<Vec<u8>> {
        let gates = self.stage.gates.iter().zip(&self.gates);
        let gates = gates.map(|(gate, net)| {
            let pins: Vec<String> = gate.pins.iter().map(|&pin| self.net(pin)).collect();
            format!("{} {} {net}", kind_name(gate.kind), pins.join(","))
        });
        let names = [self.inputs.join(","), self.outputs.join(",")];
        names
            .into_iter()
            .chain(gates)
            .map(String::into_bytes)
            .collect()
    }
}

/// Each line with a newline behind it.
fn text_of(lines: &[Vec<u8>]) -> Vec<u8> {
    let ended = lines.iter().map(|line| [&line[..], b"\n"].concat());
    ended.collect::<Vec<_>>().concat()
}

const CHARACTERS: &[u8; 63] = b"abcdefghijklmnopqrstuvwxyzABCDEFGHIJKLMNOPQRSTUVWXYZ0123456789_";

fn characters(random: &mut Random, count: usize) -> String {
    let character = |_| char::from(random.pick(CHARACTERS));
    (0..count).map(character).collect()
}

/// A name of at most so many characters.
fn name(random: &mut Random, longest: usize, style: Style) -> String {
    if style == Style::Longest {
        return characters(random, longest);
    }
    let number = random.below(40);
    match random.below(12) {
        0 => characters(random, 1),
        1 => format!("{number}"),
        2 => "_".repeat(random.from_to(1, longest)),
        // Names that look like rails, and like written ones.
        3 => format!("{}_{}", characters(random, 1), random.below(2)),
        4 => format!("{}{number}", random.pick(&["x", "y", "g"])),
        5 => format!("{}{number}_{}", random.pick(&["x", "y"]), random.below(2)),
        6 => {
            let count = random.pick(&[longest, longest, longest - 1]);
            characters(random, count)
        }
        7 => {
            let count = random.from_to(1, longest);
            characters(random, count)
        }
        _ => format!("{}{number}", characters(random, 1)),
    }
}

/// A name for which `fits` holds.
fn new_name(
    random: &mut Random,
    longest: usize,
    style: Style,
    fits: impl Fn(&str) -> bool,
) -> String {
    loop {
        let name = name(random, longest, style);
        if fits(&name) {
            return name;
        }
    }
}

fn rails_of(name: &str) -> [String; 2] {
    [format!("{name}_0"), format!("{name}_1")]
}

/// Whether an output is an input pair, rail 0 first.
fn is_input_pair(stage: &Stage, rails: [usize; 2]) -> bool {
    (0..stage.inputs).any(|input| rails == [2 * input, 2 * input + 1])
}

/// Makes the outputs of a stage such that they can be named: an input pair, or two gates that are
/// no rails of another output, unless `repeats` lets an output come again. Other rails get a gate
/// that repeats them.
fn make_nameable(random: &mut Random, stage: &mut Stage, repeats: bool) {
    let mut taken: BTreeSet<usize> = (0..2 * stage.inputs).collect();
    for output in 0..stage.outputs.len() {
        let rails = stage.outputs[output];
        let before = &stage.outputs[..output];
        if is_input_pair(stage, rails) || repeats && before.contains(&rails) {
            continue;
        }
        for rail in 0..2 {
            let net = stage.outputs[output][rail];
            if taken.contains(&net) {
                let kind = random.from_to(1, 27);
                let pins = vec![net; pin_count(kind)];
                stage.gates.push(Gate { kind, pins });
                stage.outputs[output][rail] = stage.nets() - 1;
            }
            taken.insert(stage.outputs[output][rail]);
        }
    }
}

/// Any stage: accepted ones, and random ones with loops, of all kinds.
fn any_stage(random: &mut Random) -> Stage {
    let mut stage = if random.chance(1, 3) {
        let size = size(random);
        accepted(random, size).0
    } else {
        let inputs = random.pick(&[1, 1, 2, 2, 3, 4, 7, 10]);
        let gates = random.pick(&[0, 1, 2, 3, 4, 6, 12, 40]);
        let outputs = random.pick(&[1, 1, 1, 2, 2, 3, 5, 16]);
        let mut stage = random_stage(random, inputs, gates, outputs);
        let nets = stage.nets();
        for gate in &mut stage.gates {
            for pin in &mut gate.pins {
                if random.chance(1, 4) {
                    *pin = random.below(nets);
                }
            }
        }
        for rails in &mut stage.outputs {
            if random.chance(1, 3) {
                let input = random.below(inputs);
                *rails = [2 * input, 2 * input + 1];
            }
        }
        if outputs > 1 && random.chance(1, 4) {
            stage.outputs[outputs - 1] = stage.outputs[0];
        }
        stage
    };
    if random.chance(1, 2) {
        for gate in &mut stage.gates {
            if random.chance(1, 3) {
                gate.kind = 128 + cell(gate.kind);
            }
        }
    }
    stage
}

/// Names for a stage whose outputs can be named.
fn with_names(random: &mut Random, stage: Stage, style: Style) -> Named {
    let mut inputs: Vec<String> = Vec::new();
    for _ in 0..stage.inputs {
        let name = new_name(random, LONGEST_NAME, style, |name| {
            !inputs.iter().any(|other| other == name)
        });
        inputs.push(name);
    }
    let mut driven: BTreeSet<String> = inputs.iter().flat_map(|name| rails_of(name)).collect();
    let mut gates = vec![String::new(); stage.gates.len()];
    let mut outputs: Vec<String> = Vec::new();
    for (output, &rails) in stage.outputs.iter().enumerate() {
        if is_input_pair(&stage, rails) {
            outputs.push(inputs[rails[0] / 2].clone());
            continue;
        }
        let before = &stage.outputs[..output];
        if let Some(same) = before.iter().position(|&other| other == rails) {
            outputs.push(outputs[same].clone());
            continue;
        }
        let name = new_name(random, LONGEST_NAME, style, |name| {
            rails_of(name).iter().all(|rail| !driven.contains(rail))
        });
        for (net, rail) in rails.into_iter().zip(rails_of(&name)) {
            gates[net - 2 * stage.inputs] = rail.clone();
            driven.insert(rail);
        }
        outputs.push(name);
    }
    for gate in &mut gates {
        if gate.is_empty() {
            // A gate may have an input's or an output's name: these drive nothing by themselves.
            let signal = random.pick(&[&inputs, &outputs]);
            let signal = signal[random.below(signal.len())].clone();
            *gate = if !driven.contains(&signal) && random.chance(1, 8) {
                signal
            } else {
                new_name(random, LONGEST_NET, style, |name| !driven.contains(name))
            };
            driven.insert(gate.clone());
        }
    }
    Named {
        stage,
        inputs,
        outputs,
        gates,
    }
}

fn any_named(random: &mut Random) -> Named {
    let mut stage = any_stage(random);
    make_nameable(random, &mut stage, true);
    let style = if random.chance(1, 6) {
        Style::Longest
    } else {
        Style::Mixed
    };
    with_names(random, stage, style)
}

// ---------------------------------------------------------------------------
// Cases.

fn bytes(random: &mut Random, count: usize) -> Vec<u8> {
    (0..count).map(|_| random.byte()).collect()
}

fn case_of(
    random: &mut Random,
    family: &'static str,
    source: Vec<u8>,
    room: usize,
    known: Known,
) -> GeneratedText {
    let buffer = bytes(random, room);
    GeneratedText {
        family,
        case: TextCase { source, buffer },
        known,
        written: None,
    }
}

/// A case that is refused before the buffer is looked at.
fn refused(
    random: &mut Random,
    family: &'static str,
    source: Vec<u8>,
    known: Known,
) -> GeneratedText {
    let room = random.pick(&[0, 1, 60, 300]);
    case_of(random, family, source, room, known)
}

/// A case that is written, or that has 24 for a buffer too short.
fn written_or_short(
    random: &mut Random,
    family: &'static str,
    source: Vec<u8>,
    written: Vec<u8>,
) -> GeneratedText {
    if random.chance(1, 6) {
        let room = match random.below(4) {
            0 => 0,
            1 => random.below(written.len()),
            _ => written.len() - 1,
        };
        let known = Known::Verdict([24, ROW, 0, 0]);
        return case_of(random, family, source, room, known);
    }
    let room = written.len() + random.pick(&[0, 0, 0, 1, 2, 7, 300]);
    let known = Known::Verdict(ACCEPTED);
    let case = case_of(random, family, source, room, known);
    GeneratedText {
        written: Some(written),
        ..case
    }
}

/// A verdict on a text, at a line.
fn at_line(number: u64, line: usize) -> Known {
    Known::Verdict([number, STAGE, line as u64, 0])
}

// ---------------------------------------------------------------------------
// Texts.

/// A text that reads.
fn plain(random: &mut Random) -> GeneratedText {
    let named = any_named(random);
    let file = write_stage(&named.stage);
    written_or_short(random, "plain", text_of(&named.lines()), file)
}

/// The text that writing gives, which gives the stage's own bytes.
fn written_text(random: &mut Random) -> GeneratedText {
    let mut stage = any_stage(random);
    make_nameable(random, &mut stage, false);
    let file = write_stage(&stage);
    let text = text_of_file(&file).expect("outputs that can be named");
    written_or_short(random, "written", text, file)
}

/// Bytes that stand in no line: those beside the letters, digits and underscore, and others.
const STRANGE: &[u8; 19] = b"/:@[^`{-.\t\r\x00\x7F\x80\xB5\xC3\xE1\xFF*";

/// Words that are no kinds.
const NO_KINDS: [&str; 20] = [
    "th22", "Th22", "TH2", "TH11", "TH222", "TH22w2", "rth22", "RTH22", "rrTH22", "TH22r",
    "TH24COMP", "THXOR0", "THand", "TH34w33", "r", "", "C2", "Reg_NULL", "TH12_", "not",
];

/// Spoils the form of a line; `gate` says whether it is a gate's.
fn spoil(random: &mut Random, line: &mut Vec<u8>, gate: bool) {
    let at = random.below(line.len());
    let separator = |byte: u8| line.iter().position(|&other| other == byte);
    let (space, comma) = (separator(b' '), separator(b','));
    match random.below(if gate { 20 } else { 12 }) {
        0 => line.push(b'\r'),
        1 => line.clear(),
        2 => line[at] = random.pick(STRANGE),
        3 => line.insert(at, random.pick(STRANGE)),
        4 => line.insert(0, b' '),
        5 => line.push(b' '),
        6 => line.insert(0, b','),
        7 => line.push(b','),
        8 => match comma {
            Some(comma) => line.insert(comma, b','),
            None => line.extend(b",,a"),
        },
        9 => match comma {
            Some(comma) => line.insert(comma + 1, b' '),
            None => line.extend(b", a"),
        },
        10 | 11 => {
            // A name that is too long, at either end of the line.
            let most = if gate { LONGEST_NET } else { LONGEST_NAME };
            let long = characters(random, most + 1);
            if gate {
                let space = line.iter().rposition(|&byte| byte == b' ').unwrap();
                line.truncate(space + 1);
                line.extend(long.bytes());
            } else if random.chance(1, 2) {
                line.splice(0..0, format!("{long},").into_bytes());
            } else {
                line.extend(format!(",{long}").into_bytes());
            }
        }
        12 => line.insert(space.unwrap(), b' '),
        13 => {
            // A pin of 19 characters.
            let long = characters(random, LONGEST_NET + 1) + ",";
            let pins = space.unwrap() + 1;
            line.splice(pins..pins, long.into_bytes());
        }
        14 => {
            // Five pins.
            let pins = space.unwrap() + 1;
            line.splice(pins..pins, *b"a,b,c,d,");
        }
        15 => {
            // A column is missing.
            line.truncate(line.iter().rposition(|&byte| byte == b' ').unwrap());
        }
        16 => line.extend(b" a"),
        17 => {
            // No pins.
            let last = line.iter().rposition(|&byte| byte == b' ').unwrap();
            line.drain(space.unwrap() + 1..last);
        }
        18 => {
            let kind = random.pick(&NO_KINDS);
            line.splice(..space.unwrap(), kind.bytes());
        }
        _ => {
            let lines = ["Reg_NULL 1 a_0 a_1 Ki ko b_0 b_1", "C2 ko1,ko2 KO"];
            *line = random.pick(&lines).into();
        }
    }
}

/// 29 at a line that is known.
fn other_form(random: &mut Random) -> GeneratedText {
    let mut lines = any_named(random).lines();
    let line = random.below(lines.len());
    let (text, line) = match random.below(12) {
        0 => {
            lines.insert(line, vec![]);
            (text_of(&lines), line)
        }
        1 => {
            lines.push(vec![]);
            (text_of(&lines), lines.len() - 1)
        }
        2 => {
            let mut text = text_of(&lines);
            text.pop();
            (text, lines.len() - 1)
        }
        3 => {
            // Line 0 or 1 is missing.
            let line = random.below(2);
            (text_of(&lines[..line]), line)
        }
        _ => {
            spoil(random, &mut lines[line], line > 1);
            (text_of(&lines), line)
        }
    };
    refused(random, "other form", text, at_line(29, line))
}

/// A name in place of the name at one place of a list of names that stands in a line.
fn put_name(line: &mut Vec<u8>, list: std::ops::Range<usize>, place: usize, name: &str) {
    let mut names: Vec<&[u8]> = line[list.clone()].split(|&byte| byte == b',').collect();
    names[place] = name.as_bytes();
    let names = names.join(&b',');
    line.splice(list, names);
}

/// Where the pins stand in a gate's line.
fn pins_in(line: &[u8]) -> std::ops::Range<usize> {
    let first = line.iter().position(|&byte| byte == b' ').unwrap();
    let last = line.iter().rposition(|&byte| byte == b' ').unwrap();
    first + 1..last
}

/// 30 at a line that is known: a pin, an output, or one rail of an output.
fn undriven(random: &mut Random) -> GeneratedText {
    let mut named = any_named(random);
    let driven: BTreeSet<String> = (0..named.stage.nets()).map(|net| named.net(net)).collect();
    let style = random.pick(&[Style::Mixed, Style::Mixed, Style::Longest]);
    let gates = named.gates.len();
    let choice = random.below(4);
    let (lines, line) = if gates > 0 && choice < 2 {
        let gate = random.below(gates);
        let pin = random.below(named.stage.gates[gate].pins.len());
        let name = new_name(random, LONGEST_NET, style, |name| !driven.contains(name));
        let mut lines = named.lines();
        let line = &mut lines[2 + gate];
        let pins = pins_in(line);
        put_name(line, pins, pin, &name);
        (lines, 2 + gate)
    } else if gates > 0 && choice == 2 {
        // A gate gets another name, and who reads it is not told.
        let gate = random.below(gates);
        let net = named.stage.net_of_gate(gate);
        let output = named.stage.outputs.iter().any(|rails| rails.contains(&net));
        let reader = named
            .stage
            .gates
            .iter()
            .position(|gate| gate.pins.contains(&net));
        let mut lines = named.lines();
        let name = new_name(random, LONGEST_NET, style, |name| !driven.contains(name));
        let line = &mut lines[2 + gate];
        let space = line.iter().rposition(|&byte| byte == b' ').unwrap();
        line.truncate(space + 1);
        line.extend(name.bytes());
        match reader {
            _ if output => (lines, 1),
            Some(reader) => (lines, 2 + reader),
            None => return plain(random),
        }
    } else {
        // An output of which at most one rail is driven.
        let output = random.below(named.outputs.len());
        let count = |name: &str| {
            let rails = rails_of(name);
            rails.iter().filter(|rail| driven.contains(*rail)).count()
        };
        let signals = driven
            .iter()
            .filter_map(|net| net.strip_suffix("_0").or(net.strip_suffix("_1")));
        let half: Vec<&str> = signals
            .filter(|name| (1..=LONGEST_NAME).contains(&name.len()) && count(name) == 1)
            .collect();
        named.outputs[output] = if !half.is_empty() && random.chance(3, 4) {
            random.pick(&half).to_string()
        } else {
            new_name(random, LONGEST_NAME, style, |name| count(name) < 2)
        };
        (named.lines(), 1)
    };
    refused(random, "undriven", text_of(&lines), at_line(30, line))
}

/// 31 at a line that is known: an input twice, a gate's line twice, or one on a driven name.
fn driven_again(random: &mut Random) -> GeneratedText {
    let mut named = any_named(random);
    let gates = named.gates.len();
    if gates == 0 || random.chance(1, 4) {
        let input = named.inputs[random.below(named.inputs.len())].clone();
        let place = random.from_to(0, named.inputs.len());
        let mut lines = named.lines();
        named.inputs.insert(place, input);
        lines[0] = named.inputs.join(",").into_bytes();
        return refused(random, "driven again", text_of(&lines), at_line(31, 0));
    }
    let mut lines = named.lines();
    let gate = random.below(gates);
    let place = random.from_to(0, gates);
    let line = if random.chance(1, 2) {
        // The line of a gate, or one that drives its net, before or behind it.
        let mut copy = lines[2 + gate].clone();
        if random.chance(1, 2) {
            let pins = pins_in(&copy);
            put_name(&mut copy, pins, 0, &named.net(0));
        }
        lines.insert(2 + place, copy);
        if place <= gate {
            2 + gate + 1
        } else {
            2 + place
        }
    } else {
        let rail = named.net(random.below(2 * named.stage.inputs));
        lines.insert(2 + place, format!("TH12 {rail},{rail} {rail}").into());
        2 + place
    };
    refused(random, "driven again", text_of(&lines), at_line(31, line))
}

/// 5: a gate with a pin too few or too many. Its place is in the file made.
fn wrong_pins(random: &mut Random) -> GeneratedText {
    let mut named = any_named(random);
    let Some(gate) = named.gates.len().checked_sub(1) else {
        return plain(random);
    };
    let gate = random.from_to(0, gate);
    let nets = named.stage.nets();
    let Gate { kind, pins } = &mut named.stage.gates[gate];
    let needed = pin_count(*kind);
    if needed < 4 && random.chance(1, 2) {
        let more = random.from_to(1, 4 - needed);
        pins.extend((0..more).map(|_| random.below(nets)));
    } else {
        let left = random.from_to(1, needed - 1);
        pins.truncate(left);
    }
    let at = 2 + 10 * gate + 2 + 2 * needed.min(pins.len());
    let known = Known::Verdict([5, STAGE, at as u64, 0]);
    refused(random, "wrong pins", text_of(&named.lines()), known)
}

/// As many inputs, gates and outputs as a stage may have, some less, one more, or many more. Some
/// have a gate with a pin too few, which counts only where 3 and the first 6 do not come.
fn at_the_limits(random: &mut Random) -> GeneratedText {
    let inputs = random.pick(&[1, 9, 10, 10, 10, 11, 12, 40]);
    let gates = random.pick(&[0, 3, 255, 256, 256, 256, 257, 258, 300]);
    let outputs = random.pick(&[1, 15, 16, 16, 16, 17, 18, 100, 1_200, 2_500]);
    let mut stage = random_stage(random, inputs, gates, outputs);
    let pairs = gates.min(2 * random.below(17)) / 2;
    for (output, rails) in stage.outputs.iter_mut().enumerate() {
        *rails = if output < pairs {
            [2 * inputs + 2 * output, 2 * inputs + 2 * output + 1]
        } else {
            let input = random.below(inputs);
            [2 * input, 2 * input + 1]
        };
    }
    for gate in &mut stage.gates {
        if random.chance(1, 2) {
            gate.kind += 128;
        }
    }
    let mut file = (inputs <= 255).then(|| write_stage(&stage));
    let mut wrong = None;
    if gates > 0 && random.chance(1, 4) {
        let gate = random.below(gates);
        stage.gates[gate].pins.pop();
        let pins = stage.gates[gate].pins.len();
        wrong = Some(2 + 10 * gate + 2 + 2 * pins);
        file = None;
    }
    let style = random.pick(&[Style::Mixed, Style::Longest]);
    let text = text_of(&with_names(random, stage, style).lines());
    let verdict = if inputs > MOST_INPUTS {
        [3, STAGE, 1, 0]
    } else if gates > LIMITS.stage_gates {
        [6, STAGE, 2562, 0]
    } else if let Some(at) = wrong {
        [5, STAGE, at as u64, 0]
    } else if outputs > 16 {
        [6, STAGE, (2 + 10 * gates + 5 * 16) as u64, 0]
    } else {
        let file = file.expect("a file without fault");
        return written_or_short(random, "at the limits", text, file);
    };
    let known = Known::Verdict(verdict);
    refused(random, "at the limits", text, known)
}

/// The places of the names in a text: letters, digits and underscores side by side.
fn names_in(text: &[u8]) -> Vec<std::ops::Range<usize>> {
    let part = |byte: u8| byte.is_ascii_alphanumeric() || byte == b'_';
    let mut names = Vec::new();
    let mut at = 0;
    for piece in text.split(|&byte| !part(byte)) {
        if !piece.is_empty() {
            names.push(at..at + piece.len());
        }
        at += piece.len() + 1;
    }
    names
}

/// Two names of a text in each other's place: everywhere, or in one place each.
fn exchange_names(random: &mut Random, text: &[u8]) -> Vec<u8> {
    let names = names_in(text);
    if names.is_empty() {
        return text.to_vec();
    }
    let [a, b] = [(); 2].map(|()| names[random.below(names.len())].clone());
    let everywhere = random.chance(1, 2);
    let mut result = Vec::new();
    let mut at = 0;
    for name in names {
        result.extend(&text[at..name.start]);
        at = name.end;
        let is = |other: &std::ops::Range<usize>| {
            name == *other || everywhere && text[name.clone()] == text[other.clone()]
        };
        let put = if is(&a) {
            b.clone()
        } else if is(&b) {
            a.clone()
        } else {
            name
        };
        result.extend(&text[put]);
    }
    result.extend(&text[at..]);
    result
}

/// One piece of damage to a text.
fn damage_text(random: &mut Random, text: &mut Vec<u8>) {
    let mut lines: Vec<Vec<u8>> = text.split(|&byte| byte == b'\n').map(Vec::from).collect();
    let [a, b] = [(); 2].map(|()| random.below(lines.len()));
    let at = random.below(text.len().max(1));
    let any = |random: &mut Random| match random.below(3) {
        0 => random.pick(CHARACTERS),
        1 => random.pick(b" ,\n\r\t_01"),
        _ => random.byte(),
    };
    match random.below(14) {
        0..=2 if !text.is_empty() => text[at] = any(random),
        3 if !text.is_empty() => {
            text.remove(at);
        }
        4 => {
            let byte = any(random);
            text.insert(at, byte);
        }
        5 | 6 => {
            let copy = lines[a].clone();
            lines.insert(b, copy);
            *text = lines.join(&b'\n');
        }
        7 => {
            lines.remove(a);
            *text = lines.join(&b'\n');
        }
        8 => {
            lines.swap(a, b);
            *text = lines.join(&b'\n');
        }
        9 => text.truncate(at),
        10 => damage(random, text),
        _ => *text = exchange_names(random, text),
    }
}

/// A text with damage.
fn damaged_text(random: &mut Random) -> GeneratedText {
    let mut text = text_of(&any_named(random).lines());
    for _ in 0..random.pick(&[1, 1, 1, 2, 3]) {
        damage_text(random, &mut text);
    }
    let room = random.below(400);
    case_of(random, "damaged", text, room, Known::Nothing)
}

/// Several faults at once, so that 29 meets 30 and 31 at other lines.
fn several(random: &mut Random) -> GeneratedText {
    let first = match random.below(4) {
        0 => undriven(random),
        1 => driven_again(random),
        2 => wrong_pins(random),
        _ => at_the_limits(random),
    };
    let mut lines: Vec<Vec<u8>> = first
        .case
        .source
        .split(|&byte| byte == b'\n')
        .map(Vec::from)
        .collect();
    lines.pop();
    let line = random.below(lines.len());
    let known = match random.below(4) {
        0 => {
            spoil(random, &mut lines[line], line > 1);
            at_line(29, line)
        }
        1 => {
            // A gate behind all that nobody's name feeds; 30 at an earlier line comes first.
            let [name, net] = [(); 2].map(|()| characters(random, LONGEST_NET));
            lines.push(format!("TH12 {name},{name} {net}").into());
            match first.known {
                Known::Verdict([30, ..]) => first.known,
                _ => at_line(30, lines.len() - 1),
            }
        }
        2 => {
            let other = random.below(lines.len());
            lines.swap(other, line);
            Known::Nothing
        }
        _ => {
            let copy = lines[line].clone();
            lines.insert(line, copy);
            Known::Nothing
        }
    };
    refused(random, "several faults", text_of(&lines), known)
}

/// Pieces of texts in any order.
fn soup(random: &mut Random) -> GeneratedText {
    let pieces = [
        "a",
        "a_0",
        "a_1",
        "b",
        "b_0",
        "b_1",
        ",",
        " ",
        "\n",
        "TH12",
        "rTH12",
        "TH33",
        "TH44",
        "TH12 a_0,a_1 ",
        "a\na\n",
        "a,b\nb,a\n",
        "g",
        "\n\n",
        "TH22 a_1,b_1 g\n",
        "\r\n",
    ];
    let mut text = String::new();
    for _ in 0..random.from_to(0, 14) {
        text += random.pick(&pieces);
    }
    let room = random.below(60);
    case_of(random, "soup", text.into_bytes(), room, Known::Nothing)
}

/// Text number `index` of a seed.
pub fn read_case(seed: u64, index: u64) -> GeneratedText {
    let random = &mut Random::new(seed ^ 0x7E87, index);
    match random.below(100) {
        0..=29 => plain(random),
        30..=39 => written_text(random),
        40..=51 => other_form(random),
        52..=59 => undriven(random),
        60..=67 => driven_again(random),
        68..=71 => wrong_pins(random),
        72..=75 => at_the_limits(random),
        76..=87 => damaged_text(random),
        88..=93 => several(random),
        _ => soup(random),
    }
}

// ---------------------------------------------------------------------------
// Stage files to write texts of.

/// A stage whose outputs can be named, with its file; gates and outputs may be mixed.
fn nameable_file(random: &mut Random) -> (Stage, Vec<u8>) {
    let mut stage = any_stage(random);
    make_nameable(random, &mut stage, false);
    let file = stage_file(random, &stage);
    (stage, file)
}

/// A stage that can be written.
fn written_stage(random: &mut Random) -> GeneratedText {
    let (stage, file) = nameable_file(random);
    let text = spelt_by_hand(&stage);
    written_or_short(random, "written", file, text)
}

/// The text of a stage that can be written, by the names of its nets.
fn spelt_by_hand(stage: &Stage) -> Vec<u8> {
    let mut names: BTreeMap<usize, String> = BTreeMap::new();
    let signal = |output: usize, rails: [usize; 2]| {
        if is_input_pair(stage, rails) {
            format!("x{}", rails[0] / 2)
        } else {
            format!("y{output}")
        }
    };
    let outputs: Vec<String> = stage
        .outputs
        .iter()
        .enumerate()
        .map(|(output, &rails)| signal(output, rails))
        .collect();
    for gate in 0..stage.gates.len() {
        names.insert(stage.net_of_gate(gate), format!("g{gate}"));
    }
    for (name, rails) in outputs.iter().zip(&stage.outputs) {
        for (net, rail) in rails.iter().zip(rails_of(name)) {
            names.insert(*net, rail);
        }
    }
    let named = Named {
        stage: stage.clone(),
        inputs: (0..stage.inputs).map(|input| format!("x{input}")).collect(),
        outputs,
        gates: (0..stage.gates.len())
            .map(|gate| names[&stage.net_of_gate(gate)].clone())
            .collect(),
    };
    text_of(&named.lines())
}

/// 31 at an output that is known: a swapped pair, one rail of an input, one net twice, or a net of an
/// earlier output.
fn second_name(random: &mut Random) -> GeneratedText {
    let (mut stage, _) = nameable_file(random);
    let output = random.below(stage.outputs.len());
    let input = random.below(stage.inputs);
    let pair = [2 * input, 2 * input + 1];
    let nets = stage.nets();
    let earlier: Vec<usize> = stage.outputs[..output]
        .iter()
        .filter(|&&rails| !is_input_pair(&stage, rails))
        .flatten()
        .copied()
        .collect();
    let rails = &mut stage.outputs[output];
    match random.below(4) {
        0 => *rails = [pair[1], pair[0]],
        1 => {
            // The rails of two inputs, or of an input and any net.
            let other = random.below(nets);
            *rails = random.pick(&[[pair[0], other], [pair[1], other], [other, pair[0]]]);
            if rails[0] % 2 == 0 && rails[1] == rails[0] + 1 {
                *rails = [pair[0], pair[0]];
            }
        }
        2 => *rails = [rails[0], rails[0]],
        _ => match earlier[..] {
            [] => *rails = [pair[1], pair[1]],
            _ => {
                let rail = random.below(2);
                rails[rail] = random.pick(&earlier);
                // The other rail may make it the pair of an input, where this one was a rail of it.
                if is_input_pair(&stage, stage.outputs[output]) {
                    stage.outputs[output] = [pair[1], pair[1]];
                }
            }
        },
    }
    let file = stage_file(random, &stage);
    let known = at_line(31, output);
    refused(random, "second name", file, known)
}

/// 29 with `at` 0: a care list, in a stage that could be written and in one that could not.
fn care_list(random: &mut Random) -> GeneratedText {
    let (mut stage, _) = nameable_file(random);
    stage.care = some_list(random, stage.inputs);
    if random.chance(1, 3) {
        let output = random.below(stage.outputs.len());
        stage.outputs[output] = [1, 0];
    }
    let file = stage_file(random, &stage);
    refused(random, "care list", file, at_line(29, 0))
}

/// Outputs of any kind.
fn any_outputs(random: &mut Random) -> GeneratedText {
    let stage = any_stage(random);
    let file = stage_file(random, &stage);
    let room = random.below(600);
    case_of(random, "any outputs", file, room, Known::Nothing)
}

/// As many inputs, gates and outputs as a stage may have, some less, or one more.
fn large_stage(random: &mut Random) -> GeneratedText {
    let inputs = random.pick(&[1, 10, 10, 11]);
    let gates = random.pick(&[9, 10, 11, 99, 101, 255, 256, 256, 256, 257]);
    let outputs = random.pick(&[1, 10, 11, 16, 16, 16, 17]);
    let mut stage = random_stage(random, inputs, gates, outputs);
    let longest = random.chance(1, 4);
    for gate in &mut stage.gates {
        gate.kind += random.pick(&[0, 128]);
    }
    let mut order = random.order(gates);
    for rails in &mut stage.outputs {
        let input = random.below(inputs);
        *rails = match (order.pop(), order.pop()) {
            (Some(a), Some(b)) => [2 * inputs + a, 2 * inputs + b],
            _ => [2 * input, 2 * input + 1],
        };
    }
    if longest {
        // The kind and the pins with the longest names.
        let pin = stage.outputs[outputs - 1][0];
        stage.gates.fill(Gate {
            kind: 128 + 24,
            pins: vec![pin; 4],
        });
    }
    let file = write_stage(&stage);
    let verdict = if inputs > 10 {
        [3, STAGE, 1, 0]
    } else if gates > 256 {
        [6, STAGE, 2562, 0]
    } else if outputs > 16 {
        [6, STAGE, (2 + 10 * gates + 5 * 16) as u64, 0]
    } else {
        let text = spelt_by_hand(&stage);
        return written_or_short(random, "large", file, text);
    };
    let known = Known::Verdict(verdict);
    refused(random, "large", file, known)
}

/// A file with damage, or the stage of any generated pair.
fn damaged_stage(random: &mut Random, seed: u64, index: u64) -> GeneratedText {
    let mut file = match random.below(8) {
        0..=3 => pair(seed ^ 0x10F6, index).pair.stage,
        4 | 5 => nameable_file(random).1,
        _ => {
            let generated = faulty_list(random);
            let known = match generated.known {
                known @ Known::Verdict([_, STAGE, ..]) => known,
                _ => Known::Nothing,
            };
            return refused(random, "faulty list", generated.pair.stage, known);
        }
    };
    while random.chance(1, 2) {
        damage(random, &mut file);
    }
    let room = random.below(900);
    case_of(random, "damaged", file, room, Known::Nothing)
}

/// Stage file number `index` of a seed.
pub fn write_case(seed: u64, index: u64) -> GeneratedText {
    let random = &mut Random::new(seed ^ 0x7E88, index);
    match random.below(100) {
        0..=44 => written_stage(random),
        45..=54 => second_name(random),
        55..=60 => care_list(random),
        61..=66 => any_outputs(random),
        67..=69 => large_stage(random),
        _ => damaged_stage(random, seed, index),
    }
}
