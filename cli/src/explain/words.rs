//! What is found in a word: a wrong output, or an input or a gate that the outputs do not wait for. The levels shown are the library's.

use super::{wrapped, Order, Pair, Text, INDENT, WIDTH};
use crate::levels::{Levels, Odd};
use crate::names::{buses, values_text};
use crate::netlist::{many, relaxed, set_expression, Reference, Stage};
use crate::runs::{shortened, shows, Files};
use crate::situation::{data, pair_state, Behind, End, Situation, PLACES};
use fovaheju::Verdict;

/// How many outputs are shown before the rest is only counted.
const OUTPUTS: usize = 4;
/// How many gates back from a wrong output are shown.
pub const DEPTH: usize = 2;

/// 13, 14, 15, 20 and 21.
pub fn in_a_word(text: &mut Text, verdict: Verdict, pair: Pair, order: Order) {
    let stage = pair.stage.stage();
    text.row("stage", &format!("{}: {}", pair.stage.name(), stage.counts()));
    say_word(text, verdict.word, &order.values(verdict.word, stage.inputs), order, &stage);
    let Some(case) = Situation::of(verdict, pair.stage.bytes(), &stage, order) else {
        text.row("found", "the levels of this word cannot be shown");
        return;
    };
    match case.odd {
        None => wrong(text, &case, verdict.at as usize, pair),
        Some(odd) => not_awaited(text, &case, odd, |text| say_run(text, verdict, pair, order, &stage)),
    }
}

/// With more gates than these a run has their names alone.
const GATES: usize = 6;

/// The run that breaks the promise, without what is not needed for it; none that was not seen to break it.
fn say_run(text: &mut Text, verdict: Verdict, pair: Pair, order: Order, stage: &Stage) {
    let files = Files { stage_file: pair.stage.bytes(), stage, reference_file: &pair.reference.bytes, order };
    let Some(run) = files.witness(verdict, 0).filter(|run| text.tries > 0 && shows(files, verdict, run)) else { return };
    let short = shortened(files, verdict, &run);
    let falls = matches!(verdict.number, 20 | 21);
    let (steps, way, from) = if falls {
        (short.fallen(), "fall", format!("from the rest of the word, after its {}", many(short.fall, "switching")))
    } else {
        (short.rise(), "rise", "from all low".into())
    };
    let enough = if steps.len() == 1 { "1 switching is enough".into() } else { format!("{} switchings are enough", steps.len()) };
    text.row("run", &format!("{from}, {enough}:"));
    let is_gate = |net: usize| stage.driver(net).is_some();
    let few = steps.iter().filter(|&&net| is_gate(net)).count() <= GATES;
    let mut say = |words: String| wrapped(&words, WIDTH - INDENT - 2).iter().for_each(|line| text.below(0, line));
    // In their order: rails that switch one after the other in a line, and so gates, or each of a few gates in its own.
    for part in steps.chunk_by(|&net, &next| is_gate(net) == is_gate(next)) {
        if few && is_gate(part[0]) {
            part.iter().filter_map(|&net| stage.driver(net)).for_each(|gate| say(format!("{way} {}", stage.gate_text(gate))));
        } else {
            let names: Vec<String> = part.iter().map(|&net| stage.net_name(net)).collect();
            say(format!("{way} {}", names.join(" ")));
        }
    }
}

/// A word by its inputs.
pub fn say_word(text: &mut Text, word: u64, values: &[bool], order: Order, stage: &Stage) {
    text.row("word", &word_text(word, values, order, stage));
}

/// A word's name, and what it says of the inputs.
pub fn word_text(word: u64, values: &[bool], order: Order, stage: &Stage) -> String {
    let named = if order.lowest { " (input 0 as the lowest bit)" } else { "" };
    let values: Vec<Option<bool>> = values.iter().map(|&value| Some(value)).collect();
    format!("{word}{named} is {}", inputs_text(&values, stage))
}

/// The inputs with these values; a dot is NULL.
pub fn inputs_text(values: &[Option<bool>], stage: &Stage) -> String {
    let sign = |value: &Option<bool>| value.map_or('.', |value| if value { '1' } else { '0' });
    match &stage.names {
        Some(names) => values_text(&names.inputs, values),
        None => format!("{} = {}", range("x", values.len()), values.iter().map(sign).collect::<String>()),
    }
}

/// `x0`, or `x0..x3`.
pub fn range(name: &str, count: usize) -> String {
    match count {
        0 | 1 => format!("{name}0"),
        _ => format!("{name}0..{name}{}", count - 1),
    }
}

fn level(case: &Situation, net: usize) -> &'static str {
    if case.high(net) {
        "high"
    } else {
        "low"
    }
}

/// 13: what the output shows, what it should, and the gates behind its wrong rails.
fn wrong(text: &mut Text, case: &Situation, at: usize, pair: Pair) {
    let (stage, row) = (case.stage, &case.row);
    let Some(&rails) = stage.outputs.get(at) else { return };
    let called = stage.names.as_ref().map_or(Vec::new(), |names| names.inputs.clone());
    let reference = Reference { called, ..Reference::of(&pair.reference.bytes) };
    let answer = reference.answer(&case.values);
    let value = answer.get(at).copied().unwrap_or(false);
    let signal = reference.outputs.get(at).map_or(String::new(), |&signal| reference.signal_text(signal));
    let shows = pair_state(row, rails);
    let is = if shows.starts_with("both") { "has" } else { "is" };
    let name = stage.output_name(at);
    text.row("found", &format!("{name} {is} {shows} when all has settled; the reference answers {} ({signal})", data(value)));
    let others = (0..stage.outputs.len())
        .filter(|&j| j != at && pair_state(row, stage.outputs[j]) != data(answer.get(j).copied().unwrap_or(false)))
        .count();
    if others > 0 {
        text.below(0, &format!("{} wrong in this word too", many(others, "other output") + if others == 1 { " is" } else { " are" }));
    }
    if let Some(names) = stage.names.as_ref().filter(|names| buses(&names.outputs).len() < names.outputs.len()) {
        let answer: Vec<Option<bool>> = answer.iter().map(|&value| Some(value)).collect();
        text.row("answer", &format!("{} by the reference", values_text(&names.outputs, &answer)));
    }
    if text.tries > 0 {
        say_words(text, at, &reference, pair);
    }
    let mut shown = Vec::new();
    for (rail, net) in case.wrong_rails(at, value) {
        let should = if case.high(net) { "low" } else { "high" };
        text.row("look at", &format!("rail {rail} of {name} is {}: {}, and should be {should}", stage.net_name(net), level(case, net)));
        for gate in case.behind(net, DEPTH, &mut shown) {
            say_behind(text, case, &gate);
        }
    }
    let (whole, wrong) = match shown.is_empty() {
        true => (format!("see which nets are the rails of {name}"), "a wrong net"),
        false => (format!("follow {name} back through these gates"), "a wrong pin, a wrong kind"),
    };
    let exchanged = if shows.starts_with("DATA") { "its two rails exchanged, " } else { "" };
    let mut why = format!("{exchanged}{wrong}, or a reference of something else");
    if shows == "NULL" {
        let care = if stage.care.is_empty() { "name those that do as care words (06)" } else { "take it out of the care words" };
        why += &format!(". If this word never comes, {care}");
    }
    text.row("to do", &format!("{whole}: {why}"));
}

/// How many words are named.
const WORDS: usize = 8;

/// In how many words an output is wrong, and in which.
fn say_words(text: &mut Text, at: usize, reference: &Reference, pair: Pair) {
    let stage = pair.stage.stage();
    let levels = Levels::new(pair.stage.bytes(), &stage);
    let is_wrong = |values: &Vec<bool>| {
        let shown = levels.rest(values).map(|row| pair_state(&row, stage.outputs[at]));
        shown != reference.answer(values).get(at).map(|&value| data(value))
    };
    let wrong: Vec<Vec<bool>> = stage.words().into_iter().map(|word| stage.values(word)).filter(is_wrong).collect();
    let mut named: Vec<String> = wrong.iter().map(|values| values.iter().map(|&value| if value { '1' } else { '0' }).collect()).collect();
    named.sort();
    let more = if named.len() > WORDS { " .." } else { "" };
    named.truncate(WORDS);
    let of = stage.word_count();
    text.row("words", &format!("{} is wrong in {} of {of}: {}{more}", stage.output_name(at), wrong.len(), named.join(" ")));
}

/// A gate behind a wrong rail, with the levels of its pins.
fn say_behind(text: &mut Text, case: &Situation, &Behind { gate, depth, again }: &Behind) {
    let name = case.stage.gate_name(gate);
    if again {
        text.below(depth, &format!("{name}: see above"));
        return;
    }
    let found = &case.stage.gates[gate];
    let pins: Vec<String> = found
        .pins
        .iter()
        .zip("ABCD".chars())
        .map(|(&pin, letter)| format!("{letter} {} {}", case.stage.net_name(pin), level(case, pin)))
        .collect();
    let set = set_expression(found.kind).unwrap_or("?");
    let own = level(case, case.stage.net_of(gate));
    text.below(depth, &format!("{name} {own}: {} is set by {set}; {}", found.name(), pins.join(", ")));
}

/// 14, 15, 20 and 21: what is late, what the outputs show by then, and where the waiting ends.
fn not_awaited(text: &mut Text, case: &Situation, odd: Odd, say_run: impl FnOnce(&mut Text)) {
    let stage = case.stage;
    let (name, still) = match (odd, case.falls) {
        (Odd::Input(input), false) => (stage.input_name(input), "NULL"),
        (Odd::Input(input), true) => (stage.input_name(input), data(case.values.get(input).copied().unwrap_or(false))),
        (Odd::Gate(gate), false) => (stage.gate_text(gate), "low, and could rise"),
        (Odd::Gate(gate), true) => (stage.gate_text(gate), "high, and could fall"),
    };
    let all = if case.falls { "back to NULL: every output is NULL" } else { "every output is DATA" };
    text.row("found", &format!("{all} while {name} is still {still}"));
    if !case.falls {
        say_outputs(text, case);
    }
    say_run(text);
    let ends = case.ends();
    for end in ends.iter().take(PLACES) {
        say_end(text, case, end, odd);
    }
    if ends.len() > PLACES {
        text.row("", &format!("and {} more nets that nothing waits for", ends.len() - PLACES));
    }
    if let (Odd::Input(input), false) = (odd, case.falls) {
        let first = case.first_gates();
        let shown: Vec<String> = first.iter().take(PLACES).map(|&gate| stage.gate_text(gate)).collect();
        let more = if first.len() > PLACES { ", .." } else { "" };
        if !shown.is_empty() {
            let without = stage.input_name(input);
            text.row("set by", &format!("{}{more}, which the other inputs set without {without}", shown.join(", ")));
        }
    }
    say_todo(text, case, odd, &case.places());
}

/// What each output shows, and by which gate.
fn say_outputs(text: &mut Text, case: &Situation) {
    let stage = case.stage;
    for (j, &rails) in stage.outputs.iter().enumerate().take(OUTPUTS) {
        let label = if j == 0 { "outputs" } else { "" };
        let net = rails.into_iter().find(|&net| case.high(net)).unwrap_or(rails[0]);
        let by = match stage.driver(net) {
            Some(gate) => stage.gate_text(gate) + &high_pins(case, gate),
            None => stage.net_name(net),
        };
        text.row(label, &format!("{} is {} by {by}", stage.output_name(j), pair_state(&case.row, rails)));
    }
    if stage.outputs.len() > OUTPUTS {
        text.row("", &format!("and {} more", stage.outputs.len() - OUTPUTS));
    }
}

/// Which pins of a gate are high in the row, where not all are.
fn high_pins(case: &Situation, gate: usize) -> String {
    let pins = &case.stage.gates[gate].pins;
    let high: Vec<String> = pins.iter().filter(|&&pin| case.high(pin)).map(|&pin| case.stage.net_name(pin)).collect();
    if high.len() == pins.len() {
        return String::new();
    }
    format!(", set by {}", high.join(", "))
}

/// A net where the waiting ends, and why who reads it does not wait.
fn say_end(text: &mut Text, case: &Situation, end: &End, odd: Odd) {
    let stage = case.stage;
    let name = stage.net_name(end.net);
    let what = match (stage.driver(end.net), odd) {
        (Some(gate), Odd::Gate(late)) if gate == late => name.clone(),
        (Some(gate), Odd::Gate(late)) => format!("{}, which waits for {},", stage.gate_text(gate), stage.gate_name(late)),
        (Some(gate), Odd::Input(input)) => format!("{}, which waits for {},", stage.gate_text(gate), stage.input_name(input)),
        (None, _) => format!("rail {name}"),
    };
    if end.readers.is_empty() {
        text.row("look at", &format!("{what} is read by no gate and is no output"));
        return;
    }
    text.row("look at", &format!("{what} is read by"));
    for reader in &end.readers {
        let gate = reader.gate;
        let why = if !reader.ahead {
            format!("low in this word, whatever {name} does")
        } else if case.falls {
            let how = if relaxed(stage.gates[gate].kind) { "it has no hold" } else { "it is low" };
            format!("has fallen while {name} is high: {how}")
        } else {
            format!("is high without {name}{}", high_pins(case, gate))
        };
        text.below(0, &format!("{}: {why}", stage.gate_text(gate)));
    }
}

/// Whether a gate is a TH12 where an AND or an OR needs THand0: it went ahead by itself, or it drives a rail of an output whose other rail is a TH22.
/// A TH12 of gates of which one rises at a time is no fault.
fn too_early_by_half(case: &Situation, gate: usize) -> bool {
    let stage = case.stage;
    let kind = |gate: usize| stage.gates[gate].kind & 0x7F;
    let beside =
        |rails: &[usize; 2]| rails.contains(&stage.net_of(gate)) && rails.iter().any(|&rail| stage.driver(rail).map(kind) == Some(2));
    kind(gate) == 1 && (case.early().contains(&gate) || stage.outputs.iter().any(beside))
}

/// What to do about it.
fn say_todo(text: &mut Text, case: &Situation, odd: Odd, places: &[usize]) {
    let stage = case.stage;
    let todo = match (odd, case.falls) {
        (Odd::Input(input), false) => {
            let name = stage.input_name(input);
            let mut todo = format!("let an output wait for {name} in this word, or {name} may come late, into the next word");
            let unused = (0..2).all(|rail| {
                stage.readers(2 * input + rail).is_empty() && !stage.outputs.iter().flatten().any(|&net| net == 2 * input + rail)
            });
            if unused {
                todo += &format!(". Nothing reads {name}: let an output depend on it, or take it out of both files");
            } else if places.iter().any(|&gate| too_early_by_half(case, gate)) {
                todo += ". TH12(a, b) is set by one of two signals; THand0(a, b, a', b') waits for both, where a' is the other rail of a";
            } else {
                todo += &format!(": a gate on the way to an output has to need {name}");
            }
            todo
        }
        (Odd::Gate(gate), false) => {
            let (net, name) = (stage.net_of(gate), stage.gate_name(gate));
            if stage.readers(net).is_empty() {
                format!("take {name} out: nothing needs it, and it may rise late, into the next word")
            } else {
                format!("let an output wait for {name} wherever it rises, or build it into the gates that read it; it may rise late, into the next word")
            }
        }
        (_, true) => {
            let named: Vec<String> =
                places.iter().filter(|&&gate| relaxed(stage.gates[gate].kind)).map(|&gate| stage.gate_name(gate)).collect();
            let which = if named.is_empty() { "one of the relaxed gates".into() } else { named.join(" or ") };
            format!(
                "give {which} its hold back (the kind without r, 128 less), so that it waits until all its pins are low; then do \
                 the same for each gate that the check names next"
            )
        }
    };
    text.row("to do", &todo);
}
