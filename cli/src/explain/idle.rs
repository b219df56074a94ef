//! 32: gates that rise in no word that the stage cares for. The levels shown are the library's.

use super::{some, Pair, Text};
use crate::levels::Row;
use crate::netlist::{set_expression, Stage};
use crate::situation::{once, Idle};
use fovaheju::Verdict;

/// How many other gates, and how many readers, are shown.
const SHOWN: usize = 6;

/// The gate, the others of its sort, and why it stays low.
pub fn never_rises(text: &mut Text, verdict: Verdict, pair: Pair) {
    let stage = pair.stage.stage();
    let gate = verdict.at as usize;
    text.row("stage", &format!("{}: {}", pair.stage.name(), stage.counts()));
    let Some(idle) = Idle::of(gate, pair.stage.bytes(), &stage) else {
        text.row("found", &format!("{} never rises, and its levels cannot be shown", stage.gate_name(gate)));
        return;
    };
    let words = match idle.rests.len() {
        1 => "does not rise in the one care word".into(),
        _ => format!("rises in none of {}", stage.word_count()),
    };
    text.row("found", &format!("{} {words}: no test can tell whether it works", stage.gate_text(gate)));
    let others: Vec<String> = idle.gates.iter().filter(|&&k| k != gate).take(SHOWN).map(|&k| stage.gate_text(k)).collect();
    if !others.is_empty() {
        let more = if idle.gates.len() > SHOWN + 1 { ", .." } else { "" };
        text.row("also", &format!("{}{more}", others.join(", ")));
    }
    say_why(text, &stage, gate, &idle.rests);
    say_todo(text, &stage, gate, &idle);
}

/// Of each product of the set expression: which of its pins are never high, or that they never are in one word.
fn say_why(text: &mut Text, stage: &Stage, gate: usize, rests: &[Row]) {
    let found = &stage.gates[gate];
    let set = set_expression(found.kind).unwrap_or_default();
    text.row("look at", &format!("{} is set by {set}", found.name()));
    for product in set.split('+') {
        let nets: Vec<usize> = product.bytes().map(|letter| found.pins[usize::from(letter - b'A')]).collect();
        let names = |nets: &[usize]| nets.iter().map(|&net| stage.net_name(net)).collect::<Vec<String>>().join(" and ");
        let nets = once(&nets);
        let low: Vec<usize> = nets.iter().copied().filter(|&net| rests.iter().all(|rest| !rest[net])).collect();
        let why = match (low.len(), nets.len()) {
            (0, _) => format!("{} are never high in the same word", names(&nets)),
            (1, _) => format!("{} is never high", names(&low)),
            _ => format!("{} are never high", names(&low)),
        };
        text.below(0, &format!("{product}: {why}"));
    }
}

fn say_todo(text: &mut Text, stage: &Stage, gate: usize, idle: &Idle) {
    let (net, name) = (stage.net_of(gate), stage.gate_name(gate));
    let readers: Vec<String> = stage
        .readers(net)
        .iter()
        .filter(|reader| !idle.gates.contains(reader))
        .take(SHOWN)
        .map(|&reader| stage.gate_text(reader))
        .collect();
    let output = stage.outputs.iter().position(|rails| rails.contains(&net));
    let mut todo = match (output, readers.is_empty()) {
        (Some(output), _) => {
            let shown = usize::from(stage.outputs[output][0] == net);
            let y = stage.output_name(output);
            format!("{y} is DATA{shown} in every word that is cared for: take it out of both files")
        }
        (None, true) => format!("take {name} out"),
        (None, false) => format!("take {name} out; {} then {} low in its place", readers.join(", "), verb(readers.len())),
    };
    let more = &idle.words;
    if !more.is_empty() {
        let which = if more.len() == 1 { "word" } else { "one of the words" };
        todo += &format!(". Or care for {which} {}, where {name} rises, if it can come (06)", some(more));
    }
    text.row("to do", &todo);
    if !more.is_empty() {
        text.below(0, "(care words in files have input i as bit i)");
    }
}

fn verb(count: usize) -> &'static str {
    if count == 1 {
        "reads"
    } else {
        "read"
    }
}
