//! 33, 34 and 35: the register, what it reaches, and what stands behind its Ki. The verdict is the library's; the ways shown are followed in the file.

use super::{Pair, Text};
use crate::netlist::{Driver, Stage, OUTSIDE};
use crate::wiring::{Fed, Source, Wiring};
use fovaheju::Verdict;

/// How many registers, nets or ways are shown.
const SHOWN: usize = 8;

/// The sentences for a register that is refused.
pub fn miswired(text: &mut Text, verdict: Verdict, pair: Pair) {
    let stage = pair.stage.stage();
    let at = verdict.at as usize;
    text.row("stage", &format!("{}: {}", pair.stage.name(), stage.counts()));
    if at >= stage.registers.len() {
        text.row("found", "a register that cannot be shown");
        return;
    }
    let wiring = Wiring::of(&stage);
    text.row("register", &stage.register_text(at));
    match verdict.number {
        33 => not_levelled(text, &wiring, at),
        34 => unacknowledged(text, &wiring, at),
        _ => barred(text, &wiring, at),
    }
}

/// Some words, the first ones, with commas between them.
fn some(words: impl Iterator<Item = String>) -> String {
    let words: Vec<String> = words.collect();
    let more = if words.len() > SHOWN { ", .." } else { "" };
    words[..words.len().min(SHOWN)].join(", ") + more
}

/// `through g1 and g3`, or `straight`.
fn way(stage: &Stage, fed: &Fed) -> String {
    match fed.gates.as_slice() {
        [] => "straight".into(),
        gates => format!("through {}", gates.iter().map(|&gate| stage.gate_name(gate)).collect::<Vec<String>>().join(" and ")),
    }
}

/// What a register reaches, and what stands behind its Ki.
fn say_wiring(text: &mut Text, wiring: &Wiring, at: usize) {
    let stage = wiring.stage;
    let reached = wiring.reached(at);
    let each = reached.iter().filter_map(|&other| wiring.way(at, other).map(|fed| format!("r{other} {}", way(stage, fed))));
    text.row("reaches", &if reached.is_empty() { "no register".into() } else { some(each) });
    let ki = stage.registers[at].ki;
    let (nets, elements) = wiring.opened(ki);
    if ki == OUTSIDE {
        text.row("its Ki", "is the outside, FFFE");
    } else if elements.is_empty() {
        text.row("its Ki", &format!("is {}", stage.net_name(ki)));
    } else {
        text.row("its Ki", &some(elements.iter().map(|&element| stage.element_text(element))));
        text.row("behind it", &some(nets.iter().map(|&net| stage.net_name(net))));
    }
}

/// 33: a ring of registers, a loop of C-elements, or levels that differ.
fn not_levelled(text: &mut Text, wiring: &Wiring, at: usize) {
    let stage = wiring.stage;
    let ring = wiring.ring(at);
    let loops = wiring.element_loop(at);
    if !ring.is_empty() {
        let through = some(ring[..ring.len() - 1].iter().map(|&register| stage.register_name(register)));
        let through = if through.is_empty() { String::new() } else { format!(", through {through}") };
        text.row("found", &format!("r{at} reaches itself{through}: its data comes back to it"));
        let mut from = at;
        for (k, &next) in ring.iter().enumerate().take(SHOWN) {
            let how = wiring.way(from, next).map_or(String::new(), |fed| way(stage, fed));
            text.row(if k == 0 { "look at" } else { "" }, &format!("r{from} feeds r{next} {how}"));
            from = next;
        }
        text.row(
            "to do",
            "put a data rail of one of these registers on a net that comes from before it: data goes from level to level, and never back",
        );
    } else if !loops.is_empty() {
        text.row("found", &format!("behind the Ki of r{at} a C-element waits for itself, so the Ki never comes"));
        text.row("look at", &some(loops.iter().map(|&element| stage.element_text(element))));
        text.row("to do", "put one of these pins on the Ko of a register");
    } else {
        text.row("found", &format!("r{at} is fed from unequal levels: what comes from the lower one is a word ahead"));
        for (k, fed) in wiring.fed[at].iter().enumerate().take(SHOWN) {
            let (name, level) = match fed.source {
                Source::Input(input) => (stage.input_name(input), 0),
                Source::Register(register) => (stage.register_name(register), wiring.level(fed.source)),
            };
            text.row(if k == 0 { "look at" } else { "" }, &format!("{name}, of level {level}, feeds it {}", way(stage, fed)));
        }
        text.row(
            "to do",
            "send what comes from a lower level through as many registers as the rest: a register for each signal between two levels",
        );
    }
}

/// 34: the Ko of a register that is reached is missing.
fn unacknowledged(text: &mut Text, wiring: &Wiring, at: usize) {
    let stage = wiring.stage;
    let missing = wiring.missing(at);
    let names = some(missing.iter().map(|&other| stage.net_name(stage.registers[other].ko())));
    let is = if missing.len() == 1 { "does" } else { "do" };
    text.row("found", &format!("{names} {is} not stand behind the Ki of r{at}: it lets its data go before they have been taken over"));
    say_wiring(text, wiring, at);
    text.row("to do", &format!("let its Ki wait for {}", needed(wiring, at)));
}

/// What the Ki of a register has to be.
fn needed(wiring: &Wiring, at: usize) -> String {
    let stage = wiring.stage;
    let reached = wiring.reached(at);
    let names = some(reached.iter().map(|&other| stage.net_name(stage.registers[other].ko())));
    match reached.len() {
        1 => format!("{names}, the Ko of the register that it reaches"),
        _ => format!("all of {names} by C-elements: the Ko of each register that it reaches"),
    }
}

/// 35: a net behind the Ki that may not stand there.
fn barred(text: &mut Text, wiring: &Wiring, at: usize) {
    let stage = wiring.stage;
    let ki = stage.registers[at].ki;
    if wiring.reached(at).is_empty() {
        text.row("found", &format!("r{at} reaches no register, and its Ki is {} in place of the outside", stage.net_name(ki)));
        say_wiring(text, wiring, at);
        text.row("to do", "give it FFFE as its Ki: what follows the last registers stands outside the stage");
        return;
    }
    let net = wiring.barred(at).first().copied().unwrap_or(ki);
    let why = match stage.source(net) {
        Driver::Ko(other) if other == at => "its own Ko".into(),
        Driver::Ko(other) => {
            let (level, own) = (wiring.levels[other], wiring.levels[at]);
            format!("the Ko of a register of level {level} that it does not reach; the next level after its own is {}", own + 1)
        }
        _ => "a net that carries data, and no Ko".into(),
    };
    text.row("found", &format!("{} stands behind the Ki of r{at}: {why}", stage.net_name(net)));
    say_wiring(text, wiring, at);
    text.row("to do", &format!("take {} out from behind its Ki, which is to wait for {}", stage.net_name(net), needed(wiring, at)));
}
