//! What can be seen in the gates of a stage without a word: loops and retired kinds.

use super::{Pair, Text};
use crate::given::Given;
use fovaheju::Verdict;

/// 12: the loop, gate by gate.
pub fn on_a_loop(text: &mut Text, verdict: Verdict, given: &Given) {
    let stage = given.stage();
    let start = verdict.at as usize;
    text.row("stage", &format!("{}: {}", given.name(), stage.counts()));
    text.row("found", &format!("gate {} reaches itself through pins", stage.gate_name(start)));
    let path = stage.shortest_loop(start);
    let mut from = start;
    for (k, &gate) in path.iter().enumerate() {
        let net = stage.net_of(from);
        let pin = stage.gates[gate].pins.iter().position(|&pin| pin == net).unwrap_or(0);
        let label = if k == 0 { "look at" } else { "" };
        let (name, letter) = (stage.gate_name(from), ["A", "B", "C", "D"][pin.min(3)]);
        text.row(label, &format!("{name} feeds pin {letter} of {}", stage.gate_text(gate)));
        from = gate;
    }
    let which = if path.len() == 1 { "this pin".into() } else { format!("one of these {} pins", path.len()) };
    text.row(
        "to do",
        &format!("put {which} on another net: a stage is combinational, and what is to be kept goes through a register, outside the stage"),
    );
}

/// 28: the gate, and all others of its sort.
pub fn retired(text: &mut Text, verdict: Verdict, pair: Pair) {
    let stage = pair.stage.stage();
    let gate = verdict.at as usize;
    let alike = stage.alike(gate);
    text.row("stage", &format!("{}: {}", pair.stage.name(), stage.counts()));
    text.row("found", &format!("{} is of a kind that is no longer cast", stage.gate_text(gate)));
    let others: Vec<String> = alike.iter().filter(|&&k| k != gate).map(|&k| stage.gate_text(k)).collect();
    if !others.is_empty() {
        text.row("also", &others.join(", "));
    }
    let pins = stage.gates.get(gate).map_or(&[][..], |gate| &gate.pins);
    let same = pins.len() == 4 && pins[2] == pins[3];
    text.row(
        "to do",
        if same {
            "use another kind: AB+AC+BCD with pins C and D on one net is AB+AC+BC, which is TH23(A, B, C)"
        } else {
            "build the gate of other kinds: AB+AC+BCD is TH12 of TH33w2(A, B, C) and TH33(B, C, D). Then check again, since the outputs \
             have to wait for the new gates too"
        },
    );
}
