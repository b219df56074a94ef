//! What mending found, in sentences.

use super::{of_pair, Pair, Text};
use crate::explain::Order;
use crate::mend::{Cut, Mended, Tried};
use crate::netlist::many;
use fovaheju::Verdict;

/// How many changes are listed; the rest is counted, and JSON has all.
const LISTED: usize = 40;

/// The changes that are accepted, and how many were tried. Without any tried, what the verdict says of the files.
pub fn of_mended(text: &mut Text, verdict: Verdict, pair: Pair, order: Order, mended: Option<&Mended>) {
    let Some(mended) = mended else {
        of_pair(text, verdict, pair, order);
        if !verdict.accepts() {
            text.row("tried", "nothing: a change of gates does not help here");
        }
        return;
    };
    text.row("stage", &format!("{}: {}", pair.stage.name(), pair.stage.stage().counts()));
    let several = match (verdict.number, mended.singles.tried) {
        (32, _) => "taking out gates that never rise, one care word more, and the like",
        (_, 0) => "taking out a gate that feeds nothing",
        _ => "more than that, at one place",
    };
    let single = if pair.stage.stage().has_parts() {
        "every change of one kind, hold, pin or output rail, and of one net at a register or C-element"
    } else {
        "every change of one kind, hold, pin or output rail"
    };
    let sorts = [
        (single, Some(&mended.singles)),
        (several, mended.several.as_ref()),
        ("two pins at once of the gates on the way", mended.pins.as_ref()),
        ("gates added, so that an output waits", mended.added.as_ref()),
    ];
    let mut label = "tried";
    for (what, tried) in sorts {
        if let Some(tried) = tried.filter(|tried| tried.tried > 0 || tried.cut.is_some()) {
            say_tried(text, label, what, tried, mended.time.as_secs());
            label = "";
        }
    }
    let count = mended.found().count();
    for (k, change) in mended.found().take(LISTED).enumerate() {
        text.row(if k == 0 { "accepted" } else { "" }, &format!("{}. {}", k + 1, change.says));
    }
    match count {
        0 => text.row("found", "no change that is accepted: more has to change at once. 'ncl explain' says where to look"),
        _ if count > LISTED => text.row("", &format!("and {} more; --json has them all", count - LISTED)),
        _ => {}
    }
}

fn say_tried(text: &mut Text, label: &str, what: &str, tried: &Tried, seconds: u64) {
    let cut = match tried.cut {
        Some(Cut::Time) => format!("; {seconds} s were over before all were tried (--seconds)"),
        Some(Cut::Enough) => "; then no more were tried".into(),
        None => String::new(),
    };
    let accepted = if tried.found.len() == 1 { "1 is accepted".into() } else { format!("{} are accepted", tried.found.len()) };
    text.row(label, &format!("{what}: {}, {accepted}{cut}", many(tried.tried, "change")));
}
