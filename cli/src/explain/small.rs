//! What the calls find that write one file: a text of a stage, the next small stage, a drawn reference.

use super::bytes::{self, Taken};
use super::{unknown, Load, Text};
use crate::given::Given;
use crate::input::Input;
use crate::netlist::{commands, kind_name, many, Form, Side, Stage};
use crate::numbers::title;
use fovaheju::{Verdict, DRAWN_REFERENCE};

/// What writing a stage file as text finds.
pub fn of_write_text(text: &mut Text, verdict: Verdict, given: &Given) {
    let stage = given.stage();
    match verdict.number {
        0 => text.row("found", "the text is written; read again it gives this stage, gates before outputs"),
        1..=9 | 18 | 19 => {
            let taken = Taken { side: Side::Stage, most: 256, texts: false, alone: Some("ncl text write") };
            bytes::unreadable(text, verdict, &given.input, taken);
        }
        29 => {
            text.row("stage", &format!("{}: {}", given.name(), stage.counts()));
            text.row("found", &format!("the stage has {}, and a text has no line for them", many(stage.care.len(), "care word")));
            text.row("to do", "keep the stage file, or take its care words (06) out: without them every word counts");
        }
        31 => {
            text.row("stage", &format!("{}: {}", given.name(), stage.counts()));
            second_name(text, &stage, verdict.at as usize);
        }
        _ => unknown(text, verdict),
    }
}

/// 31 in writing: which net would have two names, and why.
fn second_name(text: &mut Text, stage: &Stage, at: usize) {
    let Some(&rails) = stage.outputs.get(at) else { return };
    let [low, high] = rails.map(|net| stage.net_name(net));
    let earlier = |&j: &usize| stage.outputs[j].iter().any(|net| rails.contains(net));
    let found = match (0..at).find(earlier) {
        _ if rails[0] == rails[1] => format!("both rails of y{at} are {low}, and a text would call it y{at}_0 and y{at}_1"),
        _ if rails.iter().any(|&net| net < 2 * stage.inputs) => {
            format!("the rails of y{at} are {low} and {high}; rails of an input have its name, and can be an output's only as its pair, rail 0 first")
        }
        Some(j) => format!("a net of y{at} ({low}, {high}) is one of y{j} already, and a text would call it by both"),
        None => format!("the rails of y{at} are {low} and {high}, and one of them would have a second name"),
    };
    text.row("found", &found);
    text.row(
        "to do",
        &format!("put a gate before each rail of y{at}, as TH12({low}, {low}) and TH12({high}, {high}): it drives a net of its own"),
    );
}

/// What going to the next small stage finds.
pub fn of_next(text: &mut Text, verdict: Verdict, file: &Input) {
    match verdict.number {
        0 => text.row("found", "the next small stage is written"),
        36 => {
            text.row("stage", &format!("{}: {}", file.name, Stage::of(&file.bytes).counts()));
            text.row("found", "it is the last of the small stages: none comes after it");
            text.row("to do", "stop: all of them were written");
        }
        37 => {
            text.row("stage", &file.name);
            text.row("found", &format!("it is no small stage: {}", outside(&file.bytes)));
            text.row("to do", "begin with an empty file, as /dev/null, and hand in each file as it was written");
        }
        _ => unknown(text, verdict),
    }
}

/// Why a file is none of the family: the first reason that can be seen.
fn outside(file: &[u8]) -> String {
    // A row of no length is refused after all that makes a file unreadable, and after 12.
    let read = fovaheju::settled_row(file, &mut []);
    if read.number != 16 {
        return format!("{} ({read})", title(read.number));
    }
    let stage = Stage::of(file);
    let forms: Vec<Option<Form>> = commands(file, Side::Stage).iter().map(|command| command.form).collect();
    let place = |wanted: Form| forms.iter().position(|&form| form == Some(wanted));
    let last_gate = forms.iter().rposition(|&form| form == Some(Form::Gate));
    if stage.inputs > 2 {
        format!("it has {}, and a small stage 1 or 2", many(stage.inputs, "input"))
    } else if stage.gates.len() > 2 {
        format!("it has {}, and a small stage at most 2", many(stage.gates.len(), "gate"))
    } else if let Some(gate) = stage.gates.iter().find(|gate| !(1..=2).contains(&gate.kind)) {
        format!("it has a {}, and a small stage TH12 and TH22 alone", kind_name(gate.kind).unwrap_or_default())
    } else if stage.outputs.len() != 1 {
        format!("it has {}, and a small stage one", many(stage.outputs.len(), "output"))
    } else if !stage.care.is_empty() {
        "it has care words".into()
    } else if place(Form::Output) < last_gate {
        "its output stands before a gate".into()
    } else {
        "a small stage has 1 or 2 inputs, at most two gates TH12 or TH22, then one output, no care words and no loop".into()
    }
}

/// How many seeds are tried for one that can be taken.
const SEEDS: u32 = 1_000;

/// What drawing a reference finds.
pub fn of_draw(text: &mut Text, verdict: Verdict, load: Load) {
    let Load { seed, inputs, gates } = load;
    match verdict.number {
        0 => text.row(
            "found",
            "the reference is drawn; 'ncl make' makes a stage of it, which the check accepts, unless a gate never rises (32)",
        ),
        39 => {
            let what = if (1..=10).contains(&inputs) { many(gates, "gate") } else { many(inputs, "input") };
            text.row("found", &format!("{what}; a reference is drawn with 1 to 10 inputs and 0 to 40 gates"));
            text.row("to do", "ask for counts within these");
        }
        40 => {
            let drawn = format!("drawn from seed {seed} with {} and {}", many(inputs, "input"), many(gates, "gate"));
            text.row("found", &format!("the reference {drawn} has more than 16 outputs: signals that no gate uses"));
            let fits = |&seed: &u32| fovaheju::draw_reference(seed, inputs, gates, &mut [0; DRAWN_REFERENCE]).verdict.accepts();
            let todo = match (1..=SEEDS).map(|more| seed.wrapping_add(more)).find(fits) {
                Some(seed) => format!("take another seed, as {seed}, or other counts"),
                None => format!("take other counts: none of the next {SEEDS} seeds fits these"),
            };
            text.row("to do", &todo);
        }
        _ => unknown(text, verdict),
    }
}
