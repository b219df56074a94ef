//! A verdict in sentences: what was found, where, and what to do about it.

mod bytes;
mod circuit;
mod idle;
mod lines;
mod mended;
mod registers;
mod small;
mod words;

pub use words::{inputs_text, word_text, DEPTH};

use crate::changes::Mending;
use crate::given::Given;
use crate::input::Input;
use crate::mend::Mended;
use crate::netlist::{many, Reference, Side};
use crate::numbers::title;
use crate::output::Paint;
use bytes::Taken;
use fovaheju::Verdict;

/// Which call gave the verdict, on which files. A new call has its case here.
#[derive(Clone, Copy)]
pub enum Question<'a> {
    Check(Pair<'a>),
    Row { stage: &'a Given, row: &'a [u8] },
    Join([Pair<'a>; 2]),
    Make { reference: &'a Input },
    ReadText { text: &'a Given },
    WriteText { stage: &'a Given },
    Next { stage: &'a Input },
    Draw(Load),
}

/// What a reference is drawn from.
#[derive(Clone, Copy)]
pub struct Load {
    pub seed: u32,
    pub inputs: usize,
    pub gates: usize,
}

impl Question<'_> {
    /// What a number is called here, in a few words.
    pub fn title(self, number: u64) -> &'static str {
        match (self, number) {
            (Question::WriteText { .. }, 29) => "a care list has no text",
            (Question::WriteText { .. }, 31) => "a second name for a net",
            _ => title(number),
        }
    }
}

/// A stage and its reference.
#[derive(Clone, Copy)]
pub struct Pair<'a> {
    pub stage: &'a Given,
    pub reference: &'a Input,
    /// Whether the two are a part of a join.
    part: bool,
}

impl<'a> Pair<'a> {
    /// Two files of the check.
    pub fn whole(stage: &'a Given, reference: &'a Input) -> Pair<'a> {
        Pair { stage, reference, part: false }
    }

    /// Two files that are a part of a join.
    pub fn part(stage: &'a Given, reference: &'a Input) -> Pair<'a> {
        Pair { stage, reference, part: true }
    }

    /// How its files are taken. A part has half of the gates, and is no text.
    fn taken(self, side: Side) -> Taken {
        let whole = if side == Side::Stage { 256 } else { 512 };
        Taken { side, most: if self.part { whole / 2 } else { whole }, texts: !self.part, alone: None }
    }
}

/// How words are named: with input 0 as the leftmost digit, or as the lowest bit.
#[derive(Clone, Copy, PartialEq, Eq, Default)]
pub struct Order {
    pub lowest: bool,
}

impl Order {
    /// The number that asks the library for this order.
    pub fn mark(self) -> u64 {
        self.lowest.into()
    }

    /// The value of each input in a word that is named.
    pub fn values(self, word: u64, inputs: usize) -> Vec<bool> {
        let bit = |input: usize| if self.lowest { input } else { inputs - 1 - input };
        (0..inputs).map(|input| word >> bit(input).min(63) & 1 == 1).collect()
    }
}

/// What is said of a verdict, line by line.
pub struct Text {
    lines: Vec<Line>,
    /// How many changes are tried, to find some that would be accepted.
    tries: usize,
}

enum Line {
    /// A label at the left, and words that may take several lines.
    Row(String, String),
    /// Words below a row, that much further in.
    Below(usize, String),
    /// A line as it is.
    Plain(String),
    /// A mark of some width under a column of the line before.
    Mark(usize, usize),
}

/// Where what a row says begins.
const INDENT: usize = 12;
/// Longer rows go on in the next line.
const WIDTH: usize = 100;

impl Text {
    pub fn row(&mut self, label: &str, words: &str) {
        self.lines.push(Line::Row(label.into(), words.into()));
    }

    pub fn below(&mut self, depth: usize, words: &str) {
        self.lines.push(Line::Below(depth, words.into()));
    }

    pub fn plain(&mut self, words: &str) {
        self.lines.push(Line::Plain(words.into()));
    }

    pub fn mark(&mut self, column: usize, wide: usize) {
        self.lines.push(Line::Mark(column, wide));
    }

    fn rendered(&self, paint: Paint) -> String {
        let mut text = String::new();
        for line in &self.lines {
            let words = match line {
                Line::Row(label, words) => {
                    let label = paint.label(&format!("{label:<width$}", width = INDENT - 2));
                    let indent = format!("\n{:INDENT$}", "");
                    format!("  {label}{}", wrapped(words, WIDTH - INDENT).join(&indent))
                }
                Line::Below(depth, words) => format!("{:width$}{words}", "", width = INDENT + 2 + 2 * depth),
                Line::Plain(words) => words.clone(),
                Line::Mark(column, wide) => format!("{:column$}{}", "", paint.bad(&"^".repeat(*wide))),
            };
            text += words.trim_end();
            text.push('\n');
        }
        text
    }

    /// What the first row says that has this label.
    fn labelled(&self, wanted: &str) -> Option<&str> {
        self.lines.iter().find_map(|line| match line {
            Line::Row(label, words) if label == wanted => Some(words.as_str()),
            _ => None,
        })
    }
}

/// Words in lines of at most this width, where none is wider by itself.
pub fn wrapped(words: &str, width: usize) -> Vec<String> {
    let mut lines = vec![String::new()];
    for word in words.split(' ') {
        let line = lines.last_mut().expect("there is a line");
        if !line.is_empty() && line.chars().count() + 1 + word.chars().count() > width {
            lines.push(word.into());
        } else {
            if !line.is_empty() {
                line.push(' ');
            }
            line.push_str(word);
        }
    }
    lines
}

/// How many of the changes that are accepted are shown.
const SHOWN: usize = 3;
/// How many changes of a stage are tried for one explanation, and how many for each of a batch.
pub const TRIES: usize = 20_000;
pub const TRIES_OF_MANY: usize = 500;

/// The verdict and all that can be said of it, with so many changes tried.
pub fn explain(question: Question, verdict: Verdict, order: Order, tries: usize, paint: Paint) -> String {
    headed(question, verdict, &said(question, verdict, order, tries), paint)
}

/// The verdict on a pair, and the changes that make the stage accepted.
pub fn mended(pair: Pair, verdict: Verdict, order: Order, mended: Option<&Mended>, paint: Paint) -> String {
    let mut text = Text { lines: Vec::new(), tries: 0 };
    mended::of_mended(&mut text, verdict, pair, order, mended);
    headed(Question::Check(pair), verdict, &text, paint)
}

/// The verdict with what it is called, and then what is said.
fn headed(question: Question, verdict: Verdict, text: &Text, paint: Paint) -> String {
    let called = question.title(verdict.number);
    let called = if verdict.accepts() { paint.good(called) } else { paint.bad(called) };
    format!("{verdict}  {called}\n{}", text.rendered(paint))
}

/// What was found, as one sentence.
pub fn sentence(question: Question, verdict: Verdict, order: Order) -> String {
    let text = said(question, verdict, order, 0);
    let found = text.labelled("found").unwrap_or_default();
    match text.labelled("file").or(text.labelled("text")) {
        Some(place) => format!("{place}: {found}"),
        None => found.into(),
    }
}

fn said(question: Question, verdict: Verdict, order: Order, tries: usize) -> Text {
    let mut text = Text { lines: Vec::new(), tries };
    match question {
        Question::Check(pair) => of_pair(&mut text, verdict, pair, order),
        Question::Row { stage, row } => of_row(&mut text, verdict, stage, row),
        Question::Join(parts) => of_join(&mut text, verdict, parts, order),
        Question::Make { reference } => of_make(&mut text, verdict, reference),
        Question::ReadText { text: given } => of_read_text(&mut text, verdict, given, "nothing: it is a stage file already"),
        Question::WriteText { stage } => small::of_write_text(&mut text, verdict, stage),
        Question::Next { stage } => small::of_next(&mut text, verdict, stage),
        Question::Draw(load) => small::of_draw(&mut text, verdict, load),
    }
    text
}

/// What reading a text finds. `instead` is what to do with a stage file that was taken for one.
fn of_read_text(text: &mut Text, verdict: Verdict, given: &Given, instead: &str) {
    match verdict.number {
        0 => {
            text.row("text", &format!("{}: {}", given.name(), given.stage().counts()));
            text.row("found", "the text reads, and its stage file is made; 'ncl check' judges it");
        }
        3 | 5 | 6 | 29..=31 => lines::refused(text, verdict, given, instead),
        _ => unknown(text, verdict),
    }
}

/// What to do with a stage file that was taken for a text.
fn no_text(given: &Given) -> &'static str {
    if given.name().ends_with(".txt") {
        "give it a name that does not end in .txt: such a name asks for a text"
    } else {
        "leave out --text"
    }
}

/// What the check finds in two files.
fn of_pair(text: &mut Text, verdict: Verdict, pair: Pair, order: Order) {
    if pair.stage.refused().is_some() {
        return of_read_text(text, verdict, pair.stage, no_text(pair.stage));
    }
    match (verdict.number, verdict.file) {
        (0, _) => {
            let stage = pair.stage.stage();
            text.row("stage", &format!("{}: {}", pair.stage.name(), stage.counts()));
            let words = if stage.care.is_empty() { "in every word" } else { "in each of its care words" };
            let registers = if stage.registers.is_empty() {
                ""
            } else {
                ". Each register is acknowledged by those that it reaches; in what is said of words and orders it counts as two wires"
            };
            text.row(
                "found",
                &format!(
                    "{words}, and in every order in which its gates may switch, the stage answers what the reference says, waits for each \
                     input and each gate, and goes back to NULL in the same way; each gate rises in some word{registers}"
                ),
            );
        }
        (1..=9 | 18 | 19, 2) => bytes::unreadable(text, verdict, pair.reference, pair.taken(Side::Reference)),
        (1..=9 | 18 | 19, _) => bytes::unreadable(text, verdict, &pair.stage.input, pair.taken(Side::Stage)),
        (10 | 11, _) => {
            let what = if verdict.number == 10 { "input" } else { "output" };
            let (at, word) = (verdict.at as usize, verdict.word as usize);
            text.row("stage", &format!("{}: {}", pair.stage.name(), many(at, what)));
            text.row("reference", &format!("{}: {}", pair.reference.name, many(word, what)));
            text.row("found", &format!("the stage has {}, the reference {word}", many(at, what)));
            text.row("to do", &format!("pair the stage with its own reference, or give the one that lacks {what}s what is missing"));
        }
        (12, _) => {
            circuit::on_a_loop(text, verdict, pair.stage);
            say_changes(text, verdict, pair, order);
        }
        (33..=35, _) => {
            registers::miswired(text, verdict, pair);
            say_changes(text, verdict, pair, order);
        }
        (13 | 14 | 15 | 20 | 21 | 28 | 32, _) => {
            // From 28 on a register is two wires, and is shown so.
            let wired = pair.stage.wired();
            let shown = Pair { stage: wired.as_ref().unwrap_or(pair.stage), ..pair };
            if wired.is_some() {
                text.row("registers", &format!("{}; a register is two wires here, and is shown so", pair.stage.stage().part_counts()));
            }
            match verdict.number {
                28 => circuit::retired(text, verdict, shown),
                32 => idle::never_rises(text, verdict, shown),
                _ => words::in_a_word(text, verdict, shown, order),
            }
            say_changes(text, verdict, pair, order);
        }
        _ => unknown(text, verdict),
    }
}

/// Some changes that the check accepts.
fn say_changes(text: &mut Text, verdict: Verdict, pair: Pair, order: Order) {
    if text.tries == 0 {
        return;
    }
    let stage = pair.stage.stage();
    let Some(mending) = Mending::of(verdict, pair.stage.bytes(), &pair.reference.bytes, &stage, order) else { return };
    let (found, tried) = mending.some(SHOWN, text.tries);
    if found.is_empty() {
        let words = format!(
            "{}, of one gate or output or a few of them, and none is accepted; 'ncl mend' tries every single one",
            many(tried, "change")
        );
        text.row("tried", &words);
    }
    for (k, change) in found.iter().enumerate() {
        if k == 0 {
            text.row("accepted", &format!("with {}", change.says));
        } else {
            text.row("", &format!("or: {}", change.says));
        }
    }
}

/// What the settled-row call finds.
fn of_row(text: &mut Text, verdict: Verdict, file: &Given, row: &[u8]) {
    if file.refused().is_some() {
        return of_read_text(text, verdict, file, no_text(file));
    }
    let stage = file.stage();
    let at = verdict.at as usize;
    match verdict.number {
        0 => text.row("found", "the row is settled: each gate is high exactly if its set expression holds"),
        1..=9 | 18 | 19 => {
            let taken = Taken { side: Side::Stage, most: 256, texts: true, alone: Some("ncl row") };
            bytes::unreadable(text, verdict, &file.input, taken);
        }
        12 => circuit::on_a_loop(text, verdict, file),
        16 => {
            text.row("stage", &format!("{}: {}", file.name(), stage.counts()));
            let nets = stage.nets();
            text.row("found", &format!("the row has {}, and the stage has {}", many(at, "byte"), many(nets, "net")));
            let inputs = many(stage.inputs, "input");
            text.row("to do", &format!("give a value for each of the {inputs}; as bytes two for each input, then one for each gate"));
        }
        17 => {
            text.row("stage", &format!("{}: {}", file.name(), stage.counts()));
            let rails: Vec<String> = row.iter().skip(2 * at).take(2).map(u8::to_string).collect();
            text.row("found", &format!("the rails of {} are {}", stage.input_name(at), rails.join(" and ")));
            text.row("to do", "write 0 or 1 to each rail, and 1 to at most one of the two");
        }
        _ => unknown(text, verdict),
    }
}

/// What the join finds: the first part's own refusal, the second's with 3 added to its file, or what stands between them.
fn of_join(text: &mut Text, verdict: Verdict, [first, second]: [Pair; 2], order: Order) {
    match (verdict.number, verdict.file) {
        (0, _) => {
            text.row("found", "both parts are accepted and fit; the check accepts the whole too, unless a gate never rises in it (32)")
        }
        (22, _) => {
            let (outputs, inputs) = (verdict.at as usize, verdict.word as usize);
            text.row("first", &format!("{}: {}", first.stage.name(), many(outputs, "output")));
            text.row("second", &format!("{}: {}", second.stage.name(), many(inputs, "input")));
            text.row("found", &format!("the first part has {}, the second {}", many(outputs, "output"), many(inputs, "input")));
            text.row("to do", "join parts that fit: output j of the first is tied to input j of the second");
        }
        (23, _) => seam(text, verdict, [first, second], order),
        (24, _) => unknown(text, verdict),
        (_, 0..=2) => {
            text.row("part", "the first");
            of_pair(text, verdict, first, order);
        }
        (_, file) => {
            text.row("part", "the second");
            of_pair(text, Verdict { file: file - 3, ..verdict }, second, order);
        }
    }
}

/// 23: an answer of the first part that is no care word of the second.
fn seam(text: &mut Text, verdict: Verdict, [first, second]: [Pair; 2], order: Order) {
    let stage = first.stage.stage();
    let values = order.values(verdict.word, stage.inputs);
    let answer = Reference::of(&first.reference.bytes).answer(&values);
    let word: usize = answer.iter().enumerate().map(|(j, &bit)| usize::from(bit) << j).sum();
    let care = second.stage.stage().care;
    words::say_word(text, verdict.word, &values, order, &stage);
    let digits: String = answer.iter().map(|&bit| if bit { '1' } else { '0' }).collect();
    text.row(
        "found",
        &format!("the first part answers {} = {digits}, word {word}, which the second does not care for", words::range("y", answer.len())),
    );
    text.row("second", &format!("{}: {}, {}", second.stage.name(), many(care.len(), "care word"), some(&care)));
    text.row(
        "to do",
        &format!("add {word} to the care words of the second part and check it, or take this word out of those of the first"),
    );
    text.below(0, "(care words in files have input i as bit i)");
}

/// Some numbers of a list, the first ones.
fn some(list: &[usize]) -> String {
    let shown: Vec<String> = list.iter().take(16).map(usize::to_string).collect();
    shown.join(" ") + if list.len() > 16 { " .." } else { "" }
}

/// What making a stage of a reference finds.
fn of_make(text: &mut Text, verdict: Verdict, file: &Input) {
    let reference = Reference::of(&file.bytes);
    let at = verdict.at as usize;
    match verdict.number {
        0 => text.row("found", "a stage was made of the reference; the check accepts it, unless a gate never rises (32)"),
        1..=9 => {
            let taken = Taken { side: Side::Reference, most: 512, texts: false, alone: Some("ncl make") };
            bytes::unreadable(text, verdict, file, taken);
        }
        25 => {
            text.row(
                "reference",
                &format!("{}: {}, {}", file.name, many(reference.inputs, "input"), many(reference.outputs.len(), "output")),
            );
            let sort = if at < reference.inputs { "input" } else { "signal" };
            text.row(
                "found",
                &format!("{sort} {} is no output and leads to none, so no output would wait for it", reference.signal_text(at)),
            );
            text.row("to do", &format!("take the {sort} out, or let an output depend on it"));
        }
        26 => {
            text.row("reference", &format!("{}: {}", file.name, many(reference.gates.len(), "gate")));
            text.row("found", &format!("a stage of it needs {at} gates, two for each operation but NOT; 256 are possible"));
            text.row("to do", "split the reference, make the parts, and join them ('ncl join')");
        }
        _ => unknown(text, verdict),
    }
}

fn unknown(text: &mut Text, verdict: Verdict) {
    text.row("found", &format!("{}: docs/VERDICTS.md says more", title(verdict.number)));
}
