//! Runs as the papers tell them: which nets may switch in a row, lists of switchings that are judged, the runs that the calls hand out, and
//! what a run has to show of a verdict. Nothing is shared with the crates.

use crate::judge::{
    self, answer, least_gate_on_a_loop, may_fall, rails_of_word, read_reference, read_stage, set_expression_holds,
    PairState, Reference, Stage, Verdict, WordOrder, ACCEPTED, LIMITS, ROW, STAGE,
};

/// A rise and the fall behind it.
#[derive(Clone, PartialEq, Eq, Debug, Default)]
pub struct Run {
    pub rise: Vec<u16>,
    pub fall: Vec<u16>,
}

/// What a call that hands out a run answers: the list behind it is the caller's.
#[derive(Clone, Copy, PartialEq, Eq, Debug)]
pub struct Handed {
    pub verdict: Verdict,
    pub rise: u64,
    pub count: u64,
}

/// What the call that judges a list answers.
#[derive(Clone, Copy, PartialEq, Eq, Debug)]
pub struct Played {
    pub verdict: Verdict,
    pub steps: u64,
}

/// A run of a word rises, and then it falls.
#[derive(Clone, Copy, PartialEq, Eq, Debug)]
pub enum Way {
    Rise(u64),
    Fall,
}

/// "Each step raises one input rail that w calls for and that is still low, or lets one gate switch by the two rules"; of a fall,
/// "its steps lower an input rail that is still high instead of raising one".
pub fn may_switch(stage: &Stage, way: Way, row: &[bool], net: usize) -> bool {
    if net >= stage.nets() {
        return false;
    }
    if net < 2 * stage.inputs {
        return match way {
            Way::Rise(word) => !row[net] && rails_of_word(stage.inputs, word)[net],
            Way::Fall => row[net],
        };
    }
    let gate = &stage.gates[net - 2 * stage.inputs];
    if row[net] {
        may_fall(gate, row)
    } else {
        set_expression_holds(gate, row)
    }
}

/// "The run ends when no step is left."
pub fn has_ended(stage: &Stage, way: Way, row: &[bool]) -> bool {
    (0..stage.nets()).all(|net| !may_switch(stage, way, row, net))
}

/// At each step, of the nets that may switch and are not held back, that with the least key switches, the least net of equal keys;
/// until there is none.
fn play_on(stage: &Stage, way: Way, row: &mut [bool], held: &[usize], key: &dyn Fn(usize) -> u32) -> Vec<u16> {
    let mut list = Vec::new();
    loop {
        let nets = (0..stage.nets()).filter(|net| !held.contains(net));
        let able = nets.filter(|&net| may_switch(stage, way, row, net));
        let Some(net) = able.min_by_key(|&net| (key(net), net)) else {
            return list;
        };
        row[net] = !row[net];
        list.push(net as u16);
        assert!(list.len() <= stage.nets(), "a net switches twice");
    }
}

/// A list of entries in a lent list: where there is no room it is left as it was.
fn hand_out(verdict: Verdict, run: &Run, list: &mut [u16]) -> Handed {
    let all = [&run.rise[..], &run.fall[..]].concat();
    if all.len() <= list.len() {
        list[..all.len()].copy_from_slice(&all);
    }
    Handed {
        verdict,
        rise: run.rise.len() as u64,
        count: all.len() as u64,
    }
}

/// The numbers of which a run is shown.
const SHOWN: [u64; 7] = [0, 13, 14, 15, 20, 21, 32];

/// The word of which it is: the one that the verdict names; accepted, the one that is asked for; under 32 that too, "if it is cared for,
/// else the first care word".
fn word_shown(order: WordOrder, stage: &Stage, verdict: Verdict, asked: u64) -> u64 {
    let [number, _, _, name] = verdict;
    match number {
        0 => order.named(stage.inputs, asked),
        32 => {
            let cared = stage.named_words(order);
            let given = cared.iter().find(|(name, _)| *name == asked);
            given.unwrap_or(&cared[0]).1
        }
        _ => order.named(stage.inputs, name),
    }
}

/// The witness: under 13 a full run, under 14 and 15 one in which the input or the gate is held back, under 20 and 21 a full rise
/// and a fall with the input or the gate held back; accepted, and under 32, a full rise and a full fall of the word that is asked for.
pub fn witness(order: WordOrder, stage_file: &[u8], reference_file: &[u8], asked: u64, list: &mut [u16]) -> Handed {
    let verdict = judge::check_in_order(order, LIMITS, stage_file, reference_file);
    let [number, _, at, _] = verdict;
    if !SHOWN.contains(&number) {
        return hand_out(verdict, &Run::default(), list);
    }
    let stage = read_stage(stage_file).expect("a stage of which a run is shown");
    let word = word_shown(order, &stage, verdict, asked);
    let named = match number {
        14 | 20 => vec![2 * at as usize, 2 * at as usize + 1],
        15 | 21 => vec![stage.net_of_gate(at as usize)],
        _ => vec![],
    };
    let in_rise = matches!(number, 14 | 15);
    let mut row = vec![false; stage.nets()];
    let own = |net: usize| net as u32;
    let none: &[usize] = &[];
    let rise = play_on(&stage, Way::Rise(word), &mut row, if in_rise { &named } else { none }, &own);
    let fall = match number {
        0 | 20 | 21 | 32 => play_on(&stage, Way::Fall, &mut row, &named, &own),
        _ => vec![],
    };
    hand_out(verdict, &Run { rise, fall }, list)
}

/// Documents 01 and 02, M-102 and M-110: whether a run of a word shows what a verdict says, by playing it; however it was made.
pub fn shows(stage: &Stage, reference: &Reference, verdict: Verdict, word: u64, run: &Run) -> Result<(), String> {
    let [number, _, at, _] = verdict;
    let at = at as usize;
    let mut row = vec![false; stage.nets()];
    for &net in &run.rise {
        let net = net as usize;
        if !may_switch(stage, Way::Rise(word), &row, net) {
            return Err(format!("net {net} may not switch in the rise"));
        }
        row[net] = !row[net];
    }
    let full_rise = has_ended(stage, Way::Rise(word), &row);
    for &net in &run.fall {
        let net = net as usize;
        if !full_rise || !may_switch(stage, Way::Fall, &row, net) {
            return Err(format!("net {net} may not switch in the fall"));
        }
        row[net] = !row[net];
    }
    let pair = |net: [usize; 2]| judge::pair_state(row[net[0]], row[net[1]]);
    let outputs: Vec<PairState> = stage.outputs.iter().map(|&rails| pair(rails)).collect();
    let all_data = outputs.iter().all(|state| matches!(state, PairState::Data(_)));
    let all_null = outputs.iter().all(|state| *state == PairState::Null);
    let input = |i: usize| pair([2 * i, 2 * i + 1]);
    let full_cycle = full_rise && has_ended(stage, Way::Fall, &row) && row.iter().all(|&high| !high);
    let switches = |net: usize| [&run.rise, &run.fall].iter().any(|list| list.contains(&(net as u16)));
    let shown = match number {
        0 => full_cycle,
        13 => full_rise && run.fall.is_empty() && outputs[at] != PairState::Data(answer(reference, word)[at]),
        14 => run.fall.is_empty() && all_data && input(at) == PairState::Null,
        15 => {
            let able = set_expression_holds(&stage.gates[at], &row);
            run.fall.is_empty() && all_data && !row[stage.net_of_gate(at)] && able
        }
        20 => full_rise && all_null && matches!(input(at), PairState::Data(_)),
        21 => full_rise && all_null && row[stage.net_of_gate(at)],
        32 => full_cycle && !switches(stage.net_of_gate(at)) && stage.words().contains(&word),
        _ => false,
    };
    if shown {
        Ok(())
    } else {
        Err(format!("the run does not show {verdict:?}"))
    }
}

/// The same of two files, by what a call has handed out.
pub fn shows_of_files(
    order: WordOrder,
    stage_file: &[u8],
    reference_file: &[u8],
    asked: u64,
    answer: &Handed,
    list: &[u16],
) -> Result<(), String> {
    if !SHOWN.contains(&answer.verdict[0]) {
        return if answer.rise == 0 && answer.count == 0 {
            Ok(())
        } else {
            Err("a run of a verdict that speaks of none".to_string())
        };
    }
    let stage = read_stage(stage_file).map_err(|_| "a stage that does not read")?;
    let reference = read_reference(reference_file).map_err(|_| "a reference that does not read")?;
    let word = word_shown(order, &stage, answer.verdict, asked);
    let (rise, count) = (answer.rise as usize, answer.count as usize);
    if list.len() < count {
        return Ok(());
    }
    let run = Run {
        rise: list[..rise].to_vec(),
        fall: list[rise..count].to_vec(),
    };
    shows(&stage, &reference, answer.verdict, word, &run)
}

/// Reading, 12, and 16 of a list that has to have so many entries for each net; or the stage.
fn open(stage_file: &[u8], length: usize, for_each_net: usize) -> Result<Stage, Verdict> {
    let stage = read_stage(stage_file).map_err(|(number, at)| [number, STAGE, at as u64, 0])?;
    if let Some(gate) = least_gate_on_a_loop(&stage) {
        return Err([12, STAGE, gate as u64, 0]);
    }
    if length != for_each_net * stage.nets() {
        return Err([16, ROW, length as u64, 0]);
    }
    Ok(stage)
}

/// The first step that the rules bar, or none, and the row after all steps before it. "The fall starts at that end": a step of the
/// fall before the rise has ended is barred.
pub fn play(order: WordOrder, stage_file: &[u8], name: u64, fall: usize, list: &[u16], row: &mut [u8]) -> Played {
    let stage = match open(stage_file, row.len(), 1) {
        Ok(stage) => stage,
        Err(verdict) => return Played { verdict, steps: 0 },
    };
    let word = order.named(stage.inputs, name);
    let mut levels = vec![false; stage.nets()];
    let mut steps = 0;
    for (place, &net) in list.iter().enumerate() {
        let net = net as usize;
        if place == fall && !has_ended(&stage, Way::Rise(word), &levels) {
            break;
        }
        let way = if place < fall { Way::Rise(word) } else { Way::Fall };
        if !may_switch(&stage, way, &levels, net) {
            break;
        }
        levels[net] = !levels[net];
        steps += 1;
    }
    for (byte, &high) in row.iter_mut().zip(&levels) {
        *byte = u8::from(high);
    }
    Played {
        verdict: ACCEPTED,
        steps,
    }
}

/// A full rise and a full fall of a word, by a key for each net in the rise and then one for each in the fall.
pub fn run_by_keys(order: WordOrder, stage_file: &[u8], name: u64, keys: &[u32], list: &mut [u16]) -> Handed {
    let stage = match open(stage_file, keys.len(), 2) {
        Ok(stage) => stage,
        Err(verdict) => return hand_out(verdict, &Run::default(), list),
    };
    let word = order.named(stage.inputs, name);
    let mut row = vec![false; stage.nets()];
    let (up, down) = keys.split_at(stage.nets());
    let rise = play_on(&stage, Way::Rise(word), &mut row, &[], &|net| up[net]);
    let fall = play_on(&stage, Way::Fall, &mut row, &[], &|net| down[net]);
    hand_out(ACCEPTED, &Run { rise, fall }, list)
}

#[cfg(test)]
mod tests {
    use super::*;

    /// The whole case of document 01, with its reference.
    const AND: [u8; 28] = [
        1, 2, 2, 2, 1, 0, 3, 0, 255, 255, 255, 255, 2, 26, 0, 0, 2, 0, 1, 0, 3, 0, 3, 5, 0, 4, 0, 0,
    ];
    const AND_REFERENCE: [u8; 12] = [1, 2, 17, 2, 0, 0, 1, 0, 18, 2, 0, 0];

    #[test]
    fn the_whole_case() {
        let mut list = [9; 7];
        let order = WordOrder::Input0Highest;
        let answer = witness(order, &AND, &AND_REFERENCE, 2, &mut list);
        assert_eq!((answer.verdict, answer.rise, answer.count), (ACCEPTED, 3, 6));
        assert_eq!(list, [1, 2, 5, 1, 2, 5, 9]);
        shows_of_files(order, &AND, &AND_REFERENCE, 2, &answer, &list).expect("a full cycle");
        let swapped = [2, 1, 5, 1, 2, 5];
        let mut row = [7; 6];
        let played = play(order, &AND, 2, 3, &swapped, &mut row);
        assert_eq!((played.verdict, played.steps, row), (ACCEPTED, 6, [0; 6]));
        let early = play(order, &AND, 2, 2, &[2, 1, 1], &mut row);
        assert_eq!((early.steps, row), (2, [0, 1, 1, 0, 0, 0]));
    }

    /// A wire with TH22(0, 1) beside it, and word 0 as the only care word: word 1, which is asked for, is not cared for.
    #[test]
    fn a_gate_that_never_rises() {
        let stage = [1, 1, 6, 0, 0, 2, 2, 0, 0, 1, 0, 255, 255, 255, 255, 3, 0, 0, 1, 0, 0];
        let reference = [1, 1, 18, 0, 0, 0];
        let mut list = [9; 3];
        let order = WordOrder::Input0Highest;
        let answer = witness(order, &stage, &reference, 1, &mut list);
        assert_eq!((answer.verdict, answer.rise, answer.count), ([32, 1, 0, 0], 1, 2));
        assert_eq!(list, [0, 0, 9]);
        shows_of_files(order, &stage, &reference, 1, &answer, &list).expect("a cycle without the gate");
    }

    #[test]
    fn a_gate_before_its_pin_shows_nothing() {
        let stage = read_stage(&AND).expect("the stage");
        let reference = read_reference(&AND_REFERENCE).expect("the reference");
        let run = Run {
            rise: vec![1, 5, 2],
            fall: vec![1, 2, 5],
        };
        assert!(shows(&stage, &reference, ACCEPTED, 1, &run).is_err());
    }
}
