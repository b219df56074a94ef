//! All runs of small stages, step by step.
//!
//! The rules of "How a stage moves" are played on rows held as bitmasks, every
//! reachable row is visited, and each sentence that document 01 and demand 3 say of
//! lists of switchings is tried on all of them. A gate may rise or fall in a rise
//! and in a fall alike if its rule allows it: that gates only rise in a rise is not
//! taken for granted here.
//!
//! A list of steps is a path from the start. What holds after every list is what
//! holds in every reachable row. Lengths of lists are followed as well: every row
//! must come after lists of one length only (if some row could come after lists of
//! two lengths, then so could an end, since every list can be carried on to one).

use crate::judge::{
    answer, cell, is_relaxed, pair_state, pin_count, rails_of_word, settle, PairState, Reference,
    Stage, Verdict, WordOrder, ACCEPTED, KINDS,
};
use std::collections::HashMap;
use std::hash::{BuildHasherDefault, Hasher};

/// One bit for each net.
pub type Row = u64;

/// A short hash of rows.
#[derive(Default)]
struct RowHasher(u64);

impl Hasher for RowHasher {
    fn write(&mut self, bytes: &[u8]) {
        for &byte in bytes {
            self.write_u64(byte.into());
        }
    }

    fn write_u64(&mut self, row: u64) {
        let mixed = (self.0 ^ row).wrapping_mul(0x9E37_79B9_7F4A_7C15);
        self.0 = mixed ^ mixed >> 32;
    }

    fn finish(&self) -> u64 {
        self.0
    }
}

/// A gate in the form the steps need.
struct Cell {
    /// The bit of the gate's own net.
    own: Row,
    /// The products of the set expression, each as the bits that must be high.
    products: Vec<Row>,
    /// The bits of all pins that the kind has.
    pins: Row,
    /// Whether the gate, once high, waits for all of its pins.
    hold: bool,
}

/// A stage prepared for playing steps on it.
pub struct Rules {
    pub inputs: usize,
    pub nets: usize,
    cells: Vec<Cell>,
    outputs: Vec<[Row; 2]>,
}

impl Rules {
    /// None if the stage has too many nets for a row.
    pub fn new(stage: &Stage) -> Option<Rules> {
        if stage.nets() > 64 {
            return None;
        }
        let bit = |net: usize| 1 << net;
        let cells = stage.gates.iter().enumerate().map(|(k, gate)| {
            assert_eq!(gate.pins.len(), pin_count(gate.kind));
            let products = KINDS[cell(gate.kind) - 1].1.split('+').map(|product| {
                product.bytes().fold(0, |bits, letter| {
                    bits | bit(gate.pins[usize::from(letter - b'A')])
                })
            });
            Cell {
                own: bit(stage.net_of_gate(k)),
                products: products.collect(),
                pins: gate.pins.iter().fold(0, |bits, &net| bits | bit(net)),
                hold: !is_relaxed(gate.kind),
            }
        });
        Some(Rules {
            inputs: stage.inputs,
            nets: stage.nets(),
            cells: cells.collect(),
            outputs: stage.outputs.iter().map(|rails| rails.map(bit)).collect(),
        })
    }

    /// The misreading that document 01 bars: a gate falls as soon as its set
    /// expression is false. Only to show that the sentences on falls can break.
    pub fn without_hold(mut self) -> Rules {
        for cell in &mut self.cells {
            cell.hold = false;
        }
        self
    }

    fn set_expression(&self, gate: usize, row: Row) -> bool {
        self.cells[gate]
            .products
            .iter()
            .any(|&product| product & !row == 0)
    }

    /// "A low gate may rise exactly if its set expression holds. A high gate may
    /// fall exactly if all the pins its kind has are low", a relaxed one "as soon as the set
    /// expression is false".
    fn may_switch(&self, gate: usize, row: Row) -> bool {
        let cell = &self.cells[gate];
        if row & cell.own == 0 {
            self.set_expression(gate, row)
        } else if cell.hold {
            row & cell.pins == 0
        } else {
            !self.set_expression(gate, row)
        }
    }

    /// The rows that one step leads to. `rails` are the rails that the word calls
    /// for; in a fall they are lowered instead of raised.
    pub fn steps(&self, row: Row, rails: Row, way: Way, next: &mut Vec<Row>) {
        next.clear();
        for net in 0..2 * self.inputs {
            let rail = 1 << net;
            match way {
                Way::Rise if rails & rail != 0 && row & rail == 0 => next.push(row | rail),
                Way::Fall if row & rail != 0 => next.push(row & !rail),
                _ => {}
            }
        }
        for (gate, cell) in self.cells.iter().enumerate() {
            if self.may_switch(gate, row) {
                next.push(row ^ cell.own);
            }
        }
    }

    fn pair(&self, row: Row, [rail_0, rail_1]: [Row; 2]) -> PairState {
        pair_state(row & rail_0 != 0, row & rail_1 != 0)
    }

    fn output(&self, row: Row, output: usize) -> PairState {
        self.pair(row, self.outputs[output])
    }

    fn input(&self, row: Row, input: usize) -> PairState {
        self.pair(row, [1 << (2 * input), 1 << (2 * input + 1)])
    }

    fn all_outputs(&self, row: Row, wanted: impl Fn(PairState) -> bool) -> bool {
        (0..self.outputs.len()).all(|output| wanted(self.output(row, output)))
    }
}

fn is_data(state: PairState) -> bool {
    matches!(state, PairState::Data(_))
}

#[derive(Clone, Copy, PartialEq, Eq, Debug)]
pub enum Way {
    Rise,
    Fall,
}

/// Every row that lists of steps from a start can leave.
pub struct Reach {
    /// In the order of their distance from the start.
    pub rows: Vec<Row>,
    /// How many switchings lead to each row.
    pub length: Vec<u32>,
    /// Rows from which no step is left.
    pub ends: Vec<Row>,
    /// How many different lists lead to rows, the empty one too.
    pub lists: f64,
    /// Whether every list can be carried on to an end.
    pub every_list_can_end: bool,
    /// Whether some row comes after lists of unequal length.
    pub unequal_lengths: bool,
}

/// A stage with more reachable rows than this is not explored.
pub const MOST_ROWS: usize = 1 << 12;

/// Plays all steps from a start. None if there are too many rows.
pub fn reach(rules: &Rules, start: Row, rails: Row, way: Way) -> Option<Reach> {
    let mut place: HashMap<Row, usize, BuildHasherDefault<RowHasher>> = HashMap::default();
    place.insert(start, 0);
    let mut rows = vec![start];
    let mut length = vec![0u32];
    let mut edges: Vec<(usize, usize)> = Vec::new();
    let mut is_end = Vec::new();
    let mut unequal_lengths = false;
    let mut next = Vec::new();
    let mut here = 0;
    while here < rows.len() {
        rules.steps(rows[here], rails, way, &mut next);
        is_end.push(next.is_empty());
        for &row in &next {
            let to = *place.entry(row).or_insert_with(|| {
                rows.push(row);
                length.push(length[here] + 1);
                rows.len() - 1
            });
            unequal_lengths |= length[to] != length[here] + 1;
            edges.push((here, to));
        }
        if rows.len() > MOST_ROWS {
            return None;
        }
        here += 1;
    }
    // Backwards from the ends.
    let mut before: Vec<Vec<usize>> = vec![Vec::new(); rows.len()];
    for &(from, to) in &edges {
        before[to].push(from);
    }
    let mut can_end = is_end.clone();
    let mut to_do: Vec<usize> = (0..rows.len()).filter(|&row| is_end[row]).collect();
    while let Some(row) = to_do.pop() {
        for &from in &before[row] {
            if !can_end[from] {
                can_end[from] = true;
                to_do.push(from);
            }
        }
    }
    // Lists that lead to each row, if lengths are equal.
    let mut lists = 0.0;
    if !unequal_lengths {
        let mut count = vec![0.0; rows.len()];
        count[0] = 1.0;
        for &(from, to) in &edges {
            count[to] += count[from];
        }
        lists = count.iter().sum();
    }
    Some(Reach {
        ends: (0..rows.len())
            .filter(|&row| is_end[row])
            .map(|row| rows[row])
            .collect(),
        every_list_can_end: can_end.iter().all(|&can| can),
        lists,
        rows,
        length,
        unequal_lengths,
    })
}

pub fn bits_of(row: &[bool]) -> Row {
    row.iter()
        .enumerate()
        .fold(0, |bits, (net, &high)| bits | Row::from(high) << net)
}

/// What has been tried.
#[derive(Clone, Copy, Default, PartialEq, Debug)]
pub struct Tried {
    /// Words whose rise, and fall if any, was played.
    pub words: u64,
    /// Rows visited in rises and in falls.
    pub rise_rows: u64,
    pub fall_rows: u64,
    /// Lists of steps that these rows stand for.
    pub rise_lists: f64,
    pub fall_lists: f64,
    /// Rows with all outputs DATA in a rise, and all NULL in a fall.
    pub all_data: u64,
    pub all_null: u64,
    /// Gate switchings, each word rising and falling once.
    pub gate_switchings: u64,
}

impl Tried {
    pub fn add(&mut self, more: Tried) {
        self.words += more.words;
        self.rise_rows += more.rise_rows;
        self.fall_rows += more.fall_rows;
        self.rise_lists += more.rise_lists;
        self.fall_lists += more.fall_lists;
        self.all_data += more.all_data;
        self.all_null += more.all_null;
        self.gate_switchings += more.gate_switchings;
    }
}

/// A sentence that does not hold, with the row that breaks it.
#[derive(Clone, Copy, PartialEq, Eq, Debug)]
pub struct Broken {
    pub sentence: &'static str,
    pub word: u64,
    pub row: Row,
}

/// Every sentence that demand 3 says of one word of an accepted stage. None if
/// there are too many rows.
pub fn promise_of_word(
    stage: &Stage,
    reference: &Reference,
    word: u64,
) -> Option<Result<Tried, Broken>> {
    promise_by_rules(&Rules::new(stage)?, stage, reference, word)
}

/// The same, by the given rules of that stage.
pub fn promise_by_rules(
    rules: &Rules,
    stage: &Stage,
    reference: &Reference,
    word: u64,
) -> Option<Result<Tried, Broken>> {
    let values = answer(reference, word);
    let rail_row = rails_of_word(stage.inputs, word);
    let rails = bits_of(&rail_row);
    let rise = reach(rules, 0, rails, Way::Rise)?;
    let broken = |sentence, row| {
        Some(Err(Broken {
            sentence,
            word,
            row,
        }))
    };
    let mut tried = Tried {
        words: 1,
        rise_rows: rise.rows.len() as u64,
        rise_lists: rise.lists,
        ..Tried::default()
    };

    for &row in &rise.rows {
        if !rules.all_outputs(row, |state| state != PairState::BothHigh) {
            return broken("rise: no output pair has both rails high", row);
        }
        if rules.all_outputs(row, is_data) {
            tried.all_data += 1;
            if !(0..rules.inputs).all(|input| is_data(rules.input(row, input))) {
                return broken("rise: all outputs DATA, so every input is", row);
            }
            if (0..rules.cells.len()).any(|gate| rules.may_switch(gate, row)) {
                return broken("rise: all outputs DATA, so no gate can still switch", row);
            }
            let read =
                (0..values.len()).all(|j| rules.output(row, j) == PairState::Data(values[j]));
            if !read {
                return broken("rise: all outputs DATA, so the answer is read", row);
            }
        }
    }
    if !rise.every_list_can_end {
        return broken("rise: every list can be carried on to an end", 0);
    }
    if rise.unequal_lengths {
        return broken("rise: lists to one row have one length", 0);
    }
    for (&row, &length) in rise.rows.iter().zip(&rise.length) {
        if rise.ends.contains(&row) {
            if length != row.count_ones() {
                return broken(
                    "rise: an end comes after as many switchings as nets are high",
                    row,
                );
            }
            tried.gate_switchings += u64::from(length) - rules.inputs as u64;
        }
    }
    if rise.ends.len() != 1 {
        return broken("rise: all ends are one row", rise.ends[0]);
    }
    let rest = rise.ends[0];
    if !rules.all_outputs(rest, is_data) {
        return broken("rise: at an end every output is DATA", rest);
    }
    // "All ends of a word's runs are one row, the rest: w's rails high, the other
    // rails low, the gates settled for these."
    if rest != bits_of(&settle(stage, &rail_row, None)) {
        return broken("rise: the end is the rest", rest);
    }

    let fall = reach(rules, rest, rails, Way::Fall)?;
    tried.fall_rows = fall.rows.len() as u64;
    tried.fall_lists = fall.lists;
    for &row in &fall.rows {
        if !rules.all_outputs(row, |state| state != PairState::BothHigh) {
            return broken("fall: no output pair has both rails high", row);
        }
        if rules.all_outputs(row, |state| state == PairState::Null) {
            tried.all_null += 1;
            if row != 0 {
                return broken(
                    "fall: all outputs NULL, so every input and gate is low",
                    row,
                );
            }
        }
    }
    if !fall.every_list_can_end {
        return broken("fall: every list can be carried on to an end", 0);
    }
    if fall.unequal_lengths {
        return broken("fall: lists to one row have one length", 0);
    }
    for (&row, &length) in fall.rows.iter().zip(&fall.length) {
        if fall.ends.contains(&row) {
            if row != 0 {
                return broken("fall: at an end every input and gate is low", row);
            }
            if length != rest.count_ones() {
                return broken(
                    "fall: an end comes after as many switchings as the rise",
                    row,
                );
            }
            tried.gate_switchings += u64::from(length) - rules.inputs as u64;
        }
    }
    if fall.ends.is_empty() {
        return broken("fall: there is an end", rest);
    }
    Some(Ok(tried))
}

/// Every sentence that demand 3 says of an accepted stage, for all words cared for.
pub fn promise(stage: &Stage, reference: &Reference) -> Option<Result<Tried, Broken>> {
    let mut tried = Tried::default();
    for word in stage.words() {
        match promise_of_word(stage, reference, word)? {
            Ok(more) => tried.add(more),
            broken => return Some(broken),
        }
    }
    Some(Ok(tried))
}

/// What the papers say of runs under 13, 14, 15, 20 and 21, for one index and word.
pub fn witness(stage: &Stage, reference: &Reference, verdict: Verdict) -> Option<bool> {
    let [number, _, at, word] = verdict;
    let rules = Rules::new(stage)?;
    let rails = bits_of(&rails_of_word(stage.inputs, word));
    let rise = reach(&rules, 0, rails, Way::Rise)?;
    if number >= 20 {
        let fall = reach(&rules, rise.ends[0], rails, Way::Fall)?;
        return Some(rise.ends.len() == 1 && falls_early(&rules, &fall, number, at as usize));
    }
    Some(shows(
        &rules,
        &rise,
        &answer(reference, word),
        number,
        at as usize,
    ))
}

/// "Under 20 and 21 some list of the named word's fall leaves all outputs NULL, but input `at`
/// DATA or gate `at` high."
fn falls_early(rules: &Rules, fall: &Reach, number: u64, at: usize) -> bool {
    fall.rows.iter().any(|&row| {
        rules.all_outputs(row, |state| state == PairState::Null)
            && match number {
                20 => is_data(rules.input(row, at)),
                _ => row & rules.cells[at].own != 0,
            }
    })
}

fn shows(rules: &Rules, rise: &Reach, values: &[bool], number: u64, at: usize) -> bool {
    match number {
        // "Every run of the named word ends with output `at` not the reference's DATA."
        13 => {
            rise.every_list_can_end
                && rise
                    .ends
                    .iter()
                    .all(|&row| rules.output(row, at) != PairState::Data(values[at]))
        }
        // "Some list of its steps leaves all outputs DATA and input `at` NULL."
        14 => rise
            .rows
            .iter()
            .any(|&row| rules.all_outputs(row, is_data) && rules.input(row, at) == PairState::Null),
        // "Some list leaves all outputs DATA and gate `at` low with its set
        // expression true."
        15 => rise.rows.iter().any(|&row| {
            rules.all_outputs(row, is_data)
                && row & rules.cells[at].own == 0
                && rules.set_expression(at, row)
        }),
        _ => panic!("{number} says nothing of runs"),
    }
}

/// Under 32 "the named gate stays low in every run": after every list of every word that is cared
/// for, in its rise and in its fall.
fn stays_low<'a>(rules: &Rules, mut runs: impl Iterator<Item = &'a Reach>, gate: usize) -> bool {
    let own = rules.cells[gate].own;
    runs.all(|run| run.rows.iter().all(|&row| row & own == 0))
}

/// The verdict 13 to 15, 20, 21, 32 or 0 of a loop-free stage found by playing runs only,
/// without settling anything: the earliest check that a run breaks, the least word
/// in which one does, the least index; then the least gate that stays low in all of them.
/// None if there are too many rows.
pub fn verdict_by_runs(stage: &Stage, reference: &Reference) -> Option<Verdict> {
    let rules = Rules::new(stage)?;
    let mut rises = Vec::new();
    for word in stage.words() {
        let rise = reach(
            &rules,
            0,
            bits_of(&rails_of_word(stage.inputs, word)),
            Way::Rise,
        )?;
        rises.push((word, rise, answer(reference, word)));
    }
    let indices = [stage.outputs.len(), stage.inputs, stage.gates.len()];
    for (number, indices) in [13, 14, 15].into_iter().zip(indices) {
        for (word, rise, values) in &rises {
            for at in 0..indices {
                if shows(&rules, rise, values, number, at) {
                    return Some([number, 1, at as u64, *word]);
                }
            }
        }
    }
    let mut falls = Vec::new();
    for (word, rise, _) in &rises {
        let rails = bits_of(&rails_of_word(stage.inputs, *word));
        falls.push((*word, reach(&rules, rise.ends[0], rails, Way::Fall)?));
    }
    for (number, indices) in [(20, stage.inputs), (21, stage.gates.len())] {
        for (word, fall) in &falls {
            for at in 0..indices {
                if falls_early(&rules, fall, number, at) {
                    return Some([number, 1, at as u64, *word]);
                }
            }
        }
    }
    let runs = || {
        rises
            .iter()
            .map(|(_, rise, _)| rise)
            .chain(falls.iter().map(|(_, fall)| fall))
    };
    let low = (0..stage.gates.len()).find(|&gate| stays_low(&rules, runs(), gate));
    Some(low.map_or(ACCEPTED, |gate| [32, 1, gate as u64, 0]))
}

/// Whether every run of the given rails (input pairs may be NULL) ends in the row
/// settled for them.
pub fn runs_end_settled(stage: &Stage, rail_row: &[bool]) -> Option<bool> {
    let rules = Rules::new(stage)?;
    let rise = reach(&rules, 0, bits_of(rail_row), Way::Rise)?;
    let settled = bits_of(&settle(stage, rail_row, None));
    Some(rise.every_list_can_end && rise.ends == [settled])
}

/// What the explored pairs of a seed gave.
#[derive(Clone, Default, Debug)]
pub struct Summary {
    pub pairs: u64,
    /// Pairs with a loop, of which nothing is said of runs.
    pub with_loop: u64,
    /// Pairs with too many rows.
    pub too_large: u64,
    pub accepted: u64,
    pub wrong: u64,
    pub incomplete: u64,
    pub unobservable: u64,
    /// Pairs refused by 20 and 21.
    pub incomplete_fall: u64,
    pub unobservable_fall: u64,
    /// Accepted pairs with relaxed gates.
    pub accepted_relaxed: u64,
    /// Pairs refused by 32 alone: all that is said of accepted pairs holds of them.
    pub never_rises: u64,
    /// Exchanges of neighbours in recorded runs of accepted pairs and those of 32, each list tried.
    pub exchanges: u64,
    /// What was tried on accepted pairs and those of 32.
    pub tried: Tried,
    /// Sets of rails with NULL inputs whose runs were played.
    pub partial_rails: u64,
    pub most_nets: usize,
}

impl std::fmt::Display for Summary {
    fn fmt(&self, f: &mut std::fmt::Formatter<'_>) -> std::fmt::Result {
        writeln!(
            f,
            "{} pairs: {} with a loop, {} too large, {} accepted, {} wrong, {} incomplete, {} unobservable",
            self.pairs, self.with_loop, self.too_large, self.accepted, self.wrong, self.incomplete, self.unobservable
        )?;
        writeln!(
            f,
            "{} accepted with relaxed gates, {} refused by 20, {} by 21, {} by 32",
            self.accepted_relaxed, self.incomplete_fall, self.unobservable_fall, self.never_rises
        )?;
        writeln!(
            f,
            "accepted pairs and those of 32: {} words, rise {} rows for {:.3e} lists ({} with all outputs DATA), \
             fall {} rows for {:.3e} lists ({} with all outputs NULL)",
            self.tried.words,
            self.tried.rise_rows,
            self.tried.rise_lists,
            self.tried.all_data,
            self.tried.fall_rows,
            self.tried.fall_lists,
            self.tried.all_null
        )?;
        write!(
            f,
            "{} sets of rails with NULL inputs, at most {} nets, {} exchanges of neighbours",
            self.partial_rails, self.most_nets, self.exchanges
        )
    }
}

/// All that document 01 says of runs, tried on one loop-free pair with equal counts.
/// What breaks it is told in words.
pub fn explore_pair(
    stage: &Stage,
    reference: &Reference,
    summary: &mut Summary,
) -> Result<(), String> {
    let verdict = crate::judge::check_circuits(stage, reference);
    let Some(by_runs) = verdict_by_runs(stage, reference) else {
        summary.too_large += 1;
        return Ok(());
    };
    if by_runs != verdict {
        return Err(format!("the runs say {by_runs:?}, the judge {verdict:?}"));
    }
    let promised = promise(stage, reference);
    match (verdict[0], promised) {
        (_, None) => summary.too_large += 1,
        // Under 32 no promise is broken.
        (0 | 32, Some(Ok(tried))) => {
            // M-100: the total is half of all gate switchings.
            let lines = crate::judge::report_lines(WordOrder::Input0Lowest, stage);
            let total: u64 = lines.iter().map(|&(_, high)| high).sum();
            if tried.gate_switchings != 2 * total {
                return Err(format!(
                    "a total of {total}, but {} gate switchings",
                    tried.gate_switchings
                ));
            }
            if verdict == ACCEPTED {
                summary.accepted += 1;
                let relaxed = stage.gates.iter().any(|gate| is_relaxed(gate.kind));
                summary.accepted_relaxed += u64::from(relaxed);
            } else {
                summary.never_rises += 1;
            }
            summary.exchanges += crate::exchange::turn_recorded_runs(stage)?;
            summary.tried.add(tried);
        }
        (0 | 32, Some(Err(broken))) => return Err(format!("{verdict:?}, but broken: {broken:?}")),
        (number, Some(promised)) => {
            *match number {
                13 => &mut summary.wrong,
                14 => &mut summary.incomplete,
                15 => &mut summary.unobservable,
                20 => &mut summary.incomplete_fall,
                _ => &mut summary.unobservable_fall,
            } += 1;
            if promised.is_ok() {
                return Err(format!("{verdict:?}, but no sentence is broken"));
            }
            // The named word is one that breaks the promise, as the paper says.
            if witness(stage, reference, verdict) != Some(true) {
                return Err(format!("{verdict:?}, but its runs do not show it"));
            }
            if !stage.words().contains(&verdict[3]) {
                return Err(format!("{verdict:?}, but its word is not cared for"));
            }
            if !matches!(promise_of_word(stage, reference, verdict[3]), Some(Err(_))) {
                return Err(format!("{verdict:?}, but its word breaks no sentence"));
            }
        }
    }
    summary.most_nets = summary.most_nets.max(stage.nets());
    Ok(())
}

/// Explores the first `count` pairs of a seed; the first pair that breaks
/// anything is given in words, with its files.
pub fn explore_pairs(seed: u64, count: u64) -> Result<Summary, String> {
    use crate::files::hex;
    use crate::generate::{pair_to_explore, Random};
    let mut summary = Summary::default();
    for index in 0..count {
        let pair = pair_to_explore(seed, index).pair;
        let stage = crate::judge::read_stage(&pair.stage).expect("pairs to explore are readable");
        let reference =
            crate::judge::read_reference(&pair.reference).expect("pairs to explore are readable");
        summary.pairs += 1;
        if crate::judge::least_gate_on_a_loop(&stage).is_some() {
            summary.with_loop += 1;
            continue;
        }
        let tell = |what: String| {
            format!(
                "pair {index} of seed {seed}: {what}\nstage {}\nreference {}",
                hex(&pair.stage),
                hex(&pair.reference)
            )
        };
        explore_pair(&stage, &reference, &mut summary).map_err(tell)?;
        // Runs of a word some of whose inputs stay NULL.
        let random = &mut Random::new(seed, index);
        let mut rails = rails_of_word(stage.inputs, random.number());
        for input in 0..stage.inputs {
            if random.chance(1, 2) {
                rails[2 * input] = false;
                rails[2 * input + 1] = false;
            }
        }
        match runs_end_settled(&stage, &rails) {
            Some(false) => return Err(tell(format!("runs of {rails:?} do not end settled"))),
            Some(true) => summary.partial_rails += 1,
            None => {}
        }
    }
    Ok(summary)
}
