//! One run from another (M-103 of document 02), on recorded runs of small accepted stages.
//!
//! A list of switchings is a list of nets, each of which changes. Two full rises of a word, or
//! two full falls, are turned into each other by exchanging neighbours; every list on the way is
//! played from the start by the step rules.

use crate::explore::{bits_of, Row, Rules, Way};
use crate::generate::Random;
use crate::judge::{rails_of_word, settle, Stage};

/// Where lists start, and how they go on.
#[derive(Clone, Copy)]
pub struct Run<'a> {
    pub rules: &'a Rules,
    pub start: Row,
    /// The rails that the word calls for.
    pub rails: Row,
    pub way: Way,
}

impl Run<'_> {
    /// The nets that may switch in a row.
    fn nets(&self, row: Row) -> Vec<usize> {
        let mut next = Vec::new();
        self.rules.steps(row, self.rails, self.way, &mut next);
        let nets = next.iter().map(|other| (row ^ other).trailing_zeros());
        nets.map(|net| net as usize).collect()
    }

    /// A full run: at each row one of the nets that may switch is chosen, until there is none.
    pub fn record(&self, mut choose: impl FnMut(&[usize]) -> usize) -> Vec<usize> {
        let (mut row, mut list) = (self.start, Vec::new());
        loop {
            let nets = self.nets(row);
            if nets.is_empty() {
                return list;
            }
            let net = choose(&nets);
            row ^= 1 << net;
            list.push(net);
        }
    }

    /// The row that a list leaves, if each of its steps may be taken.
    pub fn play(&self, list: &[usize]) -> Option<Row> {
        let mut row = self.start;
        for &net in list {
            if !self.nets(row).contains(&net) {
                return None;
            }
            row ^= 1 << net;
        }
        Some(row)
    }

    /// Turns a full run into another one: the switching that is to come next is brought forward,
    /// neighbour by neighbour. Gives the number of exchanges, or what is wrong.
    pub fn turn(&self, from: &[usize], to: &[usize]) -> Result<u64, String> {
        let sorted = |list: &[usize]| {
            let mut sorted = list.to_vec();
            sorted.sort();
            sorted
        };
        let switchings = sorted(from);
        if switchings != sorted(to) {
            return Err(format!("{from:?} and {to:?} list other switchings"));
        }
        if switchings.windows(2).any(|two| two[0] == two[1]) {
            return Err(format!("a net switches twice in {from:?}"));
        }
        let (mut list, end) = (from.to_vec(), self.play(from));
        if end.is_none() || self.play(to) != end {
            return Err(format!("{from:?} and {to:?} do not end in one row"));
        }
        let mut exchanges = 0;
        for place in 0..to.len() {
            let mut here = list
                .iter()
                .position(|&net| net == to[place])
                .expect("listed");
            while here > place {
                list.swap(here - 1, here);
                here -= 1;
                exchanges += 1;
                if self.play(&list) != end {
                    return Err(format!("{list:?} on the way from {from:?} to {to:?}"));
                }
            }
        }
        assert_eq!(list, to);
        Ok(exchanges)
    }
}

/// The rise of a word, and its fall from the rest.
pub fn runs_of<'a>(rules: &'a Rules, stage: &Stage, word: u64) -> [Run<'a>; 2] {
    let rail_row = rails_of_word(stage.inputs, word);
    let rails = bits_of(&rail_row);
    let rest = bits_of(&settle(stage, &rail_row, None));
    [(0, Way::Rise), (rest, Way::Fall)].map(|(start, way)| Run {
        rules,
        start,
        rails,
        way,
    })
}

/// Larger stages are not tried: the lists get long.
pub const MOST_NETS: usize = 24;

/// Of each word of an accepted stage, full rises and falls that take the least net, the greatest
/// net, or any are turned into each other, round and round. Gives the number of exchanges.
pub fn turn_recorded_runs(stage: &Stage) -> Result<u64, String> {
    let mut exchanges = 0;
    if stage.nets() > MOST_NETS {
        return Ok(0);
    }
    let rules = Rules::new(stage).expect("few nets");
    for word in stage.words() {
        let random = &mut Random::new(word, stage.nets() as u64);
        for run in runs_of(&rules, stage, word) {
            let lists = [
                run.record(|nets| *nets.iter().min().expect("a net")),
                run.record(|nets| *nets.iter().max().expect("a net")),
                run.record(|nets| random.pick(nets)),
                run.record(|nets| random.pick(nets)),
            ];
            for (place, list) in lists.iter().enumerate() {
                let next = &lists[(place + 1) % lists.len()];
                let turned = run.turn(list, next);
                exchanges +=
                    turned.map_err(|what| format!("word {word}, {:?}: {what}", run.way))?;
            }
        }
    }
    Ok(exchanges)
}
