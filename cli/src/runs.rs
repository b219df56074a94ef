//! Runs: lists of switchings of the nets of a stage, one at a time. A run that shows a verdict, the judgement of a list, and a run in an order of one's own
//! are calls of the proved library; everything else here is made of them.

use crate::explain::Order;
use crate::levels::Row;
use crate::netlist::{Reference, Stage};
use crate::situation::{data, pair_state};
use fovaheju::Verdict;

/// A rise, and behind it a fall where there is one.
#[derive(Clone, PartialEq, Eq, Debug, Default)]
pub struct Run {
    /// The nets that switch, in order.
    pub nets: Vec<usize>,
    /// The place of the list at which the fall begins; its length where there is none.
    pub fall: usize,
}

/// What became of a list of switchings.
pub struct Played {
    /// How many steps come before the first that the rules bar; all of them where they bar none.
    pub steps: usize,
    /// The levels after these.
    pub row: Row,
}

/// A stage file that reads and has no loop, what it holds, and its reference.
#[derive(Clone, Copy)]
pub struct Files<'a> {
    pub stage_file: &'a [u8],
    pub stage: &'a Stage,
    pub reference_file: &'a [u8],
    pub order: Order,
}

/// The number of a net as the library lists it; what has none is no net.
fn listed(net: usize) -> u16 {
    net.try_into().unwrap_or(u16::MAX)
}

/// The library's calls that hand out and judge runs. Words are given by their names.
impl Files<'_> {
    /// The run that shows the verdict on the pair: under 13, 14 and 15 a rise of the named word, under 20 and 21 a full rise and some of the fall; of an
    /// accepted stage, and under 32, a full rise and fall of the word that is asked for. At each step the least net that may switch does. Other verdicts
    /// have none.
    pub fn witness(self, verdict: Verdict, asked: u64) -> Option<Run> {
        let mut list = [0; fovaheju::RUN];
        let handed = fovaheju::witness(self.order.mark(), self.stage_file, self.reference_file, asked as usize, &mut list);
        let (told, found) = (handed.verdict, [verdict.number, verdict.at, verdict.word]);
        (handed.count > 0 && [told.number, told.at, told.word] == found).then(|| Run::of(&list, handed))
    }

    /// The first step of a list that the rules bar, and the levels before it.
    fn play(self, word: u64, run: &Run) -> Option<Played> {
        let list: Vec<u16> = run.nets.iter().map(|&net| listed(net)).collect();
        let mut row = vec![0; self.stage.nets()];
        let played = fovaheju::play(self.order.mark(), self.stage_file, word as usize, run.fall, &list, &mut row);
        played.verdict.accepts().then(|| Played { steps: played.steps as usize, row: row.iter().map(|&level| level == 1).collect() })
    }

    /// A full rise and fall of a word: at each step the net with the least key of those that may switch. The first half of the keys is for the rise.
    pub fn by_keys(self, word: u64, keys: &[u32]) -> Option<Run> {
        let mut list = [0; fovaheju::RUN];
        let handed = fovaheju::run_by_keys(self.order.mark(), self.stage_file, word as usize, keys, &mut list);
        handed.verdict.accepts().then(|| Run::of(&list, handed))
    }
}

/// Whether a list is legal from its first step to its last, and the levels after it.
fn legal(files: Files<'_>, word: u64, run: &Run) -> Option<Row> {
    files.play(word, run).filter(|played| played.steps == run.nets.len()).map(|played| played.row)
}

/// Whether a list cannot be carried on.
fn ended(files: Files<'_>, word: u64, run: &Run) -> bool {
    (0..files.stage.nets()).all(|net| legal(files, word, &run.and(net)).is_none())
}

/// Whether a run shows the fault of a verdict at its end: each step of it may be, and what the verdict names is as it says. No run is shown or handed
/// out as that of a fault before it was tried so.
pub fn shows(files: Files<'_>, verdict: Verdict, run: &Run) -> bool {
    let (stage, at) = (files.stage, verdict.at as usize);
    let Some(row) = legal(files, verdict.word, run) else { return false };
    let high = |net: usize| row.get(net) == Some(&true);
    let state = |state: &str| stage.outputs.iter().all(|&rails| pair_state(&row, rails).starts_with(state));
    match verdict.number {
        13 => {
            let answer = Reference::of(files.reference_file).answer(&files.order.values(verdict.word, stage.inputs));
            let wrong = stage.outputs.get(at).zip(answer.get(at)).is_some_and(|(&rails, &value)| pair_state(&row, rails) != data(value));
            wrong && ended(files, verdict.word, run)
        }
        14 => state("DATA") && !high(2 * at) && !high(2 * at + 1),
        // It could rise: with this step more the list is one of a run too.
        15 => state("DATA") && !high(stage.net_of(at)) && legal(files, verdict.word, &run.and(stage.net_of(at))).is_some(),
        20 => state("NULL") && (high(2 * at) || high(2 * at + 1)),
        21 => state("NULL") && high(stage.net_of(at)),
        _ => false,
    }
}

impl Run {
    /// What stands at the start of a list that was handed out.
    fn of(list: &[u16], handed: fovaheju::Run) -> Run {
        Run { nets: list[..handed.count as usize].iter().map(|&net| net.into()).collect(), fall: handed.rise as usize }
    }

    /// The same with a step more at its end.
    fn and(&self, net: usize) -> Run {
        let fall = if self.fall == self.nets.len() { self.fall + 1 } else { self.fall };
        Run { nets: [self.nets.as_slice(), &[net]].concat(), fall }
    }

    /// The same without a step.
    fn without(&self, place: usize) -> Run {
        let mut nets = self.nets.clone();
        nets.remove(place);
        Run { nets, fall: self.fall - usize::from(place < self.fall) }
    }

    pub fn rise(&self) -> &[usize] {
        &self.nets[..self.fall]
    }

    pub fn fallen(&self) -> &[usize] {
        &self.nets[self.fall..]
    }
}

/// A run that shows a verdict, without what can be left out: each step that is not needed goes, the last ones first, and every list on the way is judged. A
/// fall begins at the end of the rise, so of a rise before a fall nothing goes, and of a wrong output nothing at all.
pub fn shortened(files: Files<'_>, verdict: Verdict, run: &Run) -> Run {
    let mut short = run.clone();
    let first = match verdict.number {
        14 | 15 => 0,
        20 | 21 => run.fall,
        _ => return short,
    };
    for place in (first..run.nets.len()).rev() {
        let less = short.without(place);
        if shows(files, verdict, &less) {
            short = less;
        }
    }
    short
}
