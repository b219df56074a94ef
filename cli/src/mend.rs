//! Which changes make a refused stage accepted: every single one, side by side; where none does, others within a time. The library judges each.

use crate::changes::{Change, Changes, Mending, Pin};
use crate::progress::Progress;
use rayon::prelude::*;
use std::sync::atomic::{AtomicUsize, Ordering};
use std::time::{Duration, Instant};

/// So many changes are made before they are tried side by side.
const AT_A_TIME: usize = 512;
/// Where several parts change at once, so many ways are enough.
const ENOUGH: usize = 20;

/// What was tried of a sort, and what was found.
#[derive(Default)]
pub struct Tried {
    pub tried: usize,
    pub found: Vec<Change>,
    /// Why not all were tried.
    pub cut: Option<Cut>,
}

/// Why a search ended early.
#[derive(Clone, Copy, PartialEq, Eq, Debug)]
pub enum Cut {
    Time,
    Enough,
}

/// What mending found. Each sort is tried where those before it have nothing.
#[derive(Default)]
pub struct Mended {
    /// Every change of one kind, hold, pin or output rail; none where a gate feeds nothing and is only to be taken out.
    pub singles: Tried,
    /// Changes of a gate as a whole, gates that are taken out, outputs exchanged.
    pub several: Option<Tried>,
    /// Two pins at once of the gates on the way, under 14 and 15.
    pub pins: Option<Tried>,
    /// Gates that are added, so that an output waits for an input.
    pub added: Option<Tried>,
    /// How long all but single changes might take.
    pub time: Duration,
}

impl Mended {
    /// The sorts that were tried.
    pub fn sorts(&self) -> impl Iterator<Item = &Tried> {
        [Some(&self.singles), self.several.as_ref(), self.pins.as_ref(), self.added.as_ref()].into_iter().flatten()
    }

    /// All changes that are accepted, in the order in which they are numbered.
    pub fn found(&self) -> impl Iterator<Item = &Change> {
        self.sorts().flat_map(|tried| &tried.found)
    }

    fn nothing(&self) -> bool {
        self.found().next().is_none()
    }
}

/// Tries the changes of a stage. What is no single change is tried for so long.
pub fn mend(mending: &Mending, time: Duration, quiet: bool) -> Mended {
    let mut mended = Mended { singles: singles(mending, quiet), time, ..Mended::default() };
    let end = Instant::now().checked_add(time);
    if mended.nothing() {
        mended.several = Some(in_turn(mending, mending.several(), end));
    }
    let pins = mending.pins();
    if mended.nothing() && !pins.is_empty() {
        mended.pins = Some(two_pins(mending, &pins, end, quiet));
    }
    if mended.nothing() {
        mended.added = mending.waiting().map(|change| Tried { tried: 1, found: vec![change], cut: None });
    }
    mended
}

fn singles(mending: &Mending, quiet: bool) -> Tried {
    let parts = mending.parts();
    let progress = Progress::new(parts.len(), "gates and outputs", quiet);
    let tried = AtomicUsize::new(0);
    let one = |&part| {
        let changes = mending.singles(part);
        tried.fetch_add(changes.len(), Ordering::Relaxed);
        let found: Vec<Change> = changes.into_iter().filter(|change| mending.accepts(change)).collect();
        progress.done(1);
        found
    };
    let found = parts.par_iter().with_max_len(1).flat_map_iter(one).collect();
    progress.finish();
    Tried { tried: tried.into_inner(), found, cut: None }
}

/// Whether there is a reason to end: enough was found, or the time is over.
fn cut(found: &[Change], end: Option<Instant>) -> Option<Cut> {
    if found.len() >= ENOUGH {
        return Some(Cut::Enough);
    }
    end.is_some_and(|end| Instant::now() >= end).then_some(Cut::Time)
}

/// Changes that are made one after the other, and tried some at a time.
fn in_turn(mending: &Mending, mut changes: Changes, end: Option<Instant>) -> Tried {
    let mut all = Tried::default();
    loop {
        let some: Vec<Change> = changes.by_ref().take(AT_A_TIME).collect();
        if !some.is_empty() {
            all.cut = cut(&all.found, end);
        }
        if some.is_empty() || all.cut.is_some() {
            return all;
        }
        all.tried += some.len();
        let accepted: Vec<Change> = some.into_par_iter().filter(|change| mending.accepts(change)).collect();
        for change in accepted {
            if all.found.iter().all(|other| change.differs(other)) {
                all.found.push(change);
            }
        }
    }
}

/// Every two of some changes of pins, those that come first with all others first.
fn two_pins(mending: &Mending, pins: &[Pin], end: Option<Instant>, quiet: bool) -> Tried {
    let progress = Progress::new(pins.len() * pins.len().saturating_sub(1) / 2, "pairs of pins", quiet);
    let mut all = Tried::default();
    for (k, &first) in pins.iter().enumerate() {
        all.cut = cut(&all.found, end);
        if all.cut.is_some() {
            break;
        }
        let changes = pins[k + 1..].par_iter().filter_map(|&second| mending.both(first, second));
        let judged: Vec<Option<Change>> = changes.map(|change| mending.accepts(&change).then_some(change)).collect();
        all.tried += judged.len();
        all.found.extend(judged.into_iter().flatten());
        progress.done(pins.len() - 1 - k);
    }
    progress.finish();
    all
}
