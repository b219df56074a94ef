//! How far a long piece of work is: a bar on standard error, where that is a terminal and the work takes more than a moment.

use indicatif::{ProgressBar, ProgressDrawTarget, ProgressStyle};
use std::io::{stderr, IsTerminal};
use std::sync::atomic::{AtomicBool, Ordering};
use std::time::{Duration, Instant};

/// Work that takes longer than this shows how far it is.
const PATIENCE: Duration = Duration::from_secs(1);

pub struct Progress {
    bar: ProgressBar,
    began: Instant,
    /// Whether the bar is drawn already, or never will be.
    shown: AtomicBool,
}

impl Progress {
    /// So much work of a sort, as `pairs`; nothing is drawn where nobody looks or that is asked for.
    pub fn new(all: usize, sort: &str, quiet: bool) -> Progress {
        let bar = ProgressBar::with_draw_target(Some(all as u64), ProgressDrawTarget::hidden());
        let style = ProgressStyle::with_template(&format!("{{bar:30}} {{pos}}/{{len}} {sort}, {{eta}} to go"));
        bar.set_style(style.unwrap_or_else(|_| ProgressStyle::default_bar()));
        Progress { bar, began: Instant::now(), shown: AtomicBool::new(quiet || !stderr().is_terminal()) }
    }

    /// So much more is done.
    pub fn done(&self, count: usize) {
        self.bar.inc(count as u64);
        if self.began.elapsed() > PATIENCE && !self.shown.swap(true, Ordering::Relaxed) {
            self.bar.set_draw_target(ProgressDrawTarget::stderr());
        }
    }

    /// Writes something while no bar is in the way.
    pub fn aside<T>(&self, write: impl FnOnce() -> T) -> T {
        self.bar.suspend(write)
    }

    pub fn finish(&self) {
        self.bar.finish_and_clear();
    }
}
