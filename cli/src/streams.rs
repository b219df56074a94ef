//! The standard streams: which of them were closed when the program began, and which files they are.

use crate::input::Identity;
use std::fs::{self, File};
use std::io;
use std::os::fd::AsFd;
use std::os::unix::fs::MetadataExt;
use std::sync::atomic::{AtomicBool, Ordering};

static CLOSED: [AtomicBool; 3] = [const { AtomicBool::new(false) }; 3];

/// Before `main`: Rust's runtime opens /dev/null in place of a stream that is closed, and nothing tells the two apart from then on.
#[used]
#[link_section = ".init_array"]
static BEFORE_MAIN: extern "C" fn() = look;

extern "C" fn look() {
    let there = |name: &str| fs::symlink_metadata(name).is_ok();
    for (stream, name) in ["/proc/self/fd/0", "/proc/self/fd/1", "/proc/self/fd/2"].into_iter().enumerate() {
        CLOSED[stream].store(!there(name) && there("/proc/self/fd"), Ordering::Relaxed);
    }
}

/// Whether a stream was closed when the program began.
pub fn closed(stream: usize) -> bool {
    CLOSED[stream].load(Ordering::Relaxed)
}

/// The plain file that a stream is.
fn file(stream: impl AsFd) -> Option<Identity> {
    let data = File::from(stream.as_fd().try_clone_to_owned().ok()?).metadata().ok()?;
    data.is_file().then(|| (data.dev(), data.ino()))
}

/// The plain file that is standard input.
pub fn input() -> Option<Identity> {
    file(io::stdin())
}

/// The stream that goes to a plain file, by its name.
pub fn going_to(identity: Identity) -> Option<&'static str> {
    let streams = [("standard output", file(io::stdout())), ("standard error", file(io::stderr()))];
    streams.into_iter().find(|stream| stream.1 == Some(identity)).map(|stream| stream.0)
}
