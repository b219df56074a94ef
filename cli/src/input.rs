//! Reading of files: at most as much as counts, whatever the file's length, and never as empty what cannot be read.

use crate::failure::{shown, Failure, Outcome};
use crate::streams;
use std::fs::File;
use std::io::{self, Read, StdinLock};
use std::os::unix::fs::MetadataExt;
use std::path::Path;

/// At most 8,192 bytes of a file count: a longer one is refused within them, with the same numbers (`verdict-cut`).
pub const MOST: usize = 8_192;

/// The device and number of a file: two names of one file have the same.
pub type Identity = (u64, u64);

/// A file that was read.
#[derive(Clone)]
pub struct Input {
    /// Its name for a reader.
    pub name: String,
    /// Its bytes, as many as count.
    pub bytes: Vec<u8>,
    /// Whether it goes on behind them.
    pub longer: bool,
    /// None of standard input, where that is no plain file.
    pub identity: Option<Identity>,
}

impl Input {
    /// A file without a byte, where none is given.
    pub fn empty(path: &Path) -> Input {
        Input { name: shown(path), bytes: Vec::new(), longer: false, identity: None }
    }
}

/// Reads a file, or standard input for '-'.
pub fn read(path: &Path) -> Outcome<Input> {
    read_within(path, MOST)
}

/// The same, with at most so many bytes.
pub fn read_within(path: &Path, most: usize) -> Outcome<Input> {
    let mut bytes = Vec::new();
    let identity = if path.as_os_str() == "-" {
        take(standard_input()?, most, &mut bytes).map_err(|error| Failure::of(path, &error))?;
        streams::input()
    } else {
        let file = File::open(path).map_err(|error| Failure::of(path, &error))?;
        let data = file.metadata().map_err(|error| Failure::of(path, &error))?;
        if data.is_dir() {
            return Err(Failure::says(format!("{}: is a folder", shown(path))));
        }
        take(file, most, &mut bytes).map_err(|error| Failure::of(path, &error))?;
        Some((data.dev(), data.ino()))
    };
    let longer = bytes.len() > most;
    bytes.truncate(most);
    Ok(Input { name: shown(path), bytes, longer, identity })
}

/// One byte more than counts, so that a longer file is seen.
fn take(from: impl Read, most: usize, bytes: &mut Vec<u8>) -> io::Result<usize> {
    from.take(most as u64 + 1).read_to_end(bytes)
}

/// Standard input, where it is open.
pub fn standard_input() -> Outcome<StdinLock<'static>> {
    if streams::closed(0) {
        return Err(Failure::says("standard input: is closed"));
    }
    Ok(io::stdin().lock())
}

/// Standard input can be only one of the files.
pub fn one_standard_input(paths: &[&Path]) -> Outcome<()> {
    match paths.iter().filter(|path| path.as_os_str() == "-").count() {
        0 | 1 => Ok(()),
        _ => Err(Failure::says("standard input ('-') can be only one of the files")),
    }
}

/// Reads several files.
pub fn read_all(paths: &[&Path]) -> Outcome<Vec<Input>> {
    one_standard_input(paths)?;
    paths.iter().map(|path| read(path)).collect()
}
