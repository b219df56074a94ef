//! What ends a command with the exit status 2: a file that cannot be read or written, or wrong usage.

use std::io;
use std::path::Path;

/// Why a command could not do its work. Without words where nobody is left to read them: the reader of a pipe has gone.
#[derive(Debug)]
pub struct Failure(pub Option<String>);

pub type Outcome<T> = Result<T, Failure>;

impl Failure {
    pub fn says(words: impl Into<String>) -> Failure {
        Failure(Some(words.into()))
    }

    /// What the system said of a file.
    pub fn of(path: &Path, error: &io::Error) -> Failure {
        Failure::says(format!("{}: {}", shown(path), plain(error)))
    }
}

/// The system's words without its number.
pub fn plain(error: &io::Error) -> String {
    let words = error.to_string();
    match words.find(" (os error ") {
        Some(end) => words[..end].to_string(),
        None => words,
    }
}

/// A file's name for a reader: '-' by what it stands for, and signs that would move a terminal's cursor in their escaped form.
pub fn shown(path: &Path) -> String {
    if path.as_os_str() == "-" {
        return "standard input".into();
    }
    let mut name = String::new();
    for sign in path.to_string_lossy().chars() {
        if sign.is_control() {
            name.extend(sign.escape_default());
        } else {
            name.push(sign);
        }
    }
    name
}
