//! Programs of others that are used where they are installed. Each is asked for by its name on the path, and gets its input by a pipe or a
//! file's name; nothing goes through a shell.

use crate::failure::{plain, Failure, Outcome};
use std::ffi::OsStr;
use std::io::{ErrorKind, Write};
use std::process::{Command, Stdio};

/// A program of others.
pub struct Tool {
    pub name: &'static str,
    /// Debian's package that has it.
    pub package: &'static str,
    /// What can be done without it.
    pub without: &'static str,
}

pub const DOT: Tool =
    Tool { name: "dot", package: "graphviz", without: "a file whose name ends in .dot gets the drawing in Graphviz's own language" };

/// So many of the last lines that a program printed are shown where it fails.
const LINES: usize = 12;

/// What a run of a program gave.
pub struct Ran {
    pub success: bool,
    pub out: Vec<u8>,
    err: Vec<u8>,
}

impl Ran {
    /// The last lines that it printed: on standard error, or where nothing is there, on standard output.
    pub fn said(&self) -> Vec<String> {
        let words = if self.err.trim_ascii().is_empty() && !self.success { &self.out } else { &self.err };
        let words = String::from_utf8_lossy(words);
        let plain = |line: &str| line.trim_end().chars().filter(|sign| !sign.is_control()).collect::<String>();
        let lines: Vec<String> = words.lines().map(plain).filter(|line| !line.is_empty()).collect();
        lines[lines.len().saturating_sub(LINES)..].to_vec()
    }
}

impl Tool {
    /// Runs it with these arguments and this on its standard input, and answers what it prints. Where it fails, its last words are said.
    pub fn run<S: AsRef<OsStr>>(&self, arguments: &[S], given: &[u8]) -> Outcome<Vec<u8>> {
        let ran = self.ran(arguments, given)?;
        if ran.success {
            return Ok(ran.out);
        }
        Err(Failure::says(format!("{} could not do it: {}", self.name, ran.said().join("\n"))))
    }

    /// Runs it, whether it does its work or not.
    pub fn ran<S: AsRef<OsStr>>(&self, arguments: &[S], given: &[u8]) -> Outcome<Ran> {
        let piped = Command::new(self.name).args(arguments).stdin(Stdio::piped()).stdout(Stdio::piped()).stderr(Stdio::piped()).spawn();
        let mut child = piped.map_err(|error| self.missing(&error))?;
        let mut input = child.stdin.take();
        // A program that does not read its input to the end says why by itself.
        let ended = std::thread::scope(|scope| {
            scope.spawn(|| input.take().map(|mut pipe| pipe.write_all(given)));
            child.wait_with_output()
        });
        let ended = ended.map_err(|error| Failure::says(format!("{}: {}", self.name, plain(&error))))?;
        Ok(Ran { success: ended.status.success(), out: ended.stdout, err: ended.stderr })
    }

    fn missing(&self, error: &std::io::Error) -> Failure {
        match error.kind() {
            ErrorKind::NotFound => {
                let Tool { name, package, without } = self;
                Failure::says(format!("'{name}' is not installed: Debian's package {package} has it; {without}"))
            }
            _ => Failure::says(format!("{}: {}", self.name, plain(error))),
        }
    }
}
