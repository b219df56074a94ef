//! The command `ncl`: all that users do with the proved library. Every judgement in it is a call of the library; what is here reads files,
//! shows what was judged, and writes.

pub mod batch;
pub mod changes;
mod commands;
pub mod convert;
pub mod draw;
pub mod explain;
pub mod failure;
pub mod fresh;
pub mod given;
pub mod input;
pub mod levels;
pub mod mend;
pub mod names;
pub mod netlist;
pub mod numbers;
pub mod output;
pub mod progress;
pub mod runs;
pub mod situation;
pub mod streams;
pub mod tools;
pub mod wave;
pub mod wiring;

use clap::error::ErrorKind;
use failure::{Failure, Outcome};
use std::ffi::OsString;

/// What a command found: its exit status.
#[derive(Clone, Copy, PartialEq, Eq, Debug)]
pub enum Found {
    Accepted = 0,
    Refused = 1,
}

/// The exit status of wrong usage, and of a file that cannot be read or written.
const FAILED: u8 = 2;

/// Runs the command with its arguments, and answers its exit status: 0 accepted, 1 refused, 2 wrong usage or a file that cannot be read or
/// written.
pub fn run(arguments: &[OsString]) -> u8 {
    match found(arguments) {
        Ok(found) => found as u8,
        Err(Failure(words)) => {
            if let Some(words) = words {
                output::tell(&words);
            }
            FAILED
        }
    }
}

fn found(arguments: &[OsString]) -> Outcome<Found> {
    match commands::needed(arguments).try_get_matches_from(arguments) {
        Ok(matches) => commands::run(&matches),
        // Help and version, which were asked for.
        Err(error) if !error.use_stderr() => output::put(error.to_string().as_bytes()).map(|()| Found::Accepted),
        Err(error) if error.kind() == ErrorKind::DisplayHelpOnMissingArgumentOrSubcommand => {
            output::tell_as_it_is(&error.to_string());
            Err(Failure(None))
        }
        Err(error) => {
            let words = error.to_string();
            let words = words.strip_prefix("error: ").unwrap_or(&words);
            Err(Failure::says(words.trim_end()))
        }
    }
}
