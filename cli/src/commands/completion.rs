//! `ncl completion`: a script that lets a shell complete the command's words.

use crate::failure::Outcome;
use crate::output::put;
use crate::Found;
use clap::{value_parser, Arg, ArgMatches, Command};
use clap_complete::Shell;

pub fn command() -> Command {
    Command::new("completion")
        .about("A script for the completion of a shell")
        .arg(Arg::new("shell").value_name("SHELL").required(true).value_parser(value_parser!(Shell)).help("The shell"))
        .after_help("Example:\n  ncl completion bash > ~/.local/share/bash-completion/completions/ncl")
}

pub fn run(matches: &ArgMatches) -> Outcome<Found> {
    let shell = *matches.get_one::<Shell>("shell").expect("clap asks for it");
    let mut script = Vec::new();
    clap_complete::generate(shell, &mut super::all(), "ncl", &mut script);
    put(&script)?;
    Ok(Found::Accepted)
}
