//! `ncl to`: a stage, or a reference, as a netlist for other tools.

use super::{answer, file, flag, force, given, path, reference_arg, stage_arg, text_flag};
use crate::convert::{logic, threshold, verilog};
use crate::explain::{Order, Pair, Question};
use crate::failure::Outcome;
use crate::given::Given;
use crate::input::{one_standard_input, read, Identity, Input};
use crate::netlist::{Names, Reference, Stage};
use crate::output::{put, tell, write_files};
use crate::Found;
use clap::{value_parser, Arg, ArgMatches, Command};
use fovaheju::{Verdict, MADE_STAGE};
use std::path::PathBuf;

fn new(value: &'static str) -> Arg {
    Arg::new("new").value_name(value).value_parser(value_parser!(PathBuf)).help("Where it is written; without it, it is printed")
}

pub fn command() -> Command {
    let seed = Arg::new("seed").long("seed").value_name("N").value_parser(value_parser!(u32)).default_value("1");
    let netlist = file("file", "FILE", "The stage file, or with --reference a reference file; '-' is standard input");
    Command::new("to")
        .about("A stage as Verilog or BLIF for other tools, with cells and a bench; a reference as BLIF")
        .subcommand_required(true)
        .arg_required_else_help(true)
        .subcommand(
            Command::new("verilog")
                .about("A stage as structural Verilog: an instance uk for gate k")
                .args([stage_arg(), new("NEW-VERILOG"), text_flag(), force()])
                .after_help("'ncl from --stage' makes the same stage of it again.\n\nExample:\n  ncl to verilog stage.ncl stage.v"),
        )
        .subcommand(
            Command::new("cells")
                .about("The 54 cells in Verilog, for a simulator")
                .args([new("NEW-VERILOG"), force()])
                .after_help("Example:\n  ncl to cells cells.v"),
        )
        .subcommand(
            Command::new("bench")
                .about("A bench in Verilog that plays every word of a stage once, and compares the answers with the reference")
                .args([stage_arg(), reference_arg(), new("NEW-VERILOG"), text_flag(), force()])
                .arg(seed.help("Chooses the delays of the gates, and so the order in which they switch"))
                .after_help(
                    "\
A bench plays one order of switching, and does not see what still switches when the outputs are there: stages that are refused with 14, 15
or 20 pass it.

Examples:
  ncl to bench stage.ncl reference.ncl bench.v
  iverilog -o bench bench.v stage.v cells.v && ./bench",
                ),
        )
        .subcommand(
            Command::new("blif")
                .about("A stage as BLIF, with a line for each gate; or a reference, for abc and yosys")
                .args([netlist, new("NEW-BLIF"), text_flag(), force()])
                .arg(flag("reference", "FILE is a reference").conflicts_with("text"))
                .arg(super::names_arg().requires("reference"))
                .after_help(
                    "\
Examples:
  ncl to blif stage.ncl stage.blif
  ncl to blif --reference reference.ncl --names adder.names | berkeley-abc -c 'read_blif /dev/stdin; print_stats'",
                ),
        )
        .after_help(
            "\
Signals are xi and yj with the rails _0 and _1, gate k is the instance uk and drives the net gk. Care words are left out, and it is said so.

Examples:
  ncl to verilog stage.ncl stage.v
  ncl to cells cells.v
  ncl to bench stage.ncl reference.ncl bench.v",
        )
}

pub fn run(matches: &ArgMatches) -> Outcome<Found> {
    match matches.subcommand().expect("clap asks for one") {
        ("cells", matches) => written(matches, &verilog::cells(), &[]),
        ("bench", matches) => bench(matches),
        ("blif", matches) if matches.get_flag("reference") => reference_blif(matches),
        ("blif", matches) => {
            let given = Given::read(path(matches, "file"), matches.get_flag("text"))?;
            of_stage(matches, &given, threshold::blif)
        }
        (_, matches) => of_stage(matches, &given(matches)?, verilog::structural),
    }
}

/// Prints a netlist, or writes it to a file.
fn written(matches: &ArgMatches, text: &str, read: &[Identity]) -> Outcome<Found> {
    match matches.get_one::<PathBuf>("new") {
        Some(path) => write_files(&[(path, text.as_bytes())], read, matches.get_flag("force"))?,
        None => put(text.as_bytes())?,
    }
    Ok(Found::Accepted)
}

/// What cannot be read has its verdict, as from the call that reads it.
fn refused(question: Question, verdict: Verdict) -> Outcome<Found> {
    put(answer(question, verdict, Order::default(), false).as_bytes())?;
    Ok(Found::Refused)
}

/// A stage by the names that every netlist of it has.
fn plain(given: &Given) -> Stage {
    Stage { names: None, ..given.stage() }
}

fn of_stage(matches: &ArgMatches, given: &Given, made: fn(&Stage) -> String) -> Outcome<Found> {
    // Registers have no place in a netlist: such a stage has the number that every call but the check gives it.
    let read = given.plain_verdict();
    if !matches!(read.number, 0 | 12) {
        return refused(Question::Row { stage: given, row: &[] }, read);
    }
    let stage = plain(given);
    if !stage.care.is_empty() {
        tell(&format!("{}: has care words, which have no place in a netlist; 'ncl from --stage --care' brings them back", given.name()));
    }
    written(matches, &made(&stage), &given.input.identity.into_iter().collect::<Vec<_>>())
}

fn bench(matches: &ArgMatches) -> Outcome<Found> {
    one_standard_input(&[path(matches, "stage"), path(matches, "reference")])?;
    let (given, reference) = (given(matches)?, read(path(matches, "reference"))?);
    let verdict = given.check(Order::default(), &reference.bytes);
    // Files that do not read, or do not fit, have no words to be played, and registers no place in a netlist.
    let parts = given.refused().is_none() && given.stage().has_parts();
    if parts || matches!(verdict.number, 1..=11 | 18 | 19 | 29..=31) {
        let verdict = if parts && matches!(verdict.number, 0 | 10..) { given.plain_verdict() } else { verdict };
        return refused(Question::Check(Pair::whole(&given, &reference)), verdict);
    }
    let seed = matches.get_one::<u32>("seed").copied().unwrap_or_default();
    let text = verilog::bench(&plain(&given), &Reference::of(&reference.bytes), seed);
    let read = [given.input.identity, reference.identity];
    written(matches, &text, &read.into_iter().flatten().collect::<Vec<_>>())
}

fn reference_blif(matches: &ArgMatches) -> Outcome<Found> {
    let input: Input = read(path(matches, "file"))?;
    // Making a stage reads the reference; what it finds besides is no matter here.
    let verdict = fovaheju::make_stage(&input.bytes, &mut vec![0; MADE_STAGE]).verdict;
    if matches!(verdict.number, 1..=9) {
        return refused(Question::Make { reference: &input }, verdict);
    }
    let reference = Reference::of(&input.bytes);
    let names = match super::names(matches)? {
        Some(names) => {
            names.fit(reference.inputs, reference.outputs.len())?;
            names.names
        }
        None => Names::default(),
    };
    written(matches, &logic::blif(&reference, &names), &input.identity.into_iter().collect::<Vec<_>>())
}
