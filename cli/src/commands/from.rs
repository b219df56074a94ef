//! `ncl from`: a reference, or a stage, from the netlist of another tool.

use super::{file, flag, force, json_flag, path, put_json, quiet};
use crate::convert::blif::{self, Netlist};
use crate::convert::yosys::{self, Into};
use crate::convert::{logic, text, threshold, Fault};
use crate::failure::{shown, Failure, Outcome};
use crate::given::Given;
use crate::input::Identity;
use crate::names::names_file;
use crate::netlist::{many, Names, Stage};
use crate::output::{put, tell, write_files};
use crate::Found;
use clap::{value_parser, Arg, ArgMatches, Command};
use fovaheju::MADE_STAGE;
use serde_json::json;
use std::path::{Path, PathBuf};

pub fn command() -> Command {
    let names = Arg::new("names").value_name("NEW-NAMES").value_parser(value_parser!(PathBuf));
    let care = Arg::new("care").long("care").value_name("STAGE").value_parser(value_parser!(PathBuf)).requires("stage");
    Command::new("from")
        .about("A reference from BLIF or Verilog, or a stage from a netlist of threshold cells")
        .arg(file("source", "SOURCE", "BLIF, or Verilog where the name ends in .v or .sv, through yosys; '-' is BLIF on standard input"))
        .arg(file("new", "NEW-FILE", "Where the reference is written, or the stage"))
        .arg(names.help("Where the names of its inputs and outputs are written, for --names of explain, draw, wave and mend"))
        .arg(flag("stage", "SOURCE is made of threshold cells (TH12 to TH24comp, rTH12 ..), and a stage is made of it"))
        .arg(
            Arg::new("top")
                .long("top")
                .value_name("MODULE")
                .help("The module of a Verilog file that is taken [default: the one that no other uses]"),
        )
        .arg(care.help("The stage that is made has the care words of this stage file: netlists have none"))
        .args([json_flag(), force(), quiet()])
        .after_help(
            "\
A module is flattened, and becomes gates of two inputs; bit 0 of a port comes first, and the first port's is input 0. A stage has 1 to 10
inputs and 1 to 16 outputs, and no registers. What cannot be taken is said, and nothing is written: registers, nets that nothing
drives, loops, too many inputs. An input that leads nowhere and an output that is constant are written, and it is said what will
refuse them.

Examples:
  ncl from adder.v reference.ncl adder.names
  ncl from adder.blif reference.ncl
  ncl from --stage placed.v stage.ncl --care before.ncl",
        )
}

/// What was made: the bytes of a file, the names of its ports, and what is to be said.
struct Made {
    what: &'static str,
    bytes: Vec<u8>,
    names: Names,
    counts: String,
    notes: Vec<String>,
}

pub fn run(matches: &ArgMatches) -> Outcome<Found> {
    let source = path(matches, "source");
    let verilog = ["v", "sv"].iter().any(|end| source.extension().is_some_and(|ending| ending.eq_ignore_ascii_case(end)));
    let top = matches.get_one::<String>("top");
    if top.is_some() && !verilog {
        return Err(Failure::says("--top: names a module of a Verilog file; BLIF has one model"));
    }
    let (input, mut content) = text(source)?;
    let into = if matches.get_flag("stage") { Into::Cells } else { Into::Gates };
    let mut said = Vec::new();
    if verilog {
        (content, said) = yosys::blif(source, top.map(String::as_str), into)?;
    }
    let failed = |fault: Fault| fault.of(&shown(source), !verilog);
    let netlist = blif::read(&content).map_err(failed)?;
    let mut made = match into {
        Into::Gates => reference(&netlist).map_err(failed)?,
        Into::Cells => stage(&netlist, care(matches)?).map_err(failed)?,
    };
    made.notes.extend(said.iter().map(|line| format!("yosys says: {line}")));
    write(matches, &made, input.identity)?;
    let module = netlist.model.unwrap_or_default();
    if matches.get_flag("json") {
        let names = json!({ "inputs": made.names.inputs, "outputs": made.names.outputs });
        put_json(&json!({ "module": module, "what": made.what, "names": names, "notes": made.notes }))?;
    } else if !matches.get_flag("quiet") {
        made.notes.iter().for_each(|note| tell(&format!("{}: {note}", shown(source))));
        put(format!("{}: a {} of module {module}: {}\n", shown(path(matches, "new")), made.what, made.counts).as_bytes())?;
    }
    Ok(Found::Accepted)
}

fn reference(netlist: &Netlist) -> Result<Made, Fault> {
    let logic::Made { reference, names, mut notes } = logic::reference(netlist)?;
    let bytes = reference.encoded();
    // The library reads it; of 25 the note is there already, of 26 it is the library's.
    let made = fovaheju::make_stage(&bytes, &mut vec![0; MADE_STAGE]).verdict;
    match made.number {
        0 | 25 => {}
        26 => notes.push(format!("a stage that 'ncl make' would make of it needs {} gates, and 256 are possible (26)", made.at)),
        _ => return Err(Fault::says(format!("no reference came of it: {made}"))),
    }
    let counts = [(reference.inputs, "input"), (reference.gates.len(), "gate"), (reference.outputs.len(), "output")];
    let counts = counts.map(|(count, what)| many(count, what)).join(", ");
    Ok(Made { what: "reference", bytes, names, counts, notes })
}

/// The care words of the stage that is named for them.
fn care(matches: &ArgMatches) -> Outcome<Vec<usize>> {
    let Some(path) = matches.get_one::<PathBuf>("care") else { return Ok(Vec::new()) };
    let given = Given::read(path, false)?;
    if !given.reads() {
        return Err(Failure::says(format!("{}: is no stage that reads: {}", given.name(), given.read_verdict())));
    }
    Ok(given.stage().care)
}

fn stage(netlist: &Netlist, care: Vec<usize>) -> Result<Made, Fault> {
    let threshold::Made { stage, notes } = threshold::stage(netlist)?;
    let stage = Stage { care, ..stage };
    let bytes = stage.encoded();
    // The settled-row call reads it: 12, a loop, is the check's to tell.
    let read = fovaheju::settled_row(&bytes, &mut vec![0; stage.nets()]);
    if !matches!(read.number, 0 | 12) {
        return Err(Fault::says(format!("no stage came of it: {read}, {}", crate::numbers::title(read.number))));
    }
    Ok(Made { what: "stage", bytes, names: stage.names.clone().unwrap_or_default(), counts: stage.counts(), notes })
}

/// Writes the file, and the names where that is asked for.
fn write(matches: &ArgMatches, made: &Made, source: Option<Identity>) -> Outcome<()> {
    let names = names_file(&made.names);
    let mut files: Vec<(&Path, &[u8])> = vec![(path(matches, "new"), &made.bytes)];
    if let Some(path) = matches.get_one::<PathBuf>("names") {
        files.push((path, names.as_bytes()));
    }
    write_files(&files, &source.into_iter().collect::<Vec<_>>(), matches.get_flag("force"))
}
