//! `ncl row`: the settled row of a stage.

use super::{answer, explain_flag, found, given, json_flag, path, put_json, quiet, signs, stage_arg, text_flag, verdict_json};
use crate::explain::{Order, Question};
use crate::failure::{Failure, Outcome};
use crate::given::Given;
use crate::input::{one_standard_input, read, MOST};
use crate::output::put;
use crate::Found;
use clap::{value_parser, Arg, ArgMatches, Command};
use std::path::PathBuf;

/// A stage has at most 10 inputs of two rails each, and 256 gates.
const MOST_NETS: usize = 276;

pub fn command() -> Command {
    let bytes = Arg::new("bytes")
        .long("bytes")
        .value_name("FILE")
        .value_parser(value_parser!(PathBuf))
        .help("A row as bytes: two for each input (rail 0, rail 1), then one for each gate");
    Command::new("row")
        .about("The levels of all nets once a stage has settled for given inputs")
        .override_usage("ncl row [OPTIONS] <STAGE> <INPUTS>\n       ncl row [OPTIONS] --bytes <FILE> <STAGE>")
        .arg(stage_arg())
        .arg(
            Arg::new("inputs")
                .value_name("INPUTS")
                .required_unless_present("bytes")
                .conflicts_with("bytes")
                .help("A sign for each input, input 0 first: 0, 1, or . for NULL"),
        )
        .arg(bytes)
        .args([text_flag(), json_flag(), explain_flag(), quiet()])
        .after_help(
            "\
After the verdict comes a line with a digit for each net, 1 for high: two for each input, then one for each gate.

Examples:
  ncl row stage.ncl 01         input 0 is 0, input 1 is 1
  ncl row stage.ncl 0.         input 1 has not come yet",
        )
}

/// The row that is handed in, and the stage.
fn handed_in(matches: &ArgMatches) -> Outcome<(Given, Vec<u8>)> {
    if let Some(bytes) = matches.get_one::<PathBuf>("bytes") {
        one_standard_input(&[path(matches, "stage"), bytes])?;
        let (stage, row) = (given(matches)?, read(bytes)?);
        if row.longer {
            let words = format!("{}: has more than {MOST} bytes, and no row has more than {MOST_NETS}", row.name);
            return Err(Failure::says(words));
        }
        return Ok((stage, row.bytes));
    }
    let values = signs(matches.get_one::<String>("inputs").expect("clap asks for it"))?;
    let mut row: Vec<u8> = values.iter().flat_map(|&value| [value == Some(false), value == Some(true)]).map(u8::from).collect();
    let stage = given(matches)?;
    row.resize(row.len() + stage.stage().gates.len(), 0);
    Ok((stage, row))
}

pub fn run(matches: &ArgMatches) -> Outcome<Found> {
    let (stage, given) = handed_in(matches)?;
    let mut row = given.clone();
    let verdict = stage.refused().unwrap_or_else(|| fovaheju::settled_row(stage.bytes(), &mut row));
    let settled = verdict.accepts();
    let question = Question::Row { stage: &stage, row: &given };
    let digits: String = row.iter().map(u8::to_string).collect();
    if matches.get_flag("json") {
        let mut value = verdict_json(question, verdict);
        if settled {
            value["row"] = digits.into();
        }
        put_json(&value)?;
    } else if !matches.get_flag("quiet") {
        let mut text = answer(question, verdict, Order::default(), matches.get_flag("explain"));
        if settled {
            // The digits stand in the second line, whoever reads it.
            text = format!("{verdict}\n{digits}\n");
        }
        put(text.as_bytes())?;
    }
    Ok(found(verdict))
}
