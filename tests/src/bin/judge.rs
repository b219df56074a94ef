//! judge [--report] [--lowest] [FOLDER]: the judge as a program. Reads `stage.ncl` and `reference.ncl`
//! in the folder given (or the current one) and prints the four numbers, or with `--report` the
//! report; with `--lowest` in the old order of words.

use fovaheju_tests::compare::{expected_report, expected_verdict};
use fovaheju_tests::files;
use fovaheju_tests::judge::ORDERS;
use std::path::PathBuf;

fn main() -> std::io::Result<()> {
    let mut arguments = std::env::args_os().skip(1).peekable();
    let report = arguments.next_if(|word| word == "--report").is_some();
    let lowest = arguments.next_if(|word| word == "--lowest").is_some();
    let order = ORDERS[usize::from(lowest)];
    let folder = arguments
        .next()
        .map_or_else(|| PathBuf::from("."), PathBuf::from);
    let stage = files::as_the_program_reads(&folder.join("stage.ncl"))?;
    let reference = files::as_the_program_reads(&folder.join("reference.ncl"))?;
    if report {
        print!("{}", expected_report(order, &stage, &reference));
    } else {
        print!("{}", expected_verdict(order, &stage, &reference));
    }
    Ok(())
}
