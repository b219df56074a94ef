//! compare [--report] [--pipelines] PROGRAM [COUNT [SEED]]: runs a program on generated pairs of files,
//! with `--pipelines` on those with registers, each as `stage.ncl` and `reference.ncl` in a folder of its
//! own, without arguments and with `lowest`, and compares what it prints with the judge's verdict in that
//! order of words, or with `--report` with its report. Prints how many had each number, or the first
//! difference.

use fovaheju_tests::compare::{
    compare_program, expected_report, expected_verdict, Expected, Pairs,
};
use fovaheju_tests::generate::pair;
use fovaheju_tests::generate::pipelines::pipeline_pair;
use std::path::PathBuf;
use std::process::ExitCode;

fn main() -> std::io::Result<ExitCode> {
    let mut arguments = std::env::args().skip(1).peekable();
    let report = arguments.next_if(|word| word == "--report").is_some();
    let pipelines = arguments.next_if(|word| word == "--pipelines").is_some();
    let pairs: Pairs = if pipelines { pipeline_pair } else { pair };
    let Some(program) = arguments.next().map(PathBuf::from) else {
        eprintln!("usage: compare [--report] [--pipelines] PROGRAM [COUNT [SEED]]");
        return Ok(ExitCode::from(2));
    };
    let mut number = |otherwise: u64| {
        arguments
            .next()
            .map_or(otherwise, |text| text.parse().expect("a number"))
    };
    let (count, seed) = (number(1000), number(20_261_115));
    let expected: Expected = if report {
        expected_report
    } else {
        expected_verdict
    };
    let folder = std::env::temp_dir().join(format!("fovaheju-compare-{}", std::process::id()));
    std::fs::create_dir_all(&folder)?;
    let program = program.canonicalize()?;
    let result = compare_program(&program, expected, pairs, &folder, seed, count);
    std::fs::remove_dir_all(&folder)?;
    Ok(match result? {
        Ok(histogram) => {
            println!("{count} pairs of seed {seed} alike in both orders; by number: {histogram:?}");
            ExitCode::SUCCESS
        }
        Err(_) => ExitCode::FAILURE,
    })
}
