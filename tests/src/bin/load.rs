//! load [SEEDS]: a load for the proved library (document 02, M-113), of so many seeds from 0 on, with all counts of inputs and of gates
//! in turn. Of each seed the library draws a reference, makes a stage of it and checks the one against the other. The judge draws and makes
//! beside it; the check, which takes it a thousand times as long, it does of some seeds only. Prints how the loads were answered. On a
//! terminal it shows how far it has come.
//! Fails at the first difference, and at the first answer that is neither 40 nor 0 0 0 0, nor in the check 32 at the least gate that never rises.

use fovaheju_tests::draw::{self, load_of, Load, TOO_MANY_OUTPUTS};
use fovaheju_tests::judge::{
    accepted_unless_a_gate_never_rises, check_in_order, read_stage, Verdict, WordOrder, ACCEPTED,
    LIMITS,
};
use fovaheju_tests::library;
use fovaheju_tests::make::{self, Made};
use std::fmt::Debug;
use std::io::{stderr, IsTerminal, Write};
use std::process::ExitCode;

/// The judge checks every seed that this divides. It has no divisor in common with 10 counts of inputs and 41 of gates, so all of
/// them come.
const JUDGE_CHECKS: u32 = 257;

/// The judge's calls under names that the measuring can find, and the library's check of the loads that the judge checks too.
#[no_mangle]
#[inline(never)]
extern "C" fn judge_draw(load: &Load, written: &mut Written) {
    *written = into(512, |buffer| draw::draw_reference(load, buffer));
}

#[no_mangle]
#[inline(never)]
extern "C" fn judge_make(reference: &Vec<u8>, written: &mut Written) {
    *written = into(4096, |buffer| make::make_stage(reference, buffer));
}

#[no_mangle]
#[inline(never)]
extern "C" fn judge_check(stage: &Vec<u8>, reference: &Vec<u8>, verdict: &mut Verdict) {
    *verdict = check_in_order(WordOrder::Input0Highest, LIMITS, stage, reference);
}

#[no_mangle]
#[inline(never)]
extern "C" fn library_check(stage: &Vec<u8>, reference: &Vec<u8>, verdict: &mut Verdict) {
    *verdict = library::check(0, stage, reference);
}

/// What a call answers, and the bytes that it writes.
type Written = (Verdict, Vec<u8>);

fn into(room: usize, call: impl FnOnce(&mut [u8]) -> Made) -> Written {
    let mut buffer = vec![0; room];
    let made = call(&mut buffer);
    buffer.truncate(made.len);
    (made.verdict, buffer)
}

fn alike<T: PartialEq + Debug>(step: &str, library: T, judge: T) -> Result<T, String> {
    if library == judge {
        return Ok(library);
    }
    Err(format!("{step}: judge {judge:?}, library {library:?}"))
}

/// How a load was answered.
#[derive(Clone, Copy, PartialEq, Eq)]
enum Answer {
    Accepted,
    /// 32: drawn and made, but some gate of the stage never rises.
    NeverRises,
    /// 40.
    ManyOutputs,
}

/// Takes one load through all three calls. What the check says of a stage that is made is known but for the judge's own settling.
fn take(load: &Load) -> Result<Answer, String> {
    let mut judged = Written::default();
    let drawn = into(512, |buffer| library::draw_reference(load, buffer));
    judge_draw(load, &mut judged);
    let (verdict, reference) = alike("drawing", drawn, judged.clone())?;
    if verdict == TOO_MANY_OUTPUTS {
        return Ok(Answer::ManyOutputs);
    }
    let made = into(4096, |buffer| library::make_stage(&reference, buffer));
    judge_make(&reference, &mut judged);
    let (made, stage) = alike("making a stage", made, judged)?;
    let checked = if load.seed.is_multiple_of(JUDGE_CHECKS) {
        let (mut checked, mut judged) = (Verdict::default(), Verdict::default());
        library_check(&stage, &reference, &mut checked);
        judge_check(&stage, &reference, &mut judged);
        alike("the check", checked, judged)?
    } else {
        library::check(0, &stage, &reference)
    };
    let known = || read_stage(&stage).map(|stage| accepted_unless_a_gate_never_rises(&stage));
    match (verdict, made, checked) {
        (ACCEPTED, ACCEPTED, ACCEPTED) => Ok(Answer::Accepted),
        (ACCEPTED, ACCEPTED, [32, ..]) if known() == Ok(checked) => Ok(Answer::NeverRises),
        _ => Err(format!(
            "drawing answers {verdict:?}, making {made:?}, the check {checked:?}"
        )),
    }
}

/// How many loads are accepted, how many have 32, and how many of both the judge checked too.
fn run(seeds: u32) -> Result<[u32; 3], String> {
    let shown = stderr().is_terminal();
    let (mut accepted, mut never_rises, mut by_both) = (0, 0, 0);
    for seed in 0..seeds {
        let load = load_of(seed);
        let answer = take(&load).map_err(|what| format!("{load:?}: {what}"))?;
        accepted += u32::from(answer == Answer::Accepted);
        never_rises += u32::from(answer == Answer::NeverRises);
        let checked = answer != Answer::ManyOutputs;
        by_both += u32::from(checked && seed.is_multiple_of(JUDGE_CHECKS));
        if shown && (seed % 512 == 0 || seed + 1 == seeds) {
            eprint!("\r{} of {seeds} loads", seed + 1);
            let _ = stderr().flush();
        }
    }
    if shown {
        eprintln!();
    }
    Ok([accepted, never_rises, by_both])
}

fn main() -> ExitCode {
    let seeds = std::env::args().nth(1);
    let Some(seeds) = seeds.map_or(Some(100_000), |text| text.parse().ok()) else {
        eprintln!("usage: load [SEEDS]");
        return ExitCode::from(2);
    };
    match run(seeds) {
        Ok([accepted, never_rises, by_both]) => {
            let many_outputs = seeds - accepted - never_rises;
            println!("| Loads | Drawn, made a stage, and accepted | 32 in place of that | of both checked by the judge too | 40 | Other |");
            println!("|---|---|---|---|---|---|");
            println!("| {seeds} | {accepted} | {never_rises} | {by_both} | {many_outputs} | 0 |");
            ExitCode::SUCCESS
        }
        Err(what) => {
            eprintln!("\nload: {what}");
            ExitCode::FAILURE
        }
    }
}
