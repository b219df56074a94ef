//! The proved calls of the static library, with the types of the judge. Crate `fovaheju` in `cli/library` has the calls themselves.

use crate::compare::Counts;
use crate::draw::Load;
use crate::files::FilePair;
use crate::join::Joined;
use crate::judge::Verdict;
use crate::make::Made;
use crate::run::{Handed, Played};

fn made(answer: fovaheju::Written) -> Made {
    Made {
        verdict: answer.verdict.numbers(),
        len: answer.count as usize,
    }
}

/// The verdict on a stage file and a reference file.
pub fn check(order: u64, stage: &[u8], reference: &[u8]) -> Verdict {
    fovaheju::check(order, stage, reference).numbers()
}

/// The report on a stage file and a reference file: verdict, words, total, all 1,024 lines and their words.
pub fn report(order: u64, stage: &[u8], reference: &[u8]) -> Counts {
    let report = fovaheju::report(order, stage, reference);
    Counts {
        verdict: report.verdict.numbers(),
        words: report.words,
        total: report.total,
        lines: report.lines.to_vec(),
        names: report.names.to_vec(),
    }
}

/// The verdict on a stage file and a row, which is settled in place.
pub fn settled_row(stage: &[u8], row: &mut [u8]) -> Verdict {
    fovaheju::settled_row(stage, row).numbers()
}

/// The join of two pairs of files into two buffers.
pub fn join(
    order: u64,
    first: &FilePair,
    second: &FilePair,
    stage_out: &mut [u8],
    reference_out: &mut [u8],
) -> Joined {
    let first = [&first.stage[..], &first.reference[..]];
    let second = [&second.stage[..], &second.reference[..]];
    let answer = fovaheju::join(order, first, second, stage_out, reference_out);
    Joined {
        verdict: answer.verdict.numbers(),
        stage_len: answer.stage_count as usize,
        reference_len: answer.reference_count as usize,
    }
}

/// The stage of a reference file, into a buffer.
pub fn make_stage(reference: &[u8], stage_out: &mut [u8]) -> Made {
    made(fovaheju::make_stage(reference, stage_out))
}

/// The file of the family of small stages that comes after a file, into a buffer.
pub fn next_stage(stage: &[u8], stage_out: &mut [u8]) -> Made {
    made(fovaheju::next_stage(stage, stage_out))
}

/// The reference that is drawn for a load, into a buffer.
pub fn draw_reference(load: &Load, reference_out: &mut [u8]) -> Made {
    made(fovaheju::draw_reference(
        load.seed,
        load.inputs,
        load.gates,
        reference_out,
    ))
}

/// The stage file of a text, into a buffer.
pub fn read_text(text: &[u8], stage_out: &mut [u8]) -> Made {
    made(fovaheju::read_text(text, stage_out))
}

/// The text of a stage file, into a buffer.
pub fn write_text(stage: &[u8], text_out: &mut [u8]) -> Made {
    made(fovaheju::write_text(stage, text_out))
}

fn handed(run: fovaheju::Run) -> Handed {
    Handed {
        verdict: run.verdict.numbers(),
        rise: run.rise,
        count: run.count,
    }
}

/// The witness of two files for a name, into a list.
pub fn witness(order: u64, stage: &[u8], reference: &[u8], asked: u64, list: &mut [u16]) -> Handed {
    handed(fovaheju::witness(
        order,
        stage,
        reference,
        asked as usize,
        list,
    ))
}

/// A list of switchings of a name, judged, with a row.
pub fn play(
    order: u64,
    stage: &[u8],
    name: u64,
    fall: usize,
    list: &[u16],
    row: &mut [u8],
) -> Played {
    let played = fovaheju::play(order, stage, name as usize, fall, list, row);
    Played {
        verdict: played.verdict.numbers(),
        steps: played.steps,
    }
}

/// A run of a name by keys, into a list.
pub fn run_by_keys(order: u64, stage: &[u8], name: u64, keys: &[u32], list: &mut [u16]) -> Handed {
    handed(fovaheju::run_by_keys(order, stage, name as usize, keys, list))
}
