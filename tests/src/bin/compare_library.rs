//! compare_library [SEED [COUNT]]: compares all calls of the proved library with the judge, in both orders of words,
//! on the stored examples, cases of joins, references and texts, on as many generated pairs, rows, joins, references, texts and stage
//! files to write, on the whole family of small stages and as many files beside it, on loads at the limits and on as many generated
//! ones, and on as many witnesses, lists to judge and runs by keys; each witness is played too. On pairs with registers it compares the
//! check on as many, and all other calls on a fifth. Prints how many had each number, or the first difference. Fails too if some number
//! never came or too few were accepted.

use fovaheju_tests::compare::{
    compare_checks, compare_draws, compare_draws_at_limits, compare_family, compare_join,
    compare_joins, compare_make, compare_makes, compare_nexts, compare_pair, compare_read_text,
    compare_read_texts, compare_report, compare_reports, compare_rows, compare_write_text,
    compare_write_texts, lack, CheckInOrder, Convert, Difference, Histogram, JoinInOrder,
    ReportInOrder, CHECK_NUMBERS, DRAW_NUMBERS, JOIN_NUMBERS, MAKE_NUMBERS, NEXT_NUMBERS,
    READ_TEXT_NUMBERS, ROW_NUMBERS, WRITE_TEXT_NUMBERS,
};
use fovaheju_tests::compare_pipelines::{
    compare_all_other_calls, compare_other_calls, compare_pipelines, lack_of_other_calls,
    lack_of_pipelines, OtherCalls, PIPELINE_NUMBERS,
};
use fovaheju_tests::compare_runs::{
    compare_plays, compare_runs_by_keys, compare_witness, compare_witnesses, ByKeys, Play, Witness,
    PLAY_NUMBERS,
};
use fovaheju_tests::files::{
    examples_folder, load_example, load_text, pipelines_folder, stored_examples, stored_texts,
    write_stage,
};
use fovaheju_tests::generate::made::MakeCase;
use fovaheju_tests::generate::runs::WitnessCase;
use fovaheju_tests::generate::texts::TextCase;
use fovaheju_tests::judge::{
    accepted_unless_a_gate_never_rises, read_stage, WordOrder, ACCEPTED, ORDERS,
};
use fovaheju_tests::library;
use fovaheju_tests::make::Made;
use fovaheju_tests::suite;
use fovaheju_tests::suite::make::all_references;
use std::process::ExitCode;
use std::thread;

/// Numbers that stand for the old order of words: every one but 0 does.
const MARKS: [u64; 7] = [1, 2, 3, 256, 1 << 32, 1 << 63, u64::MAX];

/// A number that stands for an order, another one for files of another length.
fn mark(order: WordOrder, file: &[u8]) -> u64 {
    match order {
        WordOrder::Input0Highest => 0,
        WordOrder::Input0Lowest => MARKS[file.len() % MARKS.len()],
    }
}

const CHECK: CheckInOrder =
    |order, stage, reference| library::check(mark(order, stage), stage, reference);
const REPORT: ReportInOrder =
    |order, stage, reference| library::report(mark(order, stage), stage, reference);
const JOIN: JoinInOrder = |order, first, second, stage, reference| {
    library::join(mark(order, &first.stage), first, second, stage, reference)
};

const WITNESS: Witness = |order, stage, reference, asked, list| {
    library::witness(mark(order, stage), stage, reference, asked, list)
};
const PLAY: Play = |order, stage, name, fall, list, row| {
    library::play(mark(order, stage), stage, name, fall, list, row)
};
const BY_KEYS: ByKeys = |order, stage, name, keys, list| {
    library::run_by_keys(mark(order, stage), stage, name, keys, list)
};

const OTHER_CALLS: OtherCalls = OtherCalls {
    report: REPORT,
    settled_row: library::settled_row,
    join: JOIN,
    write_text: library::write_text,
    next: library::next_stage,
    witness: WITNESS,
    play: PLAY,
    by_keys: BY_KEYS,
};

/// How many files of each number were alike, or the first that was not.
type Comparison<'a> = &'a (dyn Fn() -> Result<Histogram, Box<Difference>> + Sync);

/// What the files of a comparison lack.
type Lack = fn(&Histogram) -> Option<String>;

/// Prints the numbers and what they lack; answers whether nothing is lacking.
fn tell(what: &str, histogram: &Histogram, numbers: &[usize], lack: Option<String>) -> bool {
    let count: u64 = histogram.iter().sum();
    println!("{count} {what} alike; by number:");
    for &number in numbers {
        println!("  {number:2} {:8}", histogram[number]);
    }
    if let Some(lack) = &lack {
        println!("{what} show too little: {lack}");
    }
    lack.is_none()
}

/// The library's stage of a reference, which its check has to accept unless a gate never rises.
fn made_and_checked(reference: &[u8], buffer: &mut [u8]) -> Made {
    let made = library::make_stage(reference, buffer);
    if made.verdict == ACCEPTED {
        let file = &buffer[..made.len];
        let stage = read_stage(file).expect("a stage that is written");
        let expected = accepted_unless_a_gate_never_rises(&stage);
        for order in ORDERS {
            let checked = CHECK(order, file, reference);
            assert_eq!(checked, expected, "a made stage is refused");
        }
    }
    made
}

/// The bytes that a call writes, where it accepts.
fn written(call: Convert, source: &[u8]) -> Option<Vec<u8>> {
    let mut buffer = vec![0; 16_384];
    let made = call(source, &mut buffer);
    buffer.truncate(made.len);
    (made.verdict == ACCEPTED).then_some(buffer)
}

/// The library's stage file of a text. If it can be written, its text gives the same bytes again.
fn read_and_again(text: &[u8], buffer: &mut [u8]) -> Made {
    let made = library::read_text(text, buffer);
    if made.verdict == ACCEPTED {
        let file = &buffer[..made.len];
        if let Some(text) = written(library::write_text, file) {
            let again = written(library::read_text, &text);
            assert_eq!(again.as_deref(), Some(file), "read again");
        }
    }
    made
}

/// The library's text of a stage file, which gives the same stage again, with gates before outputs.
fn written_and_again(file: &[u8], buffer: &mut [u8]) -> Made {
    let made = library::write_text(file, buffer);
    if made.verdict == ACCEPTED {
        let again = written(library::read_text, &buffer[..made.len]);
        let stage = read_stage(file).expect("a stage that is written");
        assert_eq!(again, Some(write_stage(&stage)), "read again");
    }
    made
}

/// The stored pairs with registers.
fn compare_stored_pipelines() -> Result<(), Box<Difference>> {
    let folder = pipelines_folder(&examples_folder());
    let names = stored_examples(&folder).expect("the pairs with registers");
    for name in &names {
        let (pair, _) = load_example(&folder, name).expect("a pair with registers");
        for order in ORDERS {
            compare_pair(CHECK, order, name, &pair)?;
            compare_other_calls(&OTHER_CALLS, order, name, &pair)?;
        }
    }
    println!("{} pairs with registers alike in both orders", names.len());
    Ok(())
}

/// The stored texts and the stages of the stored pairs, into buffers with room, and the stored cases.
fn compare_stored_texts(pairs: &[String]) -> Result<(), Box<Difference>> {
    let folder = examples_folder();
    let case = |source: Vec<u8>| TextCase {
        source,
        buffer: vec![7; 16_384],
    };
    let texts = stored_texts(&folder).expect("the texts");
    for name in &texts {
        let (text, _) = load_text(&folder, name).expect("a text");
        compare_read_text(read_and_again, name, &case(text))?;
    }
    for name in pairs {
        let (pair, _) = load_example(&folder, name).expect("an example");
        compare_write_text(written_and_again, name, &case(pair.stage))?;
    }
    for stored in suite::text::read_cases() {
        compare_read_text(read_and_again, &stored.about, &stored.case)?;
    }
    for stored in suite::text::write_cases() {
        compare_write_text(written_and_again, &stored.about, &stored.case)?;
    }
    println!(
        "{} stored texts and the texts of {} stages alike",
        texts.len(),
        pairs.len()
    );
    Ok(())
}

fn compare(seed: u64, count: u64) -> Result<bool, Box<Difference>> {
    let names = stored_examples(&examples_folder()).expect("the examples");
    for name in &names {
        let (pair, _) = load_example(&examples_folder(), name).expect("an example");
        for order in ORDERS {
            let case = WitnessCase {
                pair: pair.clone(),
                asked: 5,
                list: vec![7; 552],
            };
            compare_pair(CHECK, order, name, &pair)
                .and_then(|_| compare_report(REPORT, order, name, &pair))
                .and_then(|_| compare_witness(WITNESS, order, name, &case))
                .inspect_err(|difference| println!("{difference}"))?;
        }
    }
    println!("{} examples alike in both orders", names.len());
    let joins = suite::join::cases();
    for stored in &joins {
        for order in ORDERS {
            compare_join(JOIN, order, &stored.about, &stored.case)
                .inspect_err(|difference| println!("{difference}"))?;
        }
    }
    println!("{} stored joins alike in both orders", joins.len());
    let references = all_references();
    for (index, reference) in references.iter().enumerate() {
        let case = MakeCase {
            reference: reference.clone(),
            buffer: vec![7; 8192],
        };
        compare_make(
            made_and_checked,
            &format!("stored reference {index}"),
            &case,
        )
        .inspect_err(|difference| println!("{difference}"))?;
    }
    println!("stages of {} stored references alike", references.len());
    compare_stored_texts(&names).inspect_err(|difference| println!("{difference}"))?;
    compare_stored_pipelines().inspect_err(|difference| println!("{difference}"))?;
    // The calls beside one another, each with its own files.
    let all: [(&str, &[usize], Comparison); 14] = [
        ("checks", &CHECK_NUMBERS, &|| {
            compare_checks(CHECK, seed, count)
        }),
        ("reports", &CHECK_NUMBERS, &|| {
            compare_reports(REPORT, seed, count)
        }),
        ("rows", &ROW_NUMBERS, &|| {
            compare_rows(library::settled_row, seed, count)
        }),
        ("joins", &JOIN_NUMBERS, &|| compare_joins(JOIN, seed, count)),
        ("stages from references", &MAKE_NUMBERS, &|| {
            compare_makes(made_and_checked, seed, count)
        }),
        ("calls through the family", &[0, 36, 38], &|| {
            compare_family(library::next_stage)
        }),
        ("next small stages", &NEXT_NUMBERS, &|| {
            compare_nexts(library::next_stage, seed, count)
        }),
        ("loads at the limits", &DRAW_NUMBERS, &|| {
            compare_draws_at_limits(library::draw_reference)
        }),
        ("drawn references", &DRAW_NUMBERS, &|| {
            compare_draws(library::draw_reference, seed, count)
        }),
        ("texts read", &READ_TEXT_NUMBERS, &|| {
            compare_read_texts(read_and_again, seed, count)
        }),
        ("texts written", &WRITE_TEXT_NUMBERS, &|| {
            compare_write_texts(written_and_again, seed, count)
        }),
        ("witnesses", &CHECK_NUMBERS, &|| {
            compare_witnesses(WITNESS, seed, count)
        }),
        ("lists judged", &PLAY_NUMBERS, &|| {
            compare_plays(PLAY, seed, count)
        }),
        ("runs by keys", &PLAY_NUMBERS, &|| {
            compare_runs_by_keys(BY_KEYS, seed, count)
        }),
    ];
    let pipelines: [(&str, &[usize], Lack, Comparison); 2] = [
        (
            "checks with registers",
            &PIPELINE_NUMBERS,
            lack_of_pipelines,
            &|| compare_pipelines(CHECK, seed, count),
        ),
        (
            "pairs with registers by all other calls",
            &[2],
            lack_of_other_calls,
            &|| compare_all_other_calls(&OTHER_CALLS, seed, count / 5),
        ),
    ];
    let (histograms, others) = thread::scope(|scope| {
        let begun = all.map(|(_, _, comparison)| scope.spawn(comparison));
        let others = pipelines.map(|(_, _, _, comparison)| scope.spawn(comparison));
        let joined = begun.map(|thread| thread.join().expect("a comparison"));
        (
            joined,
            others.map(|thread| thread.join().expect("a comparison")),
        )
    });
    let mut enough = true;
    for ((what, numbers, _), histogram) in all.iter().zip(histograms) {
        let histogram = histogram?;
        enough &= tell(what, &histogram, numbers, lack(&histogram, numbers));
    }
    for ((what, numbers, lack, _), histogram) in pipelines.iter().zip(others) {
        let histogram = histogram?;
        enough &= tell(what, &histogram, numbers, lack(&histogram));
    }
    Ok(enough)
}

fn main() -> ExitCode {
    let mut arguments = std::env::args()
        .skip(1)
        .map(|text| text.parse::<u64>().expect("a number"));
    let seed = arguments.next().unwrap_or(20_261_115);
    let count = arguments.next().unwrap_or(50_000);
    println!("the proved library and the judge, seed {seed}");
    match compare(seed, count) {
        Ok(true) => ExitCode::SUCCESS,
        _ => ExitCode::FAILURE,
    }
}
