//! The line form (M-109 of document 02): the judge on the points that the papers fix, the generated
//! texts and stage files, the round trip of the stored stages, and the stored cases.

use fovaheju_tests::catalogue::MARKED;
use fovaheju_tests::compare::{
    compare_read_texts, compare_write_texts, lack, seed_and_count, Convert, READ_TEXT_NUMBERS,
    WRITE_TEXT_NUMBERS,
};
use fovaheju_tests::files::{
    examples_folder, hex, load_example, stage_gate, stored_examples, unhex, write_stage,
};
use fovaheju_tests::generate::texts::{read_case, write_case, GeneratedText};
use fovaheju_tests::judge::{pin_count, read_stage, Gate, Stage, Verdict, ACCEPTED, KINDS, LIMITS};
use fovaheju_tests::make::Made;
use fovaheju_tests::suite::text::{
    many, read_cases, write_cases, Case, AGAIN, OTHER_FORM, UNDRIVEN,
};
use fovaheju_tests::text::{file_of_text, kind_name, read_text, text_of_file, write_text};
use std::collections::{BTreeMap, BTreeSet};

/// The verdict on reading a text.
fn verdict(text: &str) -> Verdict {
    file_of_text(text.as_bytes()).map_or_else(|verdict| verdict, |_| ACCEPTED)
}

/// The text of a stage file that is spelt in hexadecimal digits, or the verdict.
fn text_of(file: &str) -> Result<String, Verdict> {
    text_of_file(&unhex(file)).map(|text| String::from_utf8(text).unwrap())
}

/// Cases 1 and 6 of document 01 as text.
#[test]
fn marked_cases() {
    let whole = "x0,x1\ny0\nTH22 x0_1,x1_1 y0_1\nTHand0 x0_0,x1_0,x0_1,x1_1 y0_0\n";
    let incomplete = "x0,x1\ny0\nTH12 x0_0,x1_0 y0_0\nTH22 x0_1,x1_1 y0_1\n";
    for (case, text) in [(0, whole), (5, incomplete)] {
        let stage = MARKED[case].1;
        assert_eq!(text_of(stage).unwrap(), text);
        assert_eq!(file_of_text(text.as_bytes()), Ok(unhex(stage)));
    }
    // The wire, by any name, and the same with its name swapped: 31.
    assert_eq!(text_of(MARKED[1].1).unwrap(), "x0\nx0\n");
    assert_eq!(file_of_text(b"_\n_\n"), Ok(unhex(MARKED[1].1)));
    assert_eq!(text_of(MARKED[2].1), Err([31, 1, 0, 0]));
    assert_eq!(text_of(MARKED[4].1), Err([31, 1, 0, 0]));
    assert_eq!(text_of(MARKED[9].1), Err([1, 1, 0, 0]));
    assert_eq!(text_of(MARKED[11].1), Err([3, 1, 1, 0]));
    // A gate on its own net: loops convert both ways.
    let looped = "x0\nx0\nTH12 g0,x0_0 g0\n";
    assert_eq!(text_of(MARKED[8].1).unwrap(), looped);
    assert_eq!(file_of_text(looped.as_bytes()), Ok(unhex(MARKED[8].1)));
}

/// 29, 30 and 31 at the lines that are written by hand beside the texts.
#[test]
fn lines_by_hand() {
    for (number, texts) in [(29, &OTHER_FORM[..]), (30, &UNDRIVEN), (31, &AGAIN)] {
        for &(text, line) in texts {
            assert_eq!(verdict(text), [number, 1, line, 0], "{text:?}");
        }
    }
}

/// Names of 16 and 17 characters, pins and nets of 18 and 19.
#[test]
fn lengths_of_names() {
    let n16 = "abcdefghijklmnop";
    let n17 = "abcdefghijklmnopq";
    assert_eq!(verdict(&format!("{n16}\n{n16}\n")), ACCEPTED);
    assert_eq!(verdict(&format!("{n17}\n{n17}\n")), [29, 1, 0, 0]);
    assert_eq!(verdict(&format!("a\n{n17}\n")), [29, 1, 1, 0]);
    let (n18, n19) = (format!("{n16}rs"), format!("{n16}rst"));
    let gates = |net: &str| format!("a\na\nTH12 a_0,a_1 {net}\nTH12 {net},a_1 g\n");
    assert_eq!(verdict(&gates(&n18)), ACCEPTED);
    assert_eq!(verdict(&gates(n17)), ACCEPTED);
    assert_eq!(verdict(&gates(&n19)), [29, 1, 2, 0]);
    let pin = format!("a\na\nTH12 a_0,a_1 g\nTH12 {n19},a_1 h\n");
    assert_eq!(verdict(&pin), [29, 1, 3, 0]);
    // The rails of a name of 16 characters are pins of 18.
    let rails = format!("{n16}\n{n16}\nTH12 {n16}_0,{n16}_1 g\n");
    assert_eq!(verdict(&rails), ACCEPTED);
    // An output of 17 characters has no rails, even where a gate drives their first 18.
    let cut = format!("a\n{n17}\nTH12 a_0,a_1 {n17}_\n");
    assert_eq!(verdict(&cut), [29, 1, 1, 0]);
}

/// Names are bytes: case counts, and a digit or an underscore may stand first.
#[test]
fn names_of_all_characters() {
    let text = "0,_,A,a,Z9_\nA,a\nTH33 0_0,__1,Z9__1 7\nTH12 7,a_1 _7\nTH12 _7,A_0 __\n";
    assert_eq!(verdict(text), ACCEPTED);
    assert_eq!(verdict("A\na\n"), [30, 1, 1, 0]);
    assert_eq!(verdict("a\na\nTH12 a_0,A_1 g\n"), [30, 1, 2, 0]);
}

/// What is driven, and what may come again: texts that read.
#[test]
fn driven_names() {
    let pair = "TH12 a_0,a_1 b_0\nTH22 a_0,a_1 b_1\n";
    let later = "TH12 h,a_1 b_0\nTH12 b_0,a_1 b_1\nTH22 b_1,a_0 h\n";
    for text in [
        // An input a drives a_0 and a_1 only; an output drives nothing, and may come again.
        "a\na\nTH12 a_0,a_1 a\n",
        "a\na,a,a\n",
        "a,a_0\na,a_0\nTH12 a_0,a_0_1 a_0_0_0\n",
        &format!("a\nb,b\n{pair}"),
        // Pins may name later gates.
        &format!("a\nb\n{later}"),
    ] {
        assert_eq!(verdict(text), ACCEPTED, "{text:?}");
    }
}

/// 3, 6 and 5: the numbers of the file that is made.
#[test]
fn numbers_of_the_file() {
    assert_eq!(verdict(&many(10, 256, 16)), ACCEPTED);
    assert_eq!(verdict(&many(11, 0, 1)), [3, 1, 1, 0]);
    assert_eq!(verdict(&many(300, 300, 300)), [3, 1, 1, 0]);
    assert_eq!(verdict(&many(10, 257, 1)), [6, 1, 2562, 0]);
    assert_eq!(verdict(&many(1, 300, 17)), [6, 1, 2562, 0]);
    assert_eq!(verdict(&many(1, 0, 17)), [6, 1, 82, 0]);
    assert_eq!(verdict(&many(1, 3, 17)), [6, 1, 112, 0]);
    assert_eq!(verdict(&many(1, 256, 5_000)), [6, 1, 2642, 0]);
    // 6 for the 257th gate comes before an earlier gate's 5, a 17th output's after it.
    let many = many(1, 257, 1).replacen("i0_0,i0_1 g0", "i0_0 g0", 1);
    assert_eq!(verdict(&many), [6, 1, 2562, 0]);
    let outputs = format!("a\n{}\nTH12 a_0 g\n", vec!["a"; 17].join(","));
    assert_eq!(verdict(&outputs), [5, 1, 6, 0]);
}

/// Every kind by its name, with hold and relaxed, both ways.
#[test]
fn all_kinds() {
    for kind in (1..=27).chain(129..=155) {
        let name = kind_name(kind);
        assert_eq!(name.trim_start_matches('r'), KINDS[(kind - 1) % 128].0);
        assert_eq!(name.starts_with('r'), kind > 128);
        let pins = pin_count(kind);
        let spelt = ["x0_0", "x0_1", "x1_0", "x1_1"][..pins].join(",");
        let text = format!("x0,x1\nx0,x1\n{name} {spelt} g0\n");
        let gate = Gate {
            kind,
            pins: (0..pins).collect(),
        };
        let file = file_of_text(text.as_bytes()).unwrap();
        assert_eq!(file[2..12], stage_gate(&gate));
        assert_eq!(text_of_file(&file).unwrap(), text.as_bytes());
    }
}

/// The buffer: written from the start, kept past the end, untouched by refusals; 24 comes last.
#[test]
fn buffers() {
    let text: &[u8] = b"a\na\n";
    let wire = unhex("01 01 03 00 00 01 00 00");
    for (call, source, written) in [
        (read_text as Convert, text, &wire[..]),
        (write_text, &wire[..], b"x0\nx0\n"),
    ] {
        let n = written.len();
        for room in [n, n + 1, n + 5] {
            let mut buffer = vec![7; room];
            let made = call(source, &mut buffer);
            assert_eq!((made.verdict, made.len), (ACCEPTED, n));
            assert_eq!(buffer[..n], *written);
            assert!(buffer[n..].iter().all(|&byte| byte == 7));
        }
        for room in [0, n - 1] {
            let mut buffer = vec![7; room];
            let made = call(source, &mut buffer);
            assert_eq!((made.verdict, made.len), ([24, 3, 0, 0], 0));
            assert!(buffer.iter().all(|&byte| byte == 7));
        }
    }
    // Every other refusal comes before 24.
    assert_eq!(read_text(b"", &mut []).verdict, [29, 1, 0, 0]);
    assert_eq!(read_text(b"a\nb\n", &mut []).verdict, [30, 1, 1, 0]);
    assert_eq!(read_text(b"a,a\na\n", &mut []).verdict, [31, 1, 0, 0]);
    assert_eq!(
        read_text(b"a\na\nTH12 a_0 g\n", &mut []).verdict,
        [5, 1, 6, 0]
    );
    assert_eq!(write_text(&[], &mut []).verdict, [1, 1, 0, 0]);
}

/// The judge's verdicts on the stored cases are those written by hand, and every number has cases.
#[test]
fn stored_cases() {
    let calls: [(Convert, Vec<Case>, &[usize]); 2] = [
        (read_text, read_cases(), &READ_TEXT_NUMBERS),
        (write_text, write_cases(), &WRITE_TEXT_NUMBERS),
    ];
    for (call, cases, numbers) in calls {
        let mut seen = BTreeSet::new();
        for case in cases {
            let mut buffer = case.case.buffer.clone();
            let Made { verdict, len } = call(&case.case.source, &mut buffer);
            let (about, known) = (&case.about, case.known);
            assert!(known.agrees(verdict), "{about}: {verdict:?}, not {known:?}");
            if let Some(written) = case.written {
                assert_eq!(buffer[..len], written, "{about}");
            }
            seen.insert(verdict[0] as usize);
        }
        assert_eq!(seen, numbers.iter().copied().collect());
    }
}

/// The longest text that is written has 10,012 bytes, the longest file that is made 2,643, and the
/// longest text that is read 27,322.
#[test]
fn lengths() {
    // Pins on outputs 10 to 15, whose rails have the longest names; the rails of outputs are the
    // gates with the shortest names.
    let mut stage = Stage {
        inputs: 10,
        ..Stage::default()
    };
    for j in 0..16 {
        stage.outputs.push([20 + 2 * j, 20 + 2 * j + 1]);
    }
    for _ in 0..LIMITS.stage_gates {
        stage.gates.push(Gate {
            kind: 128 + 24,
            pins: vec![20 + 20; 4],
        });
    }
    let file = write_stage(&stage);
    let text = text_of_file(&file).unwrap();
    assert_eq!((file.len(), text.len()), (2_643, 10_012));
    assert_eq!(file_of_text(&text), Ok(file));

    let name = |letter: char, k: usize| format!("{letter}{k:015}");
    let names = |letter: char, count: usize| -> Vec<String> {
        (0..count).map(|k| name(letter, k)).collect()
    };
    let rail = format!("{}_0", name('i', 0));
    let gates: String = (0..256)
        .map(|k| {
            let net = format!("{}_{}", name('o', k / 2), k % 2);
            format!("rTH54w322 {rail},{rail},{rail},{rail} {net}\n")
        })
        .collect();
    let lines = [names('i', 10).join(","), names('o', 16).join(","), gates];
    let text = lines.join("\n");
    assert_eq!(text.len(), 27_322);
    assert_eq!(file_of_text(text.as_bytes()).unwrap().len(), 2_643);
}

/// "Gates before outputs" in a readable stage file.
fn gates_first(file: &[u8]) -> bool {
    let stage = read_stage(file).unwrap();
    write_stage(&stage) == file
}

/// "A stage file that can be written, with gates before outputs, gives its own bytes when its text is
/// read again."
#[test]
fn round_trip_of_the_stored_stages() {
    let folder = examples_folder();
    let mut counts: BTreeMap<u64, u64> = BTreeMap::new();
    for name in stored_examples(&folder).unwrap() {
        let (pair, _) = load_example(&folder, &name).unwrap();
        let written = text_of_file(&pair.stage);
        let number = written.as_ref().map_or_else(|verdict| verdict[0], |_| 0);
        *counts.entry(number).or_default() += 1;
        let Ok(text) = written else { continue };
        let again = file_of_text(&text).unwrap();
        if gates_first(&pair.stage) {
            assert_eq!(again, pair.stage, "{name}");
        }
        assert_eq!(read_stage(&again), read_stage(&pair.stage), "{name}");
        // A text that reads gives a file that reads, with gates before outputs.
        assert!(gates_first(&again), "{name}");
        assert_eq!(text_of_file(&again).unwrap(), text, "{name}");
    }
    println!("stored stages by number: {counts:?}");
    for number in [0, 29, 31] {
        assert!(counts.contains_key(&number), "{number}");
    }
    assert!(counts[&0] >= 70, "{counts:?}");
}

/// A generated case: the verdict and the bytes are those known, nothing else is touched. Answers the
/// verdict and what was written.
fn tried(call: Convert, generated: &GeneratedText, about: &str) -> (Verdict, Vec<u8>) {
    let case = &generated.case;
    let mut buffer = case.buffer.clone();
    let Made { verdict, len } = call(&case.source, &mut buffer);
    let source = case.source.escape_ascii();
    let known = generated.known;
    assert!(
        known.agrees(verdict),
        "{about}: known {known:?}, judged {verdict:?}: {source}"
    );
    assert_eq!(buffer[len..], case.buffer[len..], "{about}");
    assert!(verdict == ACCEPTED || len == 0, "{about}");
    buffer.truncate(len);
    if let Some(written) = &generated.written {
        assert_eq!(buffer, *written, "{about}: {source}");
    }
    (verdict, buffer)
}

fn often(counts: &BTreeMap<u64, u64>, numbers: &[usize], least: u64) {
    for &number in numbers {
        let count = counts.get(&(number as u64)).copied().unwrap_or(0);
        assert!(count >= least, "{number}: {counts:?}");
    }
}

#[test]
fn generated_texts() {
    let (seed, count) = seed_and_count(6_000);
    let mut counts: BTreeMap<u64, u64> = BTreeMap::new();
    let (mut again, mut longest) = (0, 0);
    for index in 0..count {
        let generated = read_case(seed, index);
        let about = format!("text {index} of seed {seed} ({})", generated.family);
        let (verdict, file) = tried(read_text, &generated, &about);
        *counts.entry(verdict[0]).or_default() += 1;
        if verdict != ACCEPTED {
            continue;
        }
        longest = longest.max(generated.case.source.len());
        assert!(gates_first(&file), "{about}: {}", hex(&file));
        // What can be written gives its own bytes again.
        if let Ok(text) = text_of_file(&file) {
            assert_eq!(file_of_text(&text), Ok(file), "{about}");
            again += 1;
        }
    }
    println!("{count} texts of seed {seed}: {counts:?}, {again} written again, longest {longest}");
    if count >= 6_000 {
        often(&counts, &READ_TEXT_NUMBERS, 40);
        assert!(3 * counts[&0] >= count, "a good part is accepted");
        assert!(again >= 1_000, "{again}");
        assert!(longest > 20_000, "{longest}");
    }
}

#[test]
fn generated_stage_files() {
    let (seed, count) = seed_and_count(6_000);
    let mut counts: BTreeMap<u64, u64> = BTreeMap::new();
    let (mut kept, mut longest) = (0, 0);
    for index in 0..count {
        let generated = write_case(seed, index);
        let about = format!("stage {index} of seed {seed} ({})", generated.family);
        let (verdict, text) = tried(write_text, &generated, &about);
        *counts.entry(verdict[0]).or_default() += 1;
        if verdict != ACCEPTED {
            continue;
        }
        longest = longest.max(text.len());
        let file = &generated.case.source;
        let again = file_of_text(&text).unwrap();
        assert_eq!(read_stage(&again), read_stage(file), "{about}");
        if gates_first(file) {
            assert_eq!(again, *file, "{about}");
            kept += 1;
        }
    }
    println!("{count} stage files of seed {seed}: {counts:?}, {kept} kept, longest {longest}");
    if count >= 6_000 {
        often(&counts, &WRITE_TEXT_NUMBERS, 15);
        assert!(3 * counts[&0] >= count, "a good part is accepted");
        assert!(kept >= 1_000, "{kept}");
        assert!(longest > 9_000, "{longest}");
    }
}

/// Of the comparison itself: the judge agrees with itself, the cases have all numbers, and a call that
/// is wrong in one way is found out.
#[test]
fn the_comparison() {
    let reads = compare_read_texts(read_text, 11, 4_000).unwrap();
    assert_eq!(lack(&reads, &READ_TEXT_NUMBERS), None);
    let writes = compare_write_texts(write_text, 11, 4_000).unwrap();
    assert_eq!(lack(&writes, &WRITE_TEXT_NUMBERS), None);
    // Carriage returns are taken for nothing.
    let lenient: Convert = |text, buffer| {
        let kept: Vec<u8> = text.iter().copied().filter(|&byte| byte != b'\r').collect();
        read_text(&kept, buffer)
    };
    // A text without its last newline is taken.
    let unfinished: Convert = |text, buffer| match text.last() {
        Some(b'\n') | None => read_text(text, buffer),
        _ => read_text(&[text, b"\n"].concat(), buffer),
    };
    // Rails exchanged.
    let turned: Convert = |text, buffer| {
        let made = read_text(text, buffer);
        if made.len > 5 {
            buffer.swap(made.len - 5, made.len - 3);
        }
        made
    };
    for wrong in [lenient, unfinished, turned] {
        assert!(compare_read_texts(wrong, 11, 2_000).is_err());
    }
    // Another letter for gates.
    let lettered: Convert = |file, buffer| {
        let made = write_text(file, buffer);
        for byte in &mut buffer[..made.len] {
            if *byte == b'g' {
                *byte = b'h';
            }
        }
        made
    };
    // The input's name for a swapped pair.
    let swapped: Convert = |file, buffer| match write_text(file, buffer) {
        Made {
            verdict: [31, ..], ..
        } => {
            let mut stage = read_stage(file).unwrap();
            for rails in &mut stage.outputs {
                if rails[1] < 2 * stage.inputs && rails[0] == rails[1] + 1 {
                    rails.swap(0, 1);
                }
            }
            write_text(&write_stage(&stage), buffer)
        }
        made => made,
    };
    for wrong in [lettered, swapped] {
        assert!(compare_write_texts(wrong, 11, 2_000).is_err());
    }
}
