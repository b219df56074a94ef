//! Every small stage (M-112 of document 02): the judge's family, generated files, and the stored file of
//! the program.

use fovaheju_tests::compare::{
    compare_family, compare_nexts, lack, seed_and_count, Next, NEXT_NUMBERS,
};
use fovaheju_tests::files::{hex, unhex};
use fovaheju_tests::generate::nexts::next_case;
use fovaheju_tests::judge::{read_stage, ACCEPTED};
use fovaheju_tests::make::Made;
use fovaheju_tests::next::{
    member, next_stage, FAMILY, NONE_FURTHER, NOT_IN_THE_FAMILY, TOO_SHORT,
};
use std::collections::{BTreeMap, BTreeSet};

const LAST: &str =
    "01 02 02 02 05 00 05 00 FF FF FF FF 02 02 03 00 03 00 FF FF FF FF 03 05 00 05 00 00";

/// The bytes that are written, or the verdict.
fn written(file: &str) -> Result<String, [u64; 4]> {
    let mut buffer = vec![0; 28];
    let made = next_stage(&unhex(file), &mut buffer);
    buffer.truncate(made.len);
    if made.verdict == ACCEPTED {
        Ok(hex(&buffer))
    } else {
        Err(made.verdict)
    }
}

/// "With one input there are 4 files without gates and 72 with one." The other counts were found by
/// another program.
#[test]
fn counts() {
    let mut counts: BTreeMap<(u8, usize), u64> = BTreeMap::new();
    for file in FAMILY.iter() {
        *counts.entry((file[1], (file.len() - 8) / 10)).or_default() += 1;
    }
    let expected = [4, 72, 3_584, 16, 800, 78_336];
    assert!(counts.values().copied().eq(expected), "{counts:?}");
    let shapes = [(1, 0), (1, 1), (1, 2), (2, 0), (2, 1), (2, 2)];
    assert!(counts.keys().copied().eq(shapes), "{counts:?}");
    assert_eq!(FAMILY.len(), 82_812);
}

/// "Each appears exactly once", in the order of inputs, gates, bytes; every file reads, and is a member by reading.
#[test]
fn each_exactly_once() {
    let files: BTreeSet<&Vec<u8>> = FAMILY.iter().collect();
    assert_eq!(files.len(), FAMILY.len());
    for file in FAMILY.iter() {
        assert!(member(file).is_some(), "{}", hex(file));
    }
    for two in FAMILY.windows(2) {
        let shape = |file: &Vec<u8>| {
            let stage = read_stage(file).unwrap();
            (stage.inputs, stage.gates.len())
        };
        let (first, second) = (&two[0], &two[1]);
        assert!((shape(first), first) < (shape(second), second));
    }
}

/// Files written by hand from the paper.
#[test]
fn bytes_by_hand() {
    let unused = "FF FF FF FF";
    // The first file, and the second: rail 1 of the output counts fastest.
    assert_eq!(written(""), Ok("01 01 03 00 00 00 00 00".into()));
    assert_eq!(
        written("01 01 03 00 00 00 00 00"),
        Ok("01 01 03 00 00 01 00 00".into())
    );
    assert_eq!(
        written("01 01 03 00 00 01 00 00"),
        Ok("01 01 03 01 00 00 00 00".into())
    );
    // After the last without a gate, the first with one; an output may be on net 2, the gate's.
    assert_eq!(
        written("01 01 03 01 00 01 00 00"),
        Ok(format!(
            "01 01 02 01 00 00 00 00 {unused} 03 00 00 00 00 00"
        ))
    );
    assert_eq!(
        written(&format!(
            "01 01 02 01 00 00 00 00 {unused} 03 00 00 01 00 00"
        )),
        Ok(format!(
            "01 01 02 01 00 00 00 00 {unused} 03 00 00 02 00 00"
        ))
    );
    // Pin B on net 2 is a loop and is passed over: after TH12(0, 1) comes TH12(1, 0).
    assert_eq!(
        written(&format!(
            "01 01 02 01 00 00 01 00 {unused} 03 02 00 02 00 00"
        )),
        Ok(format!(
            "01 01 02 01 01 00 00 00 {unused} 03 00 00 00 00 00"
        ))
    );
    // After TH12(1, 1), the first with TH22.
    assert_eq!(
        written(&format!(
            "01 01 02 01 01 00 01 00 {unused} 03 02 00 02 00 00"
        )),
        Ok(format!(
            "01 01 02 02 00 00 00 00 {unused} 03 00 00 00 00 00"
        ))
    );
    // Two gates: the last with one gate is followed by the first with two, and a pin may name the later gate.
    assert_eq!(
        written(&format!(
            "01 01 02 02 01 00 01 00 {unused} 03 02 00 02 00 00"
        )),
        Ok(format!(
            "01 01 02 01 00 00 00 00 {unused} 02 01 00 00 00 00 {unused} 03 00 00 00 00 00"
        ))
    );
    let gate = |a: u8, b: u8| format!("02 02 {a:02X} 00 {b:02X} 00 {unused}");
    assert!(member(&unhex(&format!(
        "01 01 {} {} 03 00 00 00 00 00",
        gate(3, 3),
        gate(0, 1)
    )))
    .is_some());
    assert!(member(&unhex(&format!(
        "01 01 {} {} 03 00 00 00 00 00",
        gate(3, 3),
        gate(2, 1)
    )))
    .is_none());
    // The last with one input, the first with two, and the last of all.
    assert_eq!(
        written(&format!(
            "01 01 {} {} 03 03 00 03 00 00",
            gate(3, 3),
            gate(1, 1)
        )),
        Ok("01 02 03 00 00 00 00 00".into())
    );
    assert_eq!(hex(FAMILY.last().unwrap()), LAST);
    assert_eq!(written(LAST), Err(NONE_FURTHER));
    // The whole case of document 01 has a gate of kind 26; the others do not read.
    for file in [
        "01 02 02 02 01 00 03 00 FF FF FF FF 02 1A 00 00 02 00 01 00 03 00 03 05 00 04 00 00",
        "01 01 03 00 00 02 00 00",
        "01 01 03 00 00 01 00 00 00",
        "00",
        "01 01 04 00 00 01 00 FE FF 03 02 00 03 00 00",
    ] {
        assert_eq!(written(file), Err(NOT_IN_THE_FAMILY), "{file}");
    }
}

/// "37 first, then 36": in an empty buffer a file outside is 37, the last 36, every other 38.
#[test]
fn empty_buffers() {
    let verdict = |file: &str| next_stage(&unhex(file), &mut []).verdict;
    assert_eq!(verdict("01"), NOT_IN_THE_FAMILY);
    assert_eq!(verdict(LAST), NONE_FURTHER);
    assert_eq!(verdict(""), TOO_SHORT);
    assert_eq!(verdict("01 01 03 00 00 00 00 00"), TOO_SHORT);
}

/// A file is a member by reading exactly if it stands in the list; a refusal leaves the buffer as it is.
#[test]
fn generated_files() {
    let (seed, count) = seed_and_count(20_000);
    let mut histogram: BTreeMap<u64, u64> = BTreeMap::new();
    let list: BTreeSet<&Vec<u8>> = FAMILY.iter().collect();
    for index in 0..count {
        let generated = next_case(seed, index);
        let case = generated.case;
        let mut buffer = case.buffer.clone();
        let Made { verdict, len } = next_stage(&case.stage, &mut buffer);
        let about = format!(
            "file {index} of seed {seed} ({}), {}",
            generated.family,
            hex(&case.stage)
        );
        let known = generated.known;
        assert!(known.agrees(verdict), "{about}: {known:?}, {verdict:?}");
        *histogram.entry(verdict[0]).or_default() += 1;
        assert_eq!(buffer[len..], case.buffer[len..], "{about}");
        assert_eq!(len == 0, verdict != ACCEPTED, "{about}");
        let listed = list.contains(&case.stage);
        assert_eq!(listed, member(&case.stage).is_some(), "{about}");
        let outside = !listed && !case.stage.is_empty();
        assert_eq!(outside, verdict == NOT_IN_THE_FAMILY, "{about}");
    }
    println!("{count} files of seed {seed}: {histogram:?}");
}

/// Of the comparison itself: the judge agrees with itself, and the files have all numbers.
#[test]
fn the_judge_agrees_with_itself() {
    let histogram = compare_nexts(next_stage, 11, 4_000).unwrap();
    assert_eq!(lack(&histogram, &NEXT_NUMBERS), None);
    let walk = compare_family(next_stage).unwrap();
    assert_eq!((walk[0], walk[38], walk[36]), (2 * 82_812, 82_812, 3));
}

/// The judge's answer, refused with another number where it has one.
fn renumbered(file: &[u8], buffer: &mut [u8], from: u64, to: u64) -> Made {
    let mut made = next_stage(file, buffer);
    if made.verdict[0] == from {
        made.verdict[0] = to;
    }
    made
}

/// Calls that are wrong in one way each are told from the judge's.
#[test]
fn wrong_calls_are_told() {
    let wrong: [(&str, Next); 6] = [
        ("36 for 37", |file, buffer| renumbered(file, buffer, 37, 36)),
        ("38 before 36", |file, buffer| {
            let short = buffer.len() < 28;
            let made = next_stage(file, buffer);
            match made.verdict {
                NONE_FURTHER if short => Made {
                    verdict: TOO_SHORT,
                    len: 0,
                },
                _ => made,
            }
        }),
        ("any file that reads", |file, buffer| {
            let made = next_stage(file, buffer);
            match read_stage(file) {
                Ok(_) if made.verdict == NOT_IN_THE_FAMILY => next_stage(&[], buffer),
                _ => made,
            }
        }),
        ("the file itself again", |file, buffer| {
            if member(file).is_some() && file.len() <= buffer.len() {
                buffer[..file.len()].copy_from_slice(file);
                return Made {
                    verdict: ACCEPTED,
                    len: file.len(),
                };
            }
            next_stage(file, buffer)
        }),
        ("28 bytes asked for", |file, buffer| {
            let made = next_stage(file, &mut buffer.to_vec());
            if made.verdict == ACCEPTED && buffer.len() < 28 {
                return Made {
                    verdict: TOO_SHORT,
                    len: 0,
                };
            }
            next_stage(file, buffer)
        }),
        ("a byte past the end", |file, buffer| {
            let made = next_stage(file, buffer);
            if made.verdict == ACCEPTED && buffer.len() > made.len {
                buffer[made.len] ^= 1;
            }
            made
        }),
    ];
    for (about, next_stage) in wrong {
        assert!(compare_nexts(next_stage, 112, 4_000).is_err(), "{about}");
    }
}
