//! Registers and completion (document 02, M-111): the worked examples, the stored pairs, the generated
//! pipelines, what every other call answers, and programs that read the rule otherwise.
//!
//! FOVAHEJU_SEED and FOVAHEJU_COUNT name another seed and count.

use fovaheju_tests::catalogue::pipelines::{listing, multiplier_pipeline, pipelines};
use fovaheju_tests::compare::{judged_counts, seed_and_count, CheckInOrder};
use fovaheju_tests::compare_pipelines::{
    compare_all_other_calls, compare_pipelines, lack_of_other_calls, lack_of_pipelines, OtherCalls,
};
use fovaheju_tests::files::{
    examples_folder, hex, load_example, pipelines_folder, stored_examples, unhex, write_pipeline,
    write_stage, FilePair,
};
use fovaheju_tests::generate::pair;
use fovaheju_tests::generate::pipelines::pipeline_pair;
use fovaheju_tests::join::{join, join_in_order};
use fovaheju_tests::judge::{
    check_in_order, check_pipeline, read_pipeline, read_stage, report, settled_row, Part, Pipeline,
    Verdict, WordOrder, ACCEPTED, LIMITS, ORDERS, OUTSIDE,
};
use fovaheju_tests::next::next_stage;
use fovaheju_tests::run::{play, run_by_keys, witness};
use fovaheju_tests::suite::verdict_in;
use fovaheju_tests::text::write_text;
use fovaheju_tests::wiring::{Behind, Source, Wiring};
use std::collections::{BTreeMap, BTreeSet};

const WIRE: &str = "01 01 12 00 00 00";

/// The check in the files' order of words.
fn check(stage: &[u8], reference: &[u8]) -> Verdict {
    check_pipeline(WordOrder::Input0Lowest, stage, reference)
}

/// Registers (rail 0, rail 1, Ki) of a stage with one input, no gates and one output.
fn registers(list: &[[usize; 3]], output: [usize; 2]) -> Vec<u8> {
    let register = |&[rail_0, rail_1, ki]: &[usize; 3]| Part::Register {
        data: [rail_0, rail_1],
        ki,
    };
    let mut pipeline = Pipeline::default();
    pipeline.raw.inputs = 1;
    pipeline.raw.outputs = vec![output];
    pipeline.parts = list.iter().map(register).collect();
    write_pipeline(&pipeline)
}

#[test]
fn worked_examples() {
    let wire = unhex(WIRE);
    // Levels by the highest source, upstream too.
    let stage = registers(&[[5, 9, OUTSIDE], [0, 9, 4], [0, 1, 7]], [2, 3]);
    assert_eq!(check(&stage, &wire), [33, 1, 0, 0]);
    // 34 at a later register before 35 at an earlier one.
    let stage = registers(&[[0, 1, 0], [0, 1, OUTSIDE], [5, 6, OUTSIDE]], [8, 9]);
    assert_eq!(check(&stage, &wire), [34, 1, 1, 0]);
    // A register that reaches none and has a Ko of the next level.
    let stage = registers(&[[0, 1, 7], [2, 3, OUTSIDE], [0, 1, 7]], [5, 6]);
    assert_eq!(check(&stage, &wire), [35, 1, 2, 0]);
    for (about, stage, verdict) in [
        (
            "an input rail beside the Ko that is needed",
            "01 01 04 00 00 01 00 08 00 04 02 00 03 00 FE FF 05 07 00 00 00 FF FF FF FF 03 05 00 06 00 00",
            [35, 1, 0, 0],
        ),
        (
            "a gate on a rail of the register that it feeds, which is no loop of gates",
            "01 01 02 01 03 00 00 00 FF FF FF FF 04 02 00 01 00 FE FF 03 03 00 04 00 00",
            [33, 1, 0, 0],
        ),
        (
            "a gate on one rail of a register",
            "01 01 02 01 03 00 03 00 FF FF FF FF 04 00 00 01 00 FE FF 03 02 00 04 00 00",
            ACCEPTED,
        ),
        (
            "the net of a C-element as data",
            "01 01 04 00 00 05 00 FE FF 05 04 00 04 00 FF FF FF FF 03 02 00 03 00 00",
            [9, 1, 5, 0],
        ),
        (
            "two C-elements, the second on the first",
            "01 01 04 00 00 01 00 09 00 04 02 00 03 00 FE FF 05 07 00 07 00 FF FF FF FF \
             05 08 00 07 00 FF FF FF FF 03 05 00 06 00 00",
            ACCEPTED,
        ),
    ] {
        assert_eq!(check(&unhex(stage), &wire), verdict, "{about}");
    }
}

#[test]
fn places_in_a_file() {
    let wire = unhex(WIRE);
    for (about, stage, verdict) in [
        ("a register cut", "01 01 04", [1, 1, 3, 0]),
        (
            "a C-element cut",
            "01 01 05 00 00 00 00 FF FF FF",
            [1, 1, 10, 0],
        ),
        ("04 first", "04", [2, 1, 0, 0]),
        (
            "pin A unused",
            "01 01 05 FF FF FF FF FF FF 00 00",
            [5, 1, 3, 0],
        ),
        (
            "pin B unused, and D without C",
            "01 01 05 00 00 FF FF FF FF 00 00",
            [5, 1, 5, 0],
        ),
        (
            "D is FFFE without C",
            "01 01 05 00 00 00 00 FF FF FE FF",
            [5, 1, 9, 0],
        ),
        (
            "C is FFFE",
            "01 01 05 00 00 00 00 FE FF FF FF 03 00 00 01 00 00",
            [9, 1, 7, 0],
        ),
        (
            "a Ki that is FFFF",
            "01 01 04 00 00 01 00 FF FF 03 00 00 01 00 00",
            [9, 1, 7, 0],
        ),
        (
            "an unneeded pin of a gate that is FFFE",
            "01 01 02 01 00 00 01 00 FE FF FF FF 03 00 00 01 00 00",
            [5, 1, 8, 0],
        ),
        (
            "a needed pin of a gate that is FFFE",
            "01 01 02 01 00 00 FE FF FF FF FF FF 03 00 00 01 00 00",
            [9, 1, 6, 0],
        ),
        (
            "an output before the register that it names",
            "01 01 03 02 00 03 00 04 00 00 01 00 FE FF 00",
            ACCEPTED,
        ),
        (
            "an output on a Ko, before a Ki on a net that is not there",
            "01 01 03 02 00 04 00 04 00 00 01 00 05 00 00",
            [9, 1, 5, 0],
        ),
    ] {
        assert_eq!(check(&unhex(stage), &wire), verdict, "{about}");
    }
    // Nets of registers and C-elements follow all gates, also those behind them in the file.
    let stage = unhex("01 01 04 02 00 01 00 FE FF 02 01 00 00 00 00 FF FF FF FF 03 03 00 04 00 00");
    assert_eq!(check(&stage, &wire), ACCEPTED);
    // The 65th is refused by 6, and where it is cut by 1, which comes first.
    for (command, width) in [
        ("04 00 00 01 00 FE FF", 7),
        ("05 00 00 00 00 FF FF FF FF", 9),
    ] {
        let most = unhex(&format!("01 01 {}", [command; 65].join(" ")));
        let at = 2 + 64 * width;
        assert_eq!(check(&most, &wire), [6, 1, at as u64, 0]);
        for length in at + 1..at + width {
            assert_eq!(check(&most[..length], &wire), [1, 1, length as u64, 0]);
        }
    }
    // In a reference 04 and 05 are no commands.
    for command in ["04", "05"] {
        let reference = unhex(&format!("01 01 {command}"));
        let stage = registers(&[[0, 1, OUTSIDE]], [2, 3]);
        assert_eq!(check(&stage, &reference), [2, 2, 2, 0]);
    }
}

/// The longest file that can be read.
#[test]
fn longest_file() {
    let mut pipeline = multiplier_pipeline();
    let gate = pipeline.raw.gates[0].clone();
    pipeline.raw.gates.resize(256, gate);
    let register = Part::Register {
        data: [0, 1],
        ki: OUTSIDE,
    };
    pipeline.parts = vec![register; 64];
    let element = Part::Element { pins: vec![0; 4] };
    pipeline.parts.extend(vec![element; 64]);
    pipeline.raw.outputs = vec![[0, 1]; 16];
    pipeline.raw.inputs = 10;
    pipeline.raw.care = (0..1024).collect();
    let file = write_pipeline(&pipeline);
    assert_eq!(file.len(), 6_739);
    assert!(read_pipeline(&file).is_ok());
}

#[test]
fn stored_pairs() {
    let folder = pipelines_folder(&examples_folder());
    let mut described = Vec::new();
    let mut numbers = BTreeSet::new();
    for example in pipelines() {
        let name = &example.name;
        let (pair, verdicts) = load_example(&folder, name).unwrap_or_else(|error| {
            panic!("{name}: {error}; the program write_examples stores it")
        });
        assert_eq!(pair, example.pair, "{name}");
        let judged = ORDERS.map(|order| verdict_in(order, &pair));
        assert_eq!(judged, verdicts, "{name}");
        assert_eq!(verdicts[0][0], example.number, "{name}");
        numbers.insert(example.number);
        described.push(example.name);
    }
    described.sort();
    assert_eq!(stored_examples(&folder).unwrap(), described);
    let all = [0, 1, 5, 6, 9, 12, 13, 14, 15, 20, 21, 28, 32, 33, 34, 35];
    assert_eq!(numbers, BTreeSet::from(all));
    let list = std::fs::read_to_string(examples_folder().join("PIPELINES.md")).unwrap();
    assert_eq!(list, listing(), "examples/PIPELINES.md");
}

/// The multiplier of source document 001: 42 gates, twenty registers of three levels, eight C-elements.
#[test]
fn multiplier_of_the_source() {
    let pipeline = multiplier_pipeline();
    let wiring = Wiring::of(&pipeline);
    assert_eq!(wiring.registers.len(), 20);
    assert_eq!(wiring.elements.len(), 8);
    assert_eq!(wiring.levels[..6], [1; 6]);
    assert_eq!(wiring.levels[6..14], [2; 8]);
    assert_eq!(wiring.levels[14..], [3; 6]);
    assert_eq!(wiring.behind(0), (6..14).map(Behind::Ko).collect());
    assert_eq!(wiring.behind(13), [18, 19].map(Behind::Ko).into());
    assert_eq!(wiring.behind(19), BTreeSet::from([Behind::Outside]));
    let source = fovaheju_tests::catalogue::multiplier_of_the_source();
    assert_eq!(wiring.wired(), source);
}

#[test]
fn generated_pairs() {
    let (seed, count) = seed_and_count(6_000);
    let mut histogram: BTreeMap<u64, u64> = BTreeMap::new();
    let mut with_parts = 0;
    for index in 0..count {
        let generated = pipeline_pair(seed, index);
        let FilePair { stage, reference } = &generated.pair;
        let verdict = check(stage, reference);
        assert!(
            generated.known.agrees(verdict),
            "pair {index} of seed {seed} ({}): known {:?}, judged {verdict:?}\nstage {}\nreference {}",
            generated.family,
            generated.known,
            hex(stage),
            hex(reference),
        );
        *histogram.entry(verdict[0]).or_default() += 1;
        if verdict == ACCEPTED {
            with_parts += u64::from(!read_pipeline(stage).unwrap().parts.is_empty());
        }
    }
    println!("{count} pairs of seed {seed}, {with_parts} accepted with registers: {histogram:?}");
    if count >= 6_000 {
        assert!(20 * with_parts > 3 * count, "accepted pipelines");
        for number in [33, 34, 35] {
            assert!(20 * histogram[&number] > count, "{number}");
        }
        for number in [0, 1, 2, 5, 6, 7, 9, 12, 13, 14, 15, 20, 21, 28, 32] {
            assert!(histogram.contains_key(&number), "{number}");
        }
    }
}

/// Files without 04 and 05 read alike for every call.
#[test]
fn files_without_registers() {
    let (seed, count) = seed_and_count(3_000);
    for index in 0..count {
        let FilePair { stage, reference } = pair(seed, index).pair;
        if let Ok(read) = read_stage(&stage) {
            let pipeline = read_pipeline(&stage).unwrap();
            assert!(pipeline.parts.is_empty());
            assert_eq!(Wiring::of(&pipeline).wired(), read);
            assert_eq!(pipeline.raw, read);
            assert_eq!(write_pipeline(&pipeline), write_stage(&read));
        }
        for order in ORDERS {
            let verdict = check_in_order(order, LIMITS, &stage, &reference);
            let [number, file, at, _] = verdict;
            let is_part = || matches!(stage[at as usize], 0x04 | 0x05);
            if (number, file) == (2, 1) && at > 0 && is_part() {
                continue;
            }
            assert_eq!(check_pipeline(order, &stage, &reference), verdict);
        }
    }
}

/// "Only the check reads these two commands; every other call answers 2."
#[test]
fn every_other_call() {
    let wire = unhex(WIRE);
    assert_eq!(settled_row(&unhex("01 01 04"), &mut []), [2, 1, 2, 0]);
    let mut seen = 0;
    for index in 0..2_000 {
        let FilePair { stage, reference } = pipeline_pair(7, index).pair;
        let Ok(pipeline) = read_pipeline(&stage) else {
            continue;
        };
        if pipeline.parts.is_empty() {
            continue;
        }
        seen += 1;
        let Err((number, at)) = read_stage(&stage) else {
            panic!("a register read for another call")
        };
        let at = at as u64;
        assert_eq!(number, 2);
        assert!(matches!(stage[at as usize], 0x04 | 0x05));
        assert_eq!(settled_row(&stage, &mut []), [2, 1, at, 0]);
        assert_eq!(report(&stage, &reference).verdict, [2, 1, at, 0]);
        for order in ORDERS {
            let mut list = [7; 4];
            let handed = witness(order, &stage, &reference, 0, &mut list);
            assert_eq!(handed.verdict, [2, 1, at, 0]);
            assert_eq!((handed.rise, handed.count), (0, 0));
            let played = play(order, &stage, 0, 0, &[], &mut [7]);
            assert_eq!((played.verdict, played.steps), ([2, 1, at, 0], 0));
            let handed = run_by_keys(order, &stage, 0, &[], &mut list);
            assert_eq!((handed.verdict, list), ([2, 1, at, 0], [7; 4]));
        }
        let mut buffer = vec![7; 20_000];
        assert_eq!(write_text(&stage, &mut buffer).verdict, [2, 1, at, 0]);
        assert_eq!(next_stage(&stage, &mut buffer).verdict, [37, 1, 0, 0]);
        let part = FilePair { stage, reference };
        let plain = FilePair {
            stage: unhex("01 01 03 00 00 01 00 00"),
            reference: wire.clone(),
        };
        let mut joined = |first: &FilePair, second: &FilePair| {
            join(first, second, &mut buffer, &mut [0; 9]).verdict
        };
        assert_eq!(joined(&part, &plain), [2, 1, at, 0]);
        assert_eq!(joined(&plain, &part), [2, 4, at, 0]);
    }
    assert!(seen > 1_000);
}

/// Two sides that are the same show no difference; a check that reads no registers, and other calls that read some, are told.
#[test]
fn comparing_has_teeth() {
    let checks = compare_pipelines(check_pipeline, 7, 4_000).unwrap();
    assert_eq!(lack_of_pipelines(&checks), None);
    let plain: CheckInOrder = |order, s, r| check_in_order(order, LIMITS, s, r);
    assert!(compare_pipelines(plain, 7, 50).is_err());
    let unlevelled: CheckInOrder = |order, s, r| match check_pipeline(order, s, r) {
        [33, ..] => ACCEPTED,
        verdict => verdict,
    };
    assert!(compare_pipelines(unlevelled, 7, 50).is_err());
    let judge = OtherCalls {
        report: judged_counts,
        settled_row,
        join: join_in_order,
        write_text,
        next: next_stage,
        witness,
        play,
        by_keys: run_by_keys,
    };
    let answers = compare_all_other_calls(&judge, 7, 400).unwrap();
    assert_eq!(lack_of_other_calls(&answers), None);
    let others: [OtherCalls; 3] = [
        OtherCalls {
            report: |order, s, r| {
                let mut counts = judged_counts(order, s, r);
                counts.verdict = check_pipeline(order, s, r);
                counts
            },
            ..judge
        },
        OtherCalls {
            settled_row: |s, row| match read_pipeline(s) {
                Ok(_) => [16, 3, row.len() as u64, 0],
                Err((number, at)) => [number, 1, at as u64, 0],
            },
            ..judge
        },
        OtherCalls {
            join: |order, first, second, s, r| {
                let mut joined = join_in_order(order, first, second, s, r);
                if let [2, 4, at, _] = joined.verdict {
                    joined.verdict = [2, 1, at, 0];
                }
                joined
            },
            ..judge
        },
    ];
    for (number, calls) in others.iter().enumerate() {
        assert!(compare_all_other_calls(calls, 7, 50).is_err(), "{number}");
    }
    // Too few of a number are told too.
    for number in [0, 33, 34, 35] {
        let mut few = checks;
        few[number] = 1;
        assert!(lack_of_pipelines(&few).is_some(), "{number}");
    }
}

/// 33, 34, 35 or nothing, by another reading of the rule.
type OtherReading = fn(&Pipeline) -> Option<(u64, usize)>;

fn least(wiring: &Wiring, refused: impl Fn(usize) -> bool) -> Option<usize> {
    (0..wiring.registers.len()).find(|&register| refused(register))
}

fn without_pin_d(pipeline: &Pipeline) -> Pipeline {
    let mut pipeline = pipeline.clone();
    for part in &mut pipeline.parts {
        if let Part::Element { pins } = part {
            pins.truncate(3);
        }
    }
    pipeline
}

/// Readings of the rule that are wrong; each gives another answer on some generated pair.
#[test]
fn other_readings_are_told() {
    let others: [(&str, OtherReading); 9] = [
        ("a register's level by its lowest source", |pipeline| {
            let mut wiring = Wiring::of(pipeline);
            for _ in 0..wiring.registers.len() {
                let levels = wiring.levels.clone();
                let level = |source: &Source| match source {
                    Source::Input(_) => 0,
                    Source::Register(register) => levels[*register],
                };
                let sources = wiring.sources.iter();
                let lowest = sources.map(|all| 1 + all.iter().map(level).min().unwrap());
                wiring.levels = lowest.collect();
            }
            wiring.refusal()
        }),
        ("one Ko is enough", |pipeline| {
            let wiring = Wiring::of(pipeline);
            let lacking = |register| {
                let behind = wiring.behind(register);
                let reached = wiring.reached(register);
                let mut there = reached.iter().filter(|&&r| behind.contains(&Behind::Ko(r)));
                !reached.is_empty() && there.next().is_none()
            };
            match wiring.refusal() {
                Some((33, register)) => Some((33, register)),
                _ => least(&wiring, lacking)
                    .map(|register| (34, register))
                    .or_else(|| least(&wiring, |r| wiring.has_a_barred_net(r)).map(|r| (35, r))),
            }
        }),
        ("a Ko of the same level may stand behind a Ki", |pipeline| {
            let wiring = Wiring::of(pipeline);
            let barred = |register: usize| {
                let same = |other: &usize| wiring.levels[*other] == wiring.levels[register];
                let all = wiring.behind(register);
                let only = |net: &Behind| matches!(net, Behind::Ko(other) if same(other));
                wiring.has_a_barred_net(register)
                    && (wiring.reached(register).is_empty() || !all.iter().any(only))
            };
            match wiring.refusal() {
                Some((35, _)) => least(&wiring, barred).map(|register| (35, register)),
                refusal => refusal,
            }
        }),
        ("pin D is not opened", |pipeline| {
            let pipeline = without_pin_d(pipeline);
            Wiring::of(&pipeline).refusal()
        }),
        ("33's second pass first", |pipeline| {
            let wiring = Wiring::of(pipeline);
            let unequal = least(&wiring, |register| wiring.is_fed_unequally(register));
            unequal.map(|register| (33, register)).or(wiring.refusal())
        }),
        ("33 in one pass", |pipeline| {
            let wiring = Wiring::of(pipeline);
            match wiring.refusal() {
                Some((33, _)) => least(&wiring, |r| {
                    wiring.reaches_itself(r)
                        || wiring.has_element_loop(r)
                        || wiring.is_fed_unequally(r)
                })
                .map(|register| (33, register)),
                refusal => refusal,
            }
        }),
        ("35 before 34", |pipeline| {
            let wiring = Wiring::of(pipeline);
            match wiring.refusal() {
                Some((34, register)) => least(&wiring, |r| wiring.has_a_barred_net(r))
                    .map_or(Some((34, register)), |register| Some((35, register))),
                refusal => refusal,
            }
        }),
        ("a register that reaches none takes any Ki", |pipeline| {
            let wiring = Wiring::of(pipeline);
            match wiring.refusal() {
                Some((35, _)) => least(&wiring, |r| {
                    !wiring.reached(r).is_empty() && wiring.has_a_barred_net(r)
                })
                .map(|register| (35, register)),
                refusal => refusal,
            }
        }),
        (
            "a register that reaches itself through others passes",
            |pipeline| {
                let wiring = Wiring::of(pipeline);
                match wiring.refusal() {
                    Some((33, _)) => least(&wiring, |r| {
                        wiring.reached(r).contains(&r) || wiring.has_element_loop(r)
                    })
                    .map(|register| (33, register)),
                    refusal => refusal,
                }
            },
        ),
    ];
    let mut pipelines = Vec::new();
    for index in 0..3_000 {
        let FilePair { stage, reference } = pipeline_pair(11, index).pair;
        let verdict = check(&stage, &reference);
        if let 0 | 13..=15 | 20 | 21 | 28 | 33..=35 = verdict[0] {
            pipelines.push(read_pipeline(&stage).unwrap());
        }
    }
    for (about, other) in others {
        let told = pipelines
            .iter()
            .filter(|pipeline| other(pipeline) != Wiring::of(pipeline).refusal())
            .count();
        assert!(told > 2, "{about}: {told} of {}", pipelines.len());
    }
}
