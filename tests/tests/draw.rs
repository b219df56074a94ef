//! A load that can be repeated (M-113 of document 02): the judge's references, the generated loads, and
//! calls that are wrong in one way.

use fovaheju_tests::compare::{
    compare_draws, compare_draws_at_limits, lack, seed_and_count, Draw, DRAW_NUMBERS,
};
use fovaheju_tests::draw::{
    draw_reference, drawn_reference, load_of, Load, OUT_OF_RANGE, TOO_MANY_OUTPUTS, TOO_SHORT,
};
use fovaheju_tests::files::{unhex, verdict_line, write_reference, write_stage};
use fovaheju_tests::generate::draws::{draw_case, length};
use fovaheju_tests::join::WHOLE_LIMITS;
use fovaheju_tests::judge::{
    accepted_unless_a_gate_never_rises, check, read_reference_within, read_stage, Boolean,
    Reference, ACCEPTED, NOT,
};
use fovaheju_tests::make::{make_stage, Made};
use fovaheju_tests::read;
use std::collections::BTreeSet;

fn load(seed: u32, inputs: usize, gates: usize) -> Load {
    Load {
        seed,
        inputs,
        gates,
    }
}

/// The file of a load, or the verdict.
fn written(load: &Load) -> Result<Vec<u8>, [u64; 4]> {
    let mut buffer = vec![0; 512];
    let made = draw_reference(load, &mut buffer);
    buffer.truncate(made.len);
    if made.verdict == ACCEPTED {
        Ok(buffer)
    } else {
        assert_eq!(made.len, 0);
        Err(made.verdict)
    }
}

/// Files by hand. From seed 1 the states are 2,654,435,770, then 1,013,904,243, then 3,668,340,012. They
/// yield 2,654,463,885, which is 3 mod 6, so that gate 0 is XOR, then two numbers mod 1.
#[test]
fn bytes_by_hand() {
    assert_eq!(
        written(&load(1, 1, 4)),
        Ok(unhex(
            "01 01 11 04 00 00 00 00 11 01 01 00 FF FF 11 06 01 00 02 00 11 04 01 00 02 00 12 03 00 12 04 00 00"
        ))
    );
    assert_eq!(written(&load(1, 10, 40)), Err(TOO_MANY_OUTPUTS));
    // No gates: all inputs are outputs.
    assert_eq!(
        written(&load(7, 3, 0)),
        Ok(unhex("01 03 12 00 00 12 01 00 12 02 00 00"))
    );
    // The first sum is 4,294,967,296, so the state is 0 and the operation NOT.
    assert_eq!(
        written(&load(1_640_531_527, 1, 1)),
        Ok(unhex("01 01 11 01 00 00 FF FF 12 01 00 00"))
    );
    for out_of_range in [(0, 0), (11, 0), (1, 41), (0, 41), (usize::MAX, usize::MAX)] {
        let load = load(1, out_of_range.0, out_of_range.1);
        assert_eq!(written(&load), Err(OUT_OF_RANGE), "{load:?}");
    }
}

/// The order of the refusals, and what they leave: nothing is written, and bytes past the end keep their
/// values.
#[test]
fn order_and_buffers() {
    for (load, refused) in [
        (load(1, 11, 40), OUT_OF_RANGE),
        (load(1, 10, 40), TOO_MANY_OUTPUTS),
        (load(1, 1, 4), TOO_SHORT),
    ] {
        for room in [0, 32] {
            let mut buffer = vec![7; room];
            let made = draw_reference(&load, &mut buffer);
            assert_eq!((made.verdict, made.len), (refused, 0));
            assert_eq!(buffer, vec![7; room]);
        }
    }
    let mut buffer = vec![7; 40];
    assert_eq!(draw_reference(&load(1, 1, 4), &mut buffer).len, 33);
    assert_eq!(buffer[33..], [7; 7]);
}

/// "Every such file is readable, and M-107 never meets refusal 25 on it"; the stage is accepted.
#[test]
fn readable_and_made() {
    let (_, count) = seed_and_count(4_000);
    let (mut most, mut longest) = (0, 0);
    for seed in 0..count as u32 {
        let load = load_of(seed);
        let Ok(file) = written(&load) else {
            assert_eq!(written(&load), Err(TOO_MANY_OUTPUTS), "{load:?}");
            continue;
        };
        let reference = read_reference_within(WHOLE_LIMITS, &file).expect("readable");
        assert_eq!(write_reference(&reference), file);
        assert_eq!(
            (reference.inputs, reference.gates.len()),
            (load.inputs, load.gates)
        );
        assert_eq!(file.len(), length(&load));
        most = most.max(reference.outputs.len());
        longest = longest.max(file.len());
        let mut stage = vec![0; 4096];
        let made = make_stage(&file, &mut stage);
        assert_eq!(made.verdict, ACCEPTED, "{load:?}");
        // The judge's check takes long where there are many inputs.
        if load.inputs <= 4 && seed % 7 == 0 {
            let stage = read_stage(&stage[..made.len]).unwrap();
            let expected = accepted_unless_a_gate_never_rises(&stage);
            assert_eq!(check(&write_stage(&stage), &file), expected, "{load:?}");
        }
    }
    assert_eq!(most, 16);
    assert!(longest <= 291);
}

/// The run over many seeds has all counts of inputs with all counts of gates.
#[test]
fn loads_of_a_run() {
    let shapes: BTreeSet<(usize, usize)> = (0..410)
        .map(|seed| (load_of(seed).inputs, load_of(seed).gates))
        .collect();
    assert_eq!(shapes.len(), 410);
    assert_eq!(shapes.first(), Some(&(1, 0)));
    assert_eq!(shapes.last(), Some(&(10, 40)));
}

#[test]
fn generated_loads() {
    let (seed, count) = seed_and_count(20_000);
    for index in 0..count.min(5_000) {
        let generated = draw_case(seed, index);
        let verdict = draw_reference(&generated.case.load, &mut generated.case.buffer.clone());
        assert!(
            generated.known.agrees(verdict.verdict),
            "load {index} of seed {seed} ({})",
            generated.family
        );
    }
    let histogram = compare_draws(draw_reference, seed, count).unwrap();
    assert_eq!(lack(&histogram, &DRAW_NUMBERS), None);
    let histogram = compare_draws_at_limits(draw_reference).unwrap();
    assert_eq!(lack(&histogram, &DRAW_NUMBERS), None);
}

/// A reference drawn in another way: the next state, what it yields, and whether operands come first.
struct Way {
    next: fn(u64) -> u64,
    yields: fn(u64) -> u64,
    operand_first: bool,
    /// What is added to the modulus of an operand, and from which signal on one may be an output.
    more: usize,
    outputs_from: fn(&Load) -> usize,
}

const SUM: u64 = 2_654_435_769;
const RIGHT: Way = Way {
    next: |s| (s + SUM) % (1 << 32),
    yields: |s| s ^ (s >> 16),
    operand_first: false,
    more: 0,
    outputs_from: |_| 0,
};

fn drawn_in(way: &Way, load: &Load) -> Reference {
    let mut s = u64::from(load.seed);
    let mut draw = |modulus: usize| {
        s = (way.next)(s);
        ((way.yields)(s) % modulus as u64) as usize
    };
    let mut reference = Reference {
        inputs: load.inputs,
        ..Reference::default()
    };
    for k in 0..load.gates {
        let signals = load.inputs + k;
        let modulus = signals + way.more;
        let early = way.operand_first.then(|| draw(modulus) % signals);
        let operation = 1 + draw(6);
        let needed = if operation == NOT { 1 } else { 2 };
        let mut operands: Vec<usize> = early.into_iter().collect();
        while operands.len() < needed {
            operands.push(draw(modulus) % signals);
        }
        reference.gates.push(Boolean {
            operation,
            operands,
        });
    }
    let used: BTreeSet<usize> = reference
        .gates
        .iter()
        .flat_map(|gate| gate.operands.iter().copied())
        .collect();
    let from = (way.outputs_from)(load);
    reference.outputs = (from..reference.signals())
        .filter(|signal| !used.contains(signal))
        .collect();
    reference
}

fn draw_in(way: &Way, load: &Load, buffer: &mut [u8]) -> Made {
    let made = draw_reference(load, buffer);
    if made.verdict != ACCEPTED {
        return made;
    }
    let file = write_reference(&drawn_in(way, load));
    let len = file.len().min(buffer.len());
    buffer[..len].copy_from_slice(&file[..len]);
    Made {
        verdict: ACCEPTED,
        len,
    }
}

/// The other way is the judge's where nothing is changed.
#[test]
fn another_way() {
    for seed in 0..2_000 {
        let load = load_of(seed);
        assert_eq!(drawn_in(&RIGHT, &load), drawn_reference(&load));
    }
}

/// Calls that are wrong in one way each are told from the judge's.
#[test]
fn wrong_calls_are_told() {
    let wrong: [(&str, Draw); 11] = [
        ("a sum that stops at the highest state", |load, buffer| {
            let next = |s: u64| (s + SUM).min(u32::MAX.into());
            draw_in(&Way { next, ..RIGHT }, load, buffer)
        }),
        ("a sum modulo 4,294,967,295", |load, buffer| {
            let next = |s: u64| (s + SUM) % u64::from(u32::MAX);
            draw_in(&Way { next, ..RIGHT }, load, buffer)
        }),
        ("a quotient by 65,535", |load, buffer| {
            let yields = |s: u64| s ^ (s / 65_535);
            draw_in(&Way { yields, ..RIGHT }, load, buffer)
        }),
        ("the yield as the next state", |load, buffer| {
            let next = |s: u64| {
                let s = (s + SUM) % (1 << 32);
                s ^ (s >> 16)
            };
            let yields = |s: u64| s;
            let way = Way {
                next,
                yields,
                ..RIGHT
            };
            draw_in(&way, load, buffer)
        }),
        ("an operand before the operation", |load, buffer| {
            let way = Way {
                operand_first: true,
                ..RIGHT
            };
            draw_in(&way, load, buffer)
        }),
        ("a modulus of one more", |load, buffer| {
            draw_in(&Way { more: 1, ..RIGHT }, load, buffer)
        }),
        ("outputs that leave out inputs", |load, buffer| {
            let outputs_from = |load: &Load| load.inputs;
            let way = Way {
                outputs_from,
                ..RIGHT
            };
            draw_in(&way, load, buffer)
        }),
        ("41 before 40", |load, buffer| {
            let made = draw_reference(load, buffer);
            let verdict = if made.verdict == TOO_MANY_OUTPUTS && buffer.is_empty() {
                TOO_SHORT
            } else {
                made.verdict
            };
            Made { verdict, ..made }
        }),
        ("39 of 32 bits", |load, buffer| {
            let inputs = load.inputs as u32 as usize;
            draw_reference(&Load { inputs, ..*load }, buffer)
        }),
        ("393 bytes asked for", |load, buffer| {
            let made = draw_reference(load, &mut buffer.to_vec());
            if made.verdict == ACCEPTED && buffer.len() < 393 {
                return Made {
                    verdict: TOO_SHORT,
                    len: 0,
                };
            }
            draw_reference(load, buffer)
        }),
        ("a byte past the end", |load, buffer| {
            let made = draw_reference(load, buffer);
            if made.verdict == ACCEPTED && buffer.len() > made.len {
                buffer[made.len] ^= 1;
            }
            made
        }),
    ];
    for (about, draw_reference) in wrong {
        assert!(
            compare_draws(draw_reference, 113, 4_000).is_err(),
            "{about}"
        );
    }
}

/// What the program `ncl_draw` is given as arguments, and what it must print.
#[test]
fn stored_arguments_and_output() {
    let words = read("crates/ncl_draw/args");
    let numbers: Vec<u32> = words.lines().map(|word| word.parse().unwrap()).collect();
    assert_eq!(numbers, [1, 1, 4]);
    let made = draw_reference(&load(1, 1, 4), &mut [0; 512]);
    assert_eq!(read("crates/ncl_draw/stdout"), verdict_line(made.verdict));
}
