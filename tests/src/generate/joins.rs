//! Joins (document 02, M-105): second parts that fit a first one, mostly, and buffers for both.

use super::*;
use crate::join::{word_of_answer, PART_LIMITS};
use crate::judge::{NONE, ROW};

/// Two parts, and the two buffers that are lent for the joined stage and reference.
#[derive(Clone, PartialEq, Eq, Debug)]
pub struct JoinCase {
    pub first: FilePair,
    pub second: FilePair,
    pub stage: Vec<u8>,
    pub reference: Vec<u8>,
}

/// A generated join.
#[derive(Clone, Debug)]
pub struct GeneratedJoin {
    pub family: &'static str,
    pub case: JoinCase,
    pub known: Known,
}

/// A part as circuits.
type Part = (Stage, Reference);

/// Other kinds that do the same stand for retired ones; whether there were such kinds for all.
fn cast_all(stage: &mut Stage) -> bool {
    let cast = |gate: &Gate| match is_retired(gate.kind) {
        true => still_cast(gate),
        false => Some(gate.clone()),
    };
    let gates: Option<Vec<Gate>> = stage.gates.iter().map(cast).collect();
    gates.map(|gates| stage.gates = gates).is_some()
}

/// An accepted part without gates of a retired kind.
fn accepted_part(random: &mut Random, size: Size) -> Part {
    loop {
        let (mut stage, reference) = accepted(random, size);
        if cast_all(&mut stage) {
            return (stage, reference);
        }
    }
}

/// What is known of two parts that pass all checks before 32: a gate that never rises comes before
/// all that is said of both, the first part's first.
fn known_unless_low(first: &Part, second: Option<&Part>, known: Known) -> Known {
    let parts = [(1, Some(first)), (4, second)];
    let low = parts.into_iter().find_map(|(file, part)| {
        let gate = least_gate_that_never_rises(&part?.0)?;
        Some([32, file, gate as u64, 0])
    });
    low.map_or(known, Known::Verdict)
}

/// A first part with at most `most` outputs, some with a care list or relaxed gates, accepted unless
/// a gate never rises.
fn first_part(random: &mut Random, most: usize) -> Part {
    let (mut stage, reference) = loop {
        let size = size(random);
        let circuits = accepted_part(random, size);
        let few = circuits.0.gates.len() <= PART_LIMITS.stage_gates;
        if few
            && circuits.1.gates.len() <= PART_LIMITS.reference_gates
            && circuits.0.outputs.len() <= most
        {
            break circuits;
        }
    };
    if random.chance(1, 3) {
        stage.care = some_list(random, stage.inputs);
    }
    relax_some(random, &mut stage, &reference);
    (stage, reference)
}

/// Relaxes gates of a small part now and then.
fn relax_some(random: &mut Random, stage: &mut Stage, reference: &Reference) {
    if stage.inputs <= 4 && stage.gates.len() <= 24 && random.chance(1, 5) {
        relax(random, stage, reference);
    }
}

/// The words that a first part gives to the second, each once, in rising order.
fn answers((stage, reference): &Part) -> Vec<u64> {
    let words = stage.words().into_iter();
    let mut answers: Vec<u64> = words
        .map(|word| word_of_answer(&answer(reference, word)))
        .collect();
    answers.sort();
    answers.dedup();
    answers
}

/// A care list that contains the given words; no list contains all.
fn list_around(random: &mut Random, inputs: usize, wanted: &[u64]) -> Vec<u64> {
    match random.below(5) {
        0 | 1 => vec![],
        2 => wanted.to_vec(),
        part => {
            let whole = if part == 3 { 2 } else { 6 };
            let words = 0..1u64 << inputs;
            words
                .filter(|word| wanted.contains(word) || random.chance(1, whole))
                .collect()
        }
    }
}

/// A second part of so many inputs that cares for the words of a list, accepted unless a gate never
/// rises.
fn second_part(random: &mut Random, inputs: usize, care: Vec<u64>) -> Part {
    let (mut stage, reference) = match random.below(4) {
        0 if inputs <= 4 => {
            let outputs = random.from_to(1, 3);
            let values = random_values(random, inputs, outputs);
            let mut builder = StageBuilder::new(inputs);
            builder.stage.care = care.clone();
            builder.sum_of_words(&values);
            (builder.stage, reference_of_values(inputs, &values))
        }
        1 if inputs > 1 => {
            let (bits, carry_in) = (inputs / 2, inputs % 2 == 1);
            (
                ripple_adder(bits, carry_in),
                ripple_adder_reference(bits, carry_in),
            )
        }
        2 => {
            let reference = random_reference(random, inputs, 0);
            (dual_rail(&reference), reference)
        }
        _ => {
            let gates = random.from_to(1, 12);
            let reference = random_reference(random, inputs, gates);
            (dual_rail(&reference), reference)
        }
    };
    stage.care = care;
    let plain = stage.clone();
    rewrite(random, &mut stage);
    if !cast_all(&mut stage) {
        stage = plain;
    }
    relax_some(random, &mut stage, &reference);
    (stage, reference)
}

/// How long the two joined files are: each command of the parts has its place in them, but for
/// the first part's outputs and the second's inputs, care words and end.
fn lengths(first: &Part, second: &Part) -> [usize; 2] {
    let ends = 2 + 1;
    let care = 3 * first.0.care.len();
    let gates = 10 * (first.0.gates.len() + second.0.gates.len());
    let operations = 6 * (first.1.gates.len() + second.1.gates.len());
    [
        ends + care + gates + 5 * second.0.outputs.len(),
        ends + operations + 3 * second.1.outputs.len(),
    ]
}

/// Bytes of any value.
fn buffer(random: &mut Random, length: usize) -> Vec<u8> {
    (0..length).map(|_| random.byte()).collect()
}

fn join_of(
    random: &mut Random,
    family: &'static str,
    (first, second): (&Part, &Part),
    [stage, reference]: [usize; 2],
    known: Known,
) -> GeneratedJoin {
    let known = known_unless_low(first, Some(second), known);
    GeneratedJoin {
        family,
        case: JoinCase {
            first: files_of(random, &first.0, &first.1),
            second: files_of(random, &second.0, &second.1),
            stage: buffer(random, stage),
            reference: buffer(random, reference),
        },
        known,
    }
}

/// Lengths of buffers in which the files have room, exactly or with some bytes past them.
fn room(random: &mut Random, lengths: [usize; 2]) -> [usize; 2] {
    lengths.map(|length| length + random.pick(&[0, 0, 0, 1, 2, 7, 300]))
}

/// A second part that fits the first.
fn fitting(random: &mut Random) -> GeneratedJoin {
    let first = first_part(random, 10);
    let inputs = first.0.outputs.len();
    let care = list_around(random, inputs, &answers(&first));
    let second = second_part(random, inputs, care);
    let room = room(random, lengths(&first, &second));
    join_of(
        random,
        "fitting",
        (&first, &second),
        room,
        Known::Verdict(ACCEPTED),
    )
}

/// 24: one of the buffers, or both, too short.
fn too_short(random: &mut Random) -> GeneratedJoin {
    let first = first_part(random, 10);
    let inputs = first.0.outputs.len();
    let care = list_around(random, inputs, &answers(&first));
    let second = second_part(random, inputs, care);
    let full = lengths(&first, &second);
    let mut room = room(random, full);
    let short = random.pick(&[[true, false], [false, true], [true, true]]);
    for which in 0..2 {
        if short[which] {
            room[which] = match random.below(4) {
                0 => 0,
                1 => random.below(full[which]),
                _ => full[which] - 1,
            };
        }
    }
    let known = Known::Verdict([24, ROW, 0, 0]);
    join_of(random, "too short", (&first, &second), room, known)
}

/// 23: a care list of the second without one of the first's answers, or without several.
fn stray_word(random: &mut Random) -> GeneratedJoin {
    loop {
        let first = first_part(random, 10);
        let inputs = first.0.outputs.len();
        let answers = answers(&first);
        let mut care = list_around(random, inputs, &answers);
        if care.is_empty() {
            care = (0..1 << inputs).collect();
        }
        let stray = random.pick(&answers);
        let others = random.chance(1, 3);
        care.retain(|&word| word != stray && !(others && random.chance(1, 3)));
        if care.is_empty() {
            continue;
        }
        let missing = |word: &u64| !care.contains(&word_of_answer(&answer(&first.1, *word)));
        let word = first
            .0
            .words()
            .into_iter()
            .find(missing)
            .expect("the word of the stray answer");
        let second = second_part(random, inputs, care);
        let mut room = room(random, lengths(&first, &second));
        if random.chance(1, 4) {
            room[random.below(2)] = 0;
        }
        let known = Known::Verdict([23, NONE, 0, word]);
        return join_of(random, "stray word", (&first, &second), room, known);
    }
}

/// 22: more or fewer inputs than outputs, and perhaps a list that no answer is in.
fn unequal_seam(random: &mut Random) -> GeneratedJoin {
    let first = first_part(random, 16);
    let outputs = first.0.outputs.len();
    let inputs = match random.below(3) {
        0 => random.from_to(1, 10),
        1 => (outputs + 1).min(10),
        _ => outputs.saturating_sub(1).clamp(1, 10),
    };
    let care = if random.chance(1, 2) {
        some_list(random, inputs)
    } else {
        vec![]
    };
    let second = second_part(random, inputs, care);
    let known = if inputs == outputs {
        Known::Nothing
    } else {
        Known::Verdict([22, NONE, outputs as u64, inputs as u64])
    };
    let room = [random.below(40), random.below(400)];
    join_of(random, "unequal seam", (&first, &second), room, known)
}

/// What is known of a generated pair as the first part or the second. A file this short has not
/// more gates than a part may have.
fn known_as_part(generated: &Generated, second: bool) -> Known {
    let short = generated.pair.stage.len() <= 1_280 && generated.pair.reference.len() <= 1_536;
    match generated.known {
        Known::Verdict([number, file, at, word]) if short && number != 0 => {
            Known::Verdict([number, file + if second { 3 } else { 0 }, at, word])
        }
        _ => Known::Nothing,
    }
}

/// Any generated pair as the first part, and another or one that fits as the second.
fn refused_first(random: &mut Random, seed: u64, index: u64) -> GeneratedJoin {
    let first = pair(seed ^ 0x10F1, index);
    let inputs = read_stage(&first.pair.stage).map_or(1, |stage| stage.outputs.len().min(10));
    let second = if random.chance(1, 3) {
        pair(seed ^ 0x10F2, index).pair
    } else {
        let part = second_part(random, inputs, vec![]);
        files_of(random, &part.0, &part.1)
    };
    let known = known_as_part(&first, false);
    let (stage, reference) = (random.below(600), random.below(600));
    GeneratedJoin {
        family: "any first",
        case: JoinCase {
            first: first.pair,
            second,
            stage: buffer(random, stage),
            reference: buffer(random, reference),
        },
        known,
    }
}

/// An accepted first part, and any generated pair as the second.
fn refused_second(random: &mut Random, seed: u64, index: u64) -> GeneratedJoin {
    let first = first_part(random, 10);
    let second = pair(seed ^ 0x10F3, index);
    let known = known_unless_low(&first, None, known_as_part(&second, true));
    let (stage, reference) = (random.below(600), random.below(600));
    GeneratedJoin {
        family: "any second",
        case: JoinCase {
            first: files_of(random, &first.0, &first.1),
            second: second.pair,
            stage: buffer(random, stage),
            reference: buffer(random, reference),
        },
        known,
    }
}

/// An accepted part of one or two inputs with so many gates; the reference's are NOTs that lead to
/// nothing.
fn filled(random: &mut Random, part: Part, gates: usize, operations: usize) -> Part {
    let (mut stage, mut reference) = part;
    while stage.gates.len() < gates {
        insert_buffer(random, &mut stage);
    }
    while reference.gates.len() < operations {
        let operand = random.below(reference.signals());
        reference.gates.push(Boolean {
            operation: NOT,
            operands: vec![operand],
        });
    }
    assert!(cast_all(&mut stage), "a buffer has other kinds");
    (stage, reference)
}

/// Parts with as many gates as a part may have, one less, or one more.
fn at_the_part_limits(random: &mut Random) -> GeneratedJoin {
    let first = loop {
        let circuits = accepted_part(random, Size::Small);
        if circuits.0.inputs <= 2 && circuits.0.outputs.len() <= 3 {
            break circuits;
        }
    };
    let second = second_part(random, first.0.outputs.len(), vec![]);
    let mut parts = [first, second];
    let mut known = Known::Verdict(ACCEPTED);
    for (which, part) in parts.iter_mut().enumerate() {
        let mut about = |limit: usize| limit - 1 + random.pick(&[0, 1, 1, 1, 1, 1, 2]);
        let gates = about(PART_LIMITS.stage_gates);
        let operations = about(PART_LIMITS.reference_gates);
        *part = filled(random, part.clone(), gates, operations);
        // Gates before outputs: the one too many stands behind as many as there may be.
        let refused = if part.0.gates.len() > PART_LIMITS.stage_gates {
            Some((6, 1, 2 + 10 * PART_LIMITS.stage_gates))
        } else if part.1.gates.len() > PART_LIMITS.reference_gates {
            Some((6, 2, 2 + 6 * PART_LIMITS.reference_gates))
        } else {
            least_gate_that_never_rises(&part.0).map(|gate| (32, 1, gate))
        };
        if let (Known::Verdict(ACCEPTED), Some((number, file, at))) = (known, refused) {
            known = Known::Verdict([number, file + 3 * which as u64, at as u64, 0]);
        }
    }
    let room = room(random, lengths(&parts[0], &parts[1]));
    let [stage, reference] = room.map(|length| buffer(random, length));
    let [first, second] = parts.map(|(stage, reference)| FilePair {
        stage: write_stage(&stage),
        reference: write_reference(&reference),
    });
    GeneratedJoin {
        family: "at the part limits",
        case: JoinCase {
            first,
            second,
            stage,
            reference,
        },
        known,
    }
}

/// Join number `index` of a seed. Most of those that are known to have 32 are another one instead.
pub fn join_case(seed: u64, index: u64) -> GeneratedJoin {
    let random = &mut Random::new(seed ^ 0x1032, index);
    let mut generated = any_join(seed, index);
    while matches!(generated.known, Known::Verdict([32, ..])) && random.chance(7, 8) {
        generated = any_join(random.number(), index);
    }
    generated
}

/// Join number `index` of a seed.
pub fn any_join(seed: u64, index: u64) -> GeneratedJoin {
    let random = &mut Random::new(seed ^ 0x901A, index);
    match random.below(100) {
        0..=49 => fitting(random),
        50..=57 => too_short(random),
        58..=65 => stray_word(random),
        66..=71 => unequal_seam(random),
        72..=83 => refused_first(random, seed, index),
        84..=97 => refused_second(random, seed, index),
        _ => at_the_part_limits(random),
    }
}
