//! All runs of small stages, by the step rules of document 01.

use fovaheju_tests::catalogue::examples;
use fovaheju_tests::compare::seed_and_count;
use fovaheju_tests::explore::{
    explore_pair, explore_pairs, promise, promise_by_rules, runs_end_settled, witness, Rules,
    Summary,
};
use fovaheju_tests::generate::spelt_reference;
use fovaheju_tests::judge::{
    check, check_circuits, is_relaxed, least_gate_on_a_loop, pin_count, rails_of_word,
    read_reference, read_stage, settle, Boolean, Gate, Reference, Stage, AND, NOT, XOR,
};

#[test]
fn generated_pairs() {
    let (seed, count) = seed_and_count(3_000);
    let summary = explore_pairs(seed, count).unwrap_or_else(|broken| panic!("{broken}"));
    println!("{summary}");
    if count >= 3_000 {
        assert!(summary.accepted >= 700, "{summary}");
        assert!(
            summary.wrong >= 200 && summary.incomplete >= 200 && summary.unobservable >= 200,
            "{summary}"
        );
        assert!(
            summary.accepted_relaxed >= 150 && summary.incomplete_fall >= 100,
            "{summary}"
        );
        assert!(summary.unobservable_fall >= 10, "{summary}");
        assert!(summary.never_rises >= 500, "{summary}");
    }
}

/// The examples of few nets.
#[test]
fn small_examples() {
    let mut summary = Summary::default();
    let mut explored = Vec::new();
    for example in examples() {
        let verdict = check(&example.pair.stage, &example.pair.reference);
        if !matches!(verdict[0], 0 | 13 | 14 | 15 | 20 | 21 | 32) {
            continue;
        }
        let stage = read_stage(&example.pair.stage).unwrap();
        let reference = read_reference(&example.pair.reference).unwrap();
        if stage.nets() > 16 {
            continue;
        }
        explore_pair(&stage, &reference, &mut summary)
            .unwrap_or_else(|broken| panic!("{}: {broken}", example.name));
        explored.push(example.name);
    }
    println!("{summary}\n{explored:?}");
    for name in [
        "and",
        "xor-unobservable",
        "full-adder",
        "half-adder",
        "adder-2",
        "marked-01",
        "marked-08",
    ] {
        assert!(explored.iter().any(|explored| explored == name), "{name}");
    }
    assert_eq!(summary.too_large, 0);
}

/// A case worked by hand. AND of the whole case, word 0 (both inputs DATA0): rails 0
/// and 2 rise in either order, then gate 1. All lists: the empty one, 2 of one step, 2
/// of two, 2 of three.
#[test]
fn lists_of_the_whole_case() {
    let stage = Stage {
        inputs: 2,
        gates: vec![
            Gate {
                kind: 2,
                pins: vec![1, 3],
            },
            Gate {
                kind: 26,
                pins: vec![0, 2, 1, 3],
            },
        ],
        outputs: vec![[5, 4]],
        care: vec![],
    };
    let reference = Reference {
        inputs: 2,
        gates: vec![Boolean {
            operation: AND,
            operands: vec![0, 1],
        }],
        outputs: vec![2],
    };
    let tried = promise(&stage, &reference).unwrap().unwrap();
    // Each word: 2 rails and 1 gate rise; 5 rows (one row for both orders of rails).
    assert_eq!(
        (tried.words, tried.rise_rows, tried.rise_lists),
        (4, 20, 28.0)
    );
    // In a fall the gate waits for all of its pins, so the rows are as many.
    assert_eq!((tried.fall_rows, tried.fall_lists), (20, 28.0));
    assert_eq!((tried.all_data, tried.all_null), (4, 4));
}

/// The words that the paper has for the marked cases 6, 7 and 8, and for no other index
/// or word.
#[test]
fn witnesses_of_marked_cases() {
    let cases = examples();
    let find = |name: &str| {
        let example = cases.iter().find(|example| example.name == name).unwrap();
        (
            read_stage(&example.pair.stage).unwrap(),
            read_reference(&example.pair.reference).unwrap(),
        )
    };
    let (stage, reference) = find("marked-06");
    for word in 0..4 {
        for input in 0..2 {
            // AND by TH12: an input may be missing where the other one is 0.
            let missing = word >> (1 - input) & 1 == 0;
            assert_eq!(
                witness(&stage, &reference, [14, 1, input, word]),
                Some(missing)
            );
        }
    }
    let (stage, reference) = find("marked-07");
    assert_eq!(witness(&stage, &reference, [14, 1, 1, 0]), Some(true));
    assert_eq!(witness(&stage, &reference, [14, 1, 0, 0]), Some(false));
    let (stage, reference) = find("marked-08");
    assert_eq!(witness(&stage, &reference, [15, 1, 0, 0]), Some(true));
    assert_eq!(witness(&stage, &reference, [15, 1, 0, 1]), Some(true));
    let (stage, reference) = find("marked-03");
    assert_eq!(witness(&stage, &reference, [13, 1, 0, 0]), Some(true));
    let (stage, reference) = find("marked-02");
    assert_eq!(witness(&stage, &reference, [13, 1, 0, 0]), Some(false));
}

/// The sentences on falls are not empty: were gates to fall as soon as their set
/// expression is false, accepted stages would break them.
#[test]
fn falls_without_hold_break() {
    let mut sentences: Vec<&str> = Vec::new();
    let mut unbroken = Vec::new();
    for example in examples() {
        if check(&example.pair.stage, &example.pair.reference)[0] != 0 {
            continue;
        }
        let stage = read_stage(&example.pair.stage).unwrap();
        let reference = read_reference(&example.pair.reference).unwrap();
        let relaxed = stage.gates.iter().any(|gate| is_relaxed(gate.kind));
        if stage.nets() > 16 || relaxed {
            continue;
        }
        let rules = Rules::new(&stage).unwrap().without_hold();
        let broken = stage.words().into_iter().find_map(|word| {
            promise_by_rules(&rules, &stage, &reference, word)
                .unwrap()
                .err()
        });
        match broken {
            Some(broken) => sentences.push(broken.sentence),
            None => unbroken.push(example.name),
        }
    }
    println!("{sentences:?}, unbroken {unbroken:?}");
    assert!(sentences
        .iter()
        .all(|sentence| sentence.starts_with("fall")));
    assert!(sentences.contains(&"fall: all outputs NULL, so every input and gate is low"));
    // Wires have no gate that could fall early.
    assert_eq!(unbroken, ["marked-02", "marked-04"]);
}

/// All choices of `count` numbers below `bound`.
fn choices(bound: usize, count: usize) -> Vec<Vec<usize>> {
    let mut all = vec![Vec::new()];
    for _ in 0..count {
        all = all
            .into_iter()
            .flat_map(|choice| {
                (0..bound).map(move |number| {
                    let mut longer = choice.clone();
                    longer.push(number);
                    longer
                })
            })
            .collect();
    }
    all
}

/// All loop-free choices of gates of kinds 1 and 2 for the given numbers of inputs and
/// gates, without outputs.
fn every_choice_of_gates(inputs: usize, gates: usize) -> Vec<Stage> {
    let nets = 2 * inputs + gates;
    let mut stages = Vec::new();
    for kinds in choices(2, gates) {
        for pins in choices(nets, 2 * gates) {
            let gates: Vec<Gate> = (0..gates)
                .map(|gate| Gate {
                    kind: kinds[gate] + 1,
                    pins: pins[2 * gate..2 * gate + 2].to_vec(),
                })
                .collect();
            let stage = Stage {
                inputs,
                gates,
                outputs: vec![],
                care: vec![],
            };
            if least_gate_on_a_loop(&stage).is_none() {
                stages.push(stage);
            }
        }
    }
    stages
}

/// All pairs of nets.
fn every_output(stage: &Stage) -> Vec<[usize; 2]> {
    choices(stage.nets(), 2)
        .into_iter()
        .map(|rails| [rails[0], rails[1]])
        .collect()
}

/// The pairs of nets that hold DATA in every word.
fn data_outputs(stage: &Stage) -> Vec<[usize; 2]> {
    let rows: Vec<Vec<bool>> = (0..1 << stage.inputs)
        .map(|word| settle(stage, &rails_of_word(stage.inputs, word), None))
        .collect();
    let mut outputs = every_output(stage);
    outputs.retain(|&[rail_0, rail_1]| rows.iter().all(|row| row[rail_0] != row[rail_1]));
    outputs
}

/// Every stage with one input and at most two gates of kinds 1 and 2 against every
/// function of one input.
#[test]
fn every_stage_of_one_input() {
    let functions = [
        Reference {
            inputs: 1,
            gates: vec![],
            outputs: vec![0],
        },
        Reference {
            inputs: 1,
            gates: vec![Boolean {
                operation: NOT,
                operands: vec![0],
            }],
            outputs: vec![1],
        },
        Reference {
            inputs: 1,
            gates: vec![Boolean {
                operation: XOR,
                operands: vec![0, 0],
            }],
            outputs: vec![1],
        },
        Reference {
            inputs: 1,
            gates: vec![
                Boolean {
                    operation: NOT,
                    operands: vec![0],
                },
                Boolean {
                    operation: XOR,
                    operands: vec![0, 1],
                },
            ],
            outputs: vec![2],
        },
    ];
    let mut summary = Summary::default();
    let mut stages = [0; 3];
    for (gates, stages) in stages.iter_mut().enumerate() {
        for mut stage in every_choice_of_gates(1, gates) {
            for output in every_output(&stage) {
                *stages += 1;
                stage.outputs = vec![output];
                for reference in &functions {
                    explore_pair(&stage, reference, &mut summary)
                        .unwrap_or_else(|broken| panic!("{stage:?} {reference:?}: {broken}"));
                }
            }
            for rails in [[false, false], [true, false], [false, true], [true, true]] {
                assert_eq!(runs_end_settled(&stage, &rails), Some(true));
            }
        }
    }
    println!("{stages:?} stages, {summary}");
    // Document 02 counts 4 without gates and 72 with one.
    assert_eq!(stages[..2], [4, 72]);
}

/// Every stage with two inputs and at most two gates of kinds 1 and 2 against the
/// function that it spells, if it spells one: as it is, and with both inputs wired out
/// as well.
#[test]
fn every_stage_of_two_inputs() {
    let mut alone = Summary::default();
    let mut with_wires = Summary::default();
    for gates in 0..=2 {
        for mut stage in every_choice_of_gates(2, gates) {
            for output in data_outputs(&stage) {
                for (outputs, summary) in [
                    (vec![output], &mut alone),
                    (vec![output, [0, 1], [2, 3]], &mut with_wires),
                ] {
                    stage.outputs = outputs;
                    let reference = spelt_reference(&stage).unwrap();
                    explore_pair(&stage, &reference, summary)
                        .unwrap_or_else(|broken| panic!("{stage:?}: {broken}"));
                }
            }
        }
    }
    println!("{alone}\n{with_wires}");
    // Two such gates are too few for a complete function of two inputs.
    assert!(alone.incomplete > 0 && alone.accepted + alone.wrong + alone.unobservable == 0);
    assert!(
        with_wires.accepted > 0
            && with_wires.unobservable > 0
            && with_wires.wrong + with_wires.incomplete == 0
    );
}

/// Every single gate of every kind on the rails of two inputs, each output pair that
/// spells a function.
#[test]
fn every_gate_on_two_inputs() {
    let mut summary = Summary::default();
    for kind in 1..=27 {
        for pins in choices(4, pin_count(kind)) {
            let mut stage = Stage {
                inputs: 2,
                gates: vec![Gate { kind, pins }],
                outputs: vec![],
                care: vec![],
            };
            for output in data_outputs(&stage)
                .into_iter()
                .filter(|output| output.contains(&4))
            {
                // The other rail is one of an input; the other input is wired out.
                let input = output[usize::from(output[0] == 4)] / 2;
                stage.outputs = vec![output, [2 * (1 - input), 2 * (1 - input) + 1]];
                let reference = spelt_reference(&stage).unwrap();
                explore_pair(&stage, &reference, &mut summary)
                    .unwrap_or_else(|broken| panic!("{stage:?}: {broken}"));
            }
        }
    }
    println!("{summary}");
    assert!(summary.accepted > 0);
}

/// The single changes of an accepted stage that is small: each is judged and played.
#[test]
fn every_pin_and_kind_of_a_full_adder() {
    let cases = examples();
    let adder = cases
        .iter()
        .find(|example| example.name == "full-adder")
        .unwrap();
    let stage = read_stage(&adder.pair.stage).unwrap();
    let reference = read_reference(&adder.pair.reference).unwrap();
    let mut summary = Summary::default();
    let mut loops = 0;
    for gate in 0..stage.gates.len() {
        let mut changes = Vec::new();
        for pin in 0..stage.gates[gate].pins.len() {
            for net in 0..stage.nets() {
                let mut changed = stage.clone();
                changed.gates[gate].pins[pin] = net;
                changes.push(changed);
            }
        }
        for kind in 1..=27 {
            let mut changed = stage.clone();
            if pin_count(kind) == changed.gates[gate].pins.len() {
                changed.gates[gate].kind = kind;
                changes.push(changed);
            }
        }
        for changed in changes {
            if least_gate_on_a_loop(&changed).is_some() {
                loops += 1;
                continue;
            }
            explore_pair(&changed, &reference, &mut summary)
                .unwrap_or_else(|broken| panic!("{changed:?}: {broken}"));
        }
    }
    println!("{summary}, {loops} loops");
    assert!(loops > 0);
    assert_eq!(check_circuits(&stage, &reference), [0; 4]);
}
