//! One run from another (M-103 of document 02). The generated pairs of `tests/explore.rs` are
//! turned as well.

use fovaheju_tests::catalogue::{examples, MARKED};
use fovaheju_tests::exchange::{runs_of, turn_recorded_runs, MOST_NETS};
use fovaheju_tests::explore::Rules;
use fovaheju_tests::files::unhex;
use fovaheju_tests::judge::{check, is_relaxed, read_stage, ACCEPTED};

/// Two rises of the whole case in word 3: rails 1 and 3, then gate 0, which is net 4.
#[test]
fn the_whole_case() {
    let stage = read_stage(&unhex(MARKED[0].1)).unwrap();
    let rules = Rules::new(&stage).unwrap();
    let [rise, fall] = runs_of(&rules, &stage, 3);
    assert_eq!(rise.record(|nets| nets[0]), [1, 3, 4]);
    assert_eq!(rise.turn(&[1, 3, 4], &[3, 1, 4]), Ok(1));
    assert_eq!(rise.turn(&[1, 3, 4], &[1, 3, 4]), Ok(0));
    // Unfinished lists are legal too; an exchange with the gate is not.
    assert!(rise.play(&[3]).is_some());
    assert_eq!(rise.play(&[1, 4, 3]), None);
    assert!(rise.turn(&[1, 3, 4], &[1, 4, 3]).is_err());
    assert!(rise.turn(&[1, 3, 4], &[1, 3]).is_err());
    assert!(rise.turn(&[1, 3, 4], &[1, 3, 5]).is_err());
    // The gate holds until both rails have fallen.
    assert_eq!(fall.turn(&[1, 3, 4], &[3, 1, 4]), Ok(1));
    assert_eq!(fall.play(&[1, 4, 3]), None);
}

/// A relaxed gate falls with the first of its rails, so more falls are legal.
#[test]
fn a_relaxed_gate() {
    let mut file = unhex(MARKED[0].1);
    file[3] += 128;
    let stage = read_stage(&file).unwrap();
    let rules = Rules::new(&stage).unwrap();
    let [rise, fall] = runs_of(&rules, &stage, 3);
    assert_eq!(rise.turn(&[1, 3, 4], &[3, 1, 4]), Ok(1));
    assert_eq!(fall.turn(&[1, 3, 4], &[3, 4, 1]), Ok(2));
    assert_eq!(fall.turn(&[3, 4, 1], &[1, 4, 3]), Ok(3));
    assert_eq!(fall.play(&[4, 1, 3]), None);
}

/// All accepted examples of few nets.
#[test]
fn accepted_examples() {
    let (mut exchanges, mut relaxed) = (0, 0);
    for example in examples() {
        if check(&example.pair.stage, &example.pair.reference) != ACCEPTED {
            continue;
        }
        let stage = read_stage(&example.pair.stage).unwrap();
        if stage.nets() <= MOST_NETS && stage.inputs <= 6 {
            relaxed += u64::from(stage.gates.iter().any(|gate| is_relaxed(gate.kind)));
            exchanges += turn_recorded_runs(&stage)
                .unwrap_or_else(|broken| panic!("{}: {broken}", example.name));
        }
    }
    println!("{exchanges} exchanges");
    assert!(
        exchanges >= 10_000 && relaxed >= 2,
        "{exchanges}, {relaxed}"
    );
}

/// Every two full runs of small examples, not only recorded ones.
#[test]
fn every_two_runs() {
    let mut pairs = 0;
    for example in examples() {
        let names = [
            "and",
            "xor",
            "half-adder",
            "half-adder-relaxed",
            "full-adder",
            "and-one-word",
        ];
        if !names.contains(&example.name.as_str()) {
            continue;
        }
        let stage = read_stage(&example.pair.stage).unwrap();
        let rules = Rules::new(&stage).unwrap();
        for word in stage.words() {
            for run in runs_of(&rules, &stage, word) {
                // All lists of a length, each made longer by every step.
                let mut lists: Vec<Vec<usize>> = vec![vec![]];
                loop {
                    let longer: Vec<Vec<usize>> = lists
                        .iter()
                        .flat_map(|list| (0..stage.nets()).map(|net| [&list[..], &[net]].concat()))
                        .filter(|list| run.play(list).is_some())
                        .collect();
                    if longer.is_empty() {
                        break;
                    }
                    lists = longer;
                }
                for from in &lists {
                    for to in &lists {
                        run.turn(from, to)
                            .unwrap_or_else(|broken| panic!("{}: {broken}", example.name));
                        pairs += 1;
                    }
                }
            }
        }
    }
    assert!(pairs > 500, "{pairs}");
}
