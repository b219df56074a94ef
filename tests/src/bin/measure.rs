//! What `scripts/measure` counts the instructions of.
//!
//! `measure list` prints a line for each netlist: name, inputs, gates and gate evaluations.
//! `measure run` calls the proved check and then the judge on each of them, in that order.

use fovaheju_tests::catalogue::xor_chain_reference;
use fovaheju_tests::circuits::dual_rail;
use fovaheju_tests::files::{examples_folder, load_example, write_pair, FilePair};
use fovaheju_tests::judge::{rails_of_word, read_stage, settle, Stage, Verdict, WordOrder, SET};
use fovaheju_tests::library;
use fovaheju_tests::suite::verdict_in;
use std::sync::LazyLock;

/// Stored examples, accepted or refused by 32 alone, which takes as long, from large to small.
const EXAMPLES: [&str; 14] = [
    "timing-network",
    "timing-chain",
    "timing-chain-reversed",
    "multiplier-4x6-complete",
    "null-pair-first",
    "null-pair-last",
    "multiplier-4x4",
    "multiplier-3x3-source",
    "mac-4-2x2-complete",
    "adder-5",
    "parity-10",
    "c17",
    "full-adder",
    "and",
];

/// Chains of XORs, each of two gates: inputs and operations. Up to the fourth they grow in gates,
/// from there on they shrink in inputs.
const CHAINS: [(usize, usize); 7] = [
    (10, 8),
    (10, 16),
    (10, 32),
    (10, 64),
    (8, 64),
    (6, 64),
    (4, 64),
];

fn netlists() -> Vec<(String, FilePair)> {
    let examples = EXAMPLES.iter().map(|name| {
        let (pair, _) = load_example(&examples_folder(), name).expect("an example");
        (name.to_string(), pair)
    });
    let chains = CHAINS.iter().map(|&(inputs, operations)| {
        let reference = xor_chain_reference(inputs, operations);
        let pair = write_pair(&dual_rail(&reference), &reference);
        ("chain".to_string(), pair)
    });
    examples.chain(chains).collect()
}

/// The gate evaluations of the check as document 01 words it: each word settles the gates once
/// for 13, once for each input for 14, and once for each high gate for 15.
fn evaluations(stage: &Stage) -> usize {
    let words = stage.words();
    words
        .into_iter()
        .map(|word| {
            let row = settle(stage, &rails_of_word(stage.inputs, word), None);
            let high = row[2 * stage.inputs..].iter().filter(|&&high| high).count();
            (1 + stage.inputs + high) * stage.gates.len()
        })
        .sum()
}

/// The judge under a name that the measuring can find.
#[no_mangle]
#[inline(never)]
extern "C" fn judge_check(pair: &FilePair, verdict: &mut Verdict) {
    *verdict = verdict_in(WordOrder::default(), pair);
}

fn main() {
    match std::env::args().nth(1).as_deref() {
        Some("list") => {
            for (name, pair) in netlists() {
                let stage = read_stage(&pair.stage).expect("a readable stage");
                let (inputs, gates) = (stage.inputs, stage.gates.len());
                println!("{name} {inputs} {gates} {}", evaluations(&stage));
            }
        }
        Some("run") => {
            // The judge's table is made before the counting.
            LazyLock::force(&SET);
            for (name, pair) in netlists() {
                let proved = library::check(0, &pair.stage, &pair.reference);
                let mut judged = [u64::MAX; 4];
                judge_check(&pair, &mut judged);
                assert_eq!(proved, judged, "{name}");
                assert!(matches!(judged[0], 0 | 32), "{name}: {judged:?}");
            }
        }
        _ => {
            eprintln!("usage: measure list | run");
            std::process::exit(2);
        }
    }
}
