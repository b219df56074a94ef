//! play_runs: the judge of runs as a program. Each line of standard input is a run, its parts with spaces between them: the stage and the reference as
//! hexadecimal bytes ('-' for no reference, of which 13 alone speaks), 'highest' or 'lowest' for input 0 in the names of words, the number, the place
//! and the word of a verdict, where the fall begins, and the nets that switch. Prints for each 'shown', or why the run does not show what the verdict
//! says; of 0 that is a full rise and fall.

use fovaheju_tests::judge::{read_pipeline, read_reference, Reference, ORDERS, STAGE};
use fovaheju_tests::run::{shows, Run};
use fovaheju_tests::wiring::Wiring;
use std::io;

fn bytes(text: &str) -> Option<Vec<u8>> {
    let pair = |k: usize| u8::from_str_radix(text.get(k..k + 2)?, 16).ok();
    (0..text.len()).step_by(2).map(pair).collect()
}

fn judged(line: &str) -> Option<String> {
    let mut parts = line.split_whitespace();
    // In a run a register is two wires.
    let stage = Wiring::of(&read_pipeline(&bytes(parts.next()?)?).ok()?).wired();
    let reference = match parts.next()? {
        "-" => Reference::default(),
        file => read_reference(&bytes(file)?).ok()?,
    };
    let order = ORDERS[usize::from(parts.next()? == "lowest")];
    let numbers: Vec<u64> = parts.map(|part| part.parse().ok()).collect::<Option<_>>()?;
    let [number, at, name, fall, nets @ ..] = numbers.as_slice() else {
        return None;
    };
    let nets: Vec<u16> = nets.iter().map(|&net| net as u16).collect();
    let (rise, fall) = nets.split_at_checked(*fall as usize)?;
    let run = Run {
        rise: rise.to_vec(),
        fall: fall.to_vec(),
    };
    let word = order.named(stage.inputs, *name);
    let shown = shows(&stage, &reference, [*number, STAGE, *at, *name], word, &run);
    Some(shown.err().unwrap_or("shown".to_string()))
}

fn main() -> io::Result<()> {
    for line in io::stdin().lines() {
        println!("{}", judged(&line?).unwrap_or("no run".to_string()));
    }
    Ok(())
}
