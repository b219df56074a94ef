//! Prints how often each verdict number comes over the generated pairs and rows.
//! Arguments: seed and count.

use fovaheju_tests::generate::{pair, row_case};
use fovaheju_tests::judge::{check, settled_row};
use std::collections::BTreeMap;
use std::time::Instant;

fn main() {
    let mut arguments = std::env::args()
        .skip(1)
        .map(|text| text.parse::<u64>().expect("a number"));
    let seed = arguments.next().unwrap_or(1);
    let count = arguments.next().unwrap_or(20_000);

    let mut by_number: BTreeMap<u64, u64> = BTreeMap::new();
    let mut by_file: BTreeMap<(u64, u64), u64> = BTreeMap::new();
    let mut families: BTreeMap<&str, BTreeMap<u64, u64>> = BTreeMap::new();
    let mut unlike = 0;
    let mut long = 0;
    let mut small = 0;
    let mut slowest = (0.0, 0);
    let start = Instant::now();
    for index in 0..count {
        let generated = pair(seed, index);
        let begin = Instant::now();
        let verdict = check(&generated.pair.stage, &generated.pair.reference);
        let seconds = begin.elapsed().as_secs_f64();
        if seconds > slowest.0 {
            slowest = (seconds, index);
        }
        *by_number.entry(verdict[0]).or_default() += 1;
        *by_file.entry((verdict[0], verdict[1])).or_default() += 1;
        *families
            .entry(generated.family)
            .or_default()
            .entry(verdict[0])
            .or_default() += 1;
        long +=
            u64::from(generated.pair.stage.len() > 8_192 || generated.pair.reference.len() > 8_192);
        small +=
            u64::from(generated.pair.stage.len() < 120 && generated.pair.reference.len() < 120);
        if !generated.known.agrees(verdict) {
            unlike += 1;
            if unlike < 10 {
                println!(
                    "pair {index}, {}: {:?} but {verdict:?}",
                    generated.family, generated.known
                );
            }
        }
    }
    println!(
        "{count} pairs of seed {seed} in {:.1} s, slowest {:.2} s (pair {})",
        start.elapsed().as_secs_f64(),
        slowest.0,
        slowest.1
    );
    println!("{small} of at most 120 bytes each, {long} with more than 8,192 bytes, {unlike} not as known");
    for (number, count) in &by_number {
        let files: Vec<String> = by_file
            .iter()
            .filter(|((n, _), _)| n == number)
            .map(|((_, file), count)| format!("file {file}: {count}"))
            .collect();
        println!("  {number:2}  {count:6}   {}", files.join(", "));
    }
    for (family, numbers) in &families {
        let line: Vec<String> = numbers
            .iter()
            .map(|(number, count)| format!("{number}:{count}"))
            .collect();
        println!("  {family:24} {}", line.join(" "));
    }

    let mut rows: BTreeMap<u64, u64> = BTreeMap::new();
    for index in 0..count {
        let mut case = row_case(seed, index);
        *rows
            .entry(settled_row(&case.stage, &mut case.row)[0])
            .or_default() += 1;
    }
    println!("{count} rows: {rows:?}");
}
