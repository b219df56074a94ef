//! Plays all runs of generated pairs and prints what was tried.
//! Arguments: seed and count.

use fovaheju_tests::explore::explore_pairs;

fn main() {
    let mut arguments = std::env::args()
        .skip(1)
        .map(|text| text.parse::<u64>().expect("a number"));
    let seed = arguments.next().unwrap_or(1);
    let count = arguments.next().unwrap_or(5_000);
    match explore_pairs(seed, count) {
        Ok(summary) => println!("{summary}"),
        Err(broken) => {
            println!("{broken}");
            std::process::exit(1);
        }
    }
}
