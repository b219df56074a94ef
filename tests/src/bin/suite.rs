//! Writes what the program `suite` reads and what it must print, and the same of the other programs,
//! into their crates, and prints a list of the cases.

use fovaheju_tests::suite::{calls, programs};

fn main() -> std::io::Result<()> {
    for program in programs() {
        program.store()?;
    }
    for call in calls() {
        for (number, case) in call.cases.iter().enumerate() {
            let line: String = case.lines[0].chars().take(40).collect();
            println!("{} {number:03} {line:40} {}", call.name, case.about);
        }
    }
    Ok(())
}
