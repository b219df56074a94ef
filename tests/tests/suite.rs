//! The stored cases of the programs: their files are those described, and the output that they are
//! held to is the judge's.

use fovaheju_tests::files::MOST_BYTES_READ;
use fovaheju_tests::suite::{calls, programs, Stored};
use std::collections::BTreeSet;

#[test]
fn stored_files_and_output() {
    for program in programs() {
        program.is_stored();
    }
}

/// The cases of a call have numbers of three digits and are alike in form, and the program `suite`
/// reads them whole.
#[test]
fn the_program_reads_all_cases() {
    let calls = calls();
    for call in &calls {
        assert!(call.cases.len() < 1000, "{}", call.name);
        let form = |case: &Stored| (case.operands.len(), case.lines.len());
        for case in &call.cases {
            assert_eq!(form(case), form(&call.cases[0]), "{}", case.about);
            for operand in &case.operands {
                assert!(operand.len() as u64 <= MOST_BYTES_READ, "{}", case.about);
            }
        }
    }
    let bytes: BTreeSet<u8> = calls.iter().map(|call| call.byte).collect();
    assert_eq!(bytes.len(), calls.len());
}
