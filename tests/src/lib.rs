//! What the tests share: a second, independent implementation of document 01, what is needed to try another one against it,
//! where the repository is, and the papers' set expressions read as text.

pub mod catalogue;
pub mod circuits;
pub mod compare;
pub mod compare_pipelines;
pub mod compare_runs;
pub mod draw;
pub mod exchange;
pub mod explore;
pub mod files;
pub mod generate;
pub mod join;
pub mod judge;
#[cfg(feature = "library")]
pub mod library;
pub mod make;
pub mod next;
pub mod run;
pub mod suite;
pub mod text;
pub mod wiring;

use std::path::PathBuf;

/// The repository's root folder.
pub fn root() -> PathBuf {
    PathBuf::from(env!("CARGO_MANIFEST_DIR")).join("..")
}

/// A file of the repository, as text.
pub fn read(path: &str) -> String {
    std::fs::read_to_string(root().join(path)).unwrap_or_else(|e| panic!("{path}: {e}"))
}

/// The value of a set expression such as `AB+ACD` at a pattern of pins, pin A the lowest bit.
pub fn holds(expression: &str, pattern: u8) -> bool {
    expression.split('+').any(|product| {
        let product = product.trim();
        assert!(!product.is_empty(), "an empty product in {expression}");
        product.bytes().all(|pin| {
            assert!((b'A'..=b'D').contains(&pin), "no pin: {expression}");
            pattern & (1 << (pin - b'A')) != 0
        })
    })
}

/// How many pins an expression names, from A on.
pub fn pins(expression: &str) -> u8 {
    expression
        .bytes()
        .filter(|b| b.is_ascii_uppercase())
        .map(|b| b - b'A' + 1)
        .max()
        .unwrap()
}
