//! A load that can be repeated (document 02, M-113) in the plainest way: a reference is drawn from a
//! seed and written into a lent buffer.

use crate::files::write_reference;
use crate::judge::{Boolean, Reference, Verdict, ACCEPTED, NONE, NOT, ROW};
use crate::make::Made;

/// "39 n or g out of range; 40 more than 16 outputs (file 0); 41 buffer too short."
pub const OUT_OF_RANGE: Verdict = [39, NONE, 0, 0];
pub const TOO_MANY_OUTPUTS: Verdict = [40, NONE, 0, 0];
pub const TOO_SHORT: Verdict = [41, ROW, 0, 0];

/// "Given a 32-bit seed s, n of 1 to 10 and g of 0 to 40": numbers that the call is handed, in range
/// or not.
#[derive(Clone, Copy, PartialEq, Eq, Debug)]
pub struct Load {
    pub seed: u32,
    pub inputs: usize,
    pub gates: usize,
}

/// The seed, which each draw replaces.
struct Draws {
    s: u64,
}

impl Draws {
    /// "Each draw replaces s by s plus 2,654,435,769, the sum taken modulo 4,294,967,296, and yields
    /// the new s exclusive-or its quotient by 65,536."
    fn draw(&mut self) -> u64 {
        self.s = (self.s + 2_654_435_769) % 4_294_967_296;
        self.s ^ (self.s / 65_536)
    }

    fn draw_mod(&mut self, modulus: usize) -> usize {
        (self.draw() % modulus as u64) as usize
    }
}

/// The reference of a load in range, with however many outputs.
pub fn drawn_reference(load: &Load) -> Reference {
    let mut draws = Draws {
        s: load.seed.into(),
    };
    let mut reference = Reference {
        inputs: load.inputs,
        ..Reference::default()
    };
    // "Per gate: operation 1 plus draw mod 6, then each operand it needs, a draw mod the signals so
    // far."
    for _ in 0..load.gates {
        let operation = 1 + draws.draw_mod(6);
        let needed = if operation == NOT { 1 } else { 2 };
        let signals = reference.signals();
        let operands = (0..needed).map(|_| draws.draw_mod(signals)).collect();
        reference.gates.push(Boolean {
            operation,
            operands,
        });
    }
    // "Signals that no gate uses become outputs, in order, after the gates."
    let used = |signal: &usize| {
        let mut gates = reference.gates.iter();
        gates.any(|gate| gate.operands.contains(signal))
    };
    let outputs = (0..reference.signals()).filter(|signal| !used(signal));
    reference.outputs = outputs.collect();
    reference
}

/// Writes the reference of a load into a lent buffer: 39, 40 and 41 "in this order".
pub fn draw_reference(load: &Load, buffer: &mut [u8]) -> Made {
    let refused = |verdict: Verdict| Made { verdict, len: 0 };
    if !(1..=10).contains(&load.inputs) || load.gates > 40 {
        return refused(OUT_OF_RANGE);
    }
    let reference = drawn_reference(load);
    if reference.outputs.len() > 16 {
        return refused(TOO_MANY_OUTPUTS);
    }
    let file = write_reference(&reference);
    if buffer.len() < file.len() {
        return refused(TOO_SHORT);
    }
    buffer[..file.len()].copy_from_slice(&file);
    Made {
        verdict: ACCEPTED,
        len: file.len(),
    }
}

/// A load of each seed for a run over many seeds, with all counts of inputs and of gates among them.
pub fn load_of(seed: u32) -> Load {
    let mix = seed as usize;
    Load {
        seed,
        inputs: 1 + mix % 10,
        gates: mix / 10 % 41,
    }
}
