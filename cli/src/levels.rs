//! The levels of the nets of a stage in the situations that a verdict speaks of. All of them come from the proved settled-row call: where
//! a gate is held low or the stage is on its way back to NULL, from that call on a stage changed to match.

use crate::netlist::{relaxed, Stage};

/// High or low, of each net.
pub type Row = Vec<bool>;

/// What is left out of a word, or kept of it.
#[derive(Clone, Copy, PartialEq, Eq, Debug)]
pub enum Odd {
    Input(usize),
    Gate(usize),
}

/// A gate that never rises: TH22 on both rails of input 0.
const NEVER: [u8; 9] = [2, 0, 0, 1, 0, 0xFF, 0xFF, 0xFF, 0xFF];
/// A gate that is high while rail 0 of input 0 is.
const ALWAYS: [u8; 9] = [1, 0, 0, 0, 0, 0xFF, 0xFF, 0xFF, 0xFF];

/// A readable stage file without loops, and what it holds.
pub struct Levels<'a> {
    file: &'a [u8],
    stage: &'a Stage,
}

impl<'a> Levels<'a> {
    pub fn new(file: &'a [u8], stage: &'a Stage) -> Levels<'a> {
        Levels { file, stage }
    }

    /// The rails of these values; no value is NULL.
    fn rails(&self, values: &[Option<bool>]) -> Vec<u8> {
        let mut row = vec![0; self.stage.nets()];
        for (input, value) in values.iter().enumerate() {
            if let Some(value) = value {
                row[2 * input + usize::from(*value)] = 1;
            }
        }
        row
    }

    fn settled(&self, file: &[u8], mut row: Vec<u8>) -> Option<Row> {
        let verdict = fovaheju::settled_row(file, &mut row);
        verdict.accepts().then(|| row.iter().map(|&level| level == 1).collect())
    }

    /// What it settles to where these inputs have come; no value is NULL.
    pub fn settled_for(&self, values: &[Option<bool>]) -> Option<Row> {
        self.settled(self.file, self.rails(values))
    }

    /// The rest of a word.
    pub fn rest(&self, word: &[bool]) -> Option<Row> {
        self.settled_for(&word.iter().map(|&value| Some(value)).collect::<Vec<Option<bool>>>())
    }

    /// The word with an input still NULL, or with a gate held low.
    pub fn without(&self, word: &[bool], odd: Odd) -> Option<Row> {
        let mut values: Vec<Option<bool>> = word.iter().map(|&value| Some(value)).collect();
        let mut file = self.file.to_vec();
        match odd {
            Odd::Input(input) => *values.get_mut(input)? = None,
            Odd::Gate(gate) => self.put(&mut file, gate, NEVER)?,
        }
        self.settled(&file, self.rails(&values))
    }

    /// From the rest of the word all inputs have fallen and the gates have followed, but for an input that keeps its DATA or a gate that is
    /// kept high. On the way back a gate that is low stays low, one with hold stays high while some pin is high (so it is an OR of its pins),
    /// and a relaxed one while its set expression holds.
    pub fn fallen(&self, word: &[bool], odd: Odd) -> Option<Row> {
        let rest = self.rest(word)?;
        let mut file = self.file.to_vec();
        let mut values = vec![None; self.stage.inputs];
        match odd {
            Odd::Input(input) => *values.get_mut(input)? = Some(*word.get(input)?),
            Odd::Gate(_) => {
                // Rail 0 of input 0 keeps the gate high. Who else reads it is put on rail 1, which is low, as both rails are by now.
                *values.get_mut(0)? = Some(false);
                for gate in &self.stage.gates {
                    for pin in (0..gate.pins.len()).filter(|&pin| gate.pins[pin] == 0) {
                        *file.get_mut(gate.at + 2 + 2 * pin)? = 1;
                    }
                }
            }
        }
        for (k, gate) in self.stage.gates.iter().enumerate() {
            if odd == Odd::Gate(k) {
                self.put(&mut file, k, ALWAYS)?;
            } else if !rest[self.stage.net_of(k)] {
                self.put(&mut file, k, NEVER)?;
            } else if !relaxed(gate.kind) {
                *file.get_mut(gate.at + 1)? = [1, 3, 8][gate.pins.len().checked_sub(2)?.min(2)];
            }
        }
        let mut row = self.settled(&file, self.rails(&values))?;
        if matches!(odd, Odd::Gate(_)) {
            row[0] = false;
        }
        Some(row)
    }

    /// Puts another gate in the place of one.
    fn put(&self, file: &mut [u8], gate: usize, bytes: [u8; 9]) -> Option<()> {
        let at = self.stage.gates.get(gate)?.at;
        file.get_mut(at + 1..at + 10)?.copy_from_slice(&bytes);
        Some(())
    }
}
