//! Every small stage (document 02, M-112) in the plainest way: the whole family is written down and
//! sorted, and the next file is the one behind.

use crate::files::write_stage;
use crate::judge::{least_gate_on_a_loop, read_stage, Gate, Stage, Verdict, ACCEPTED, ROW, STAGE};
use crate::make::Made;
use std::sync::LazyLock;

/// "36 none further (file 1); 37 file not in the family; 38 buffer too short."
pub const NONE_FURTHER: Verdict = [36, STAGE, 0, 0];
pub const NOT_IN_THE_FAMILY: Verdict = [37, STAGE, 0, 0];
pub const TOO_SHORT: Verdict = [38, ROW, 0, 0];

/// "By inputs, then gates, then bytes compared as unsigned numbers."
type Key = (usize, usize, Vec<u8>);

fn key(stage: &Stage) -> Key {
    (stage.inputs, stage.gates.len(), write_stage(stage))
}

/// "All stages with 1 or 2 inputs, 0 to 2 gates of kinds 1 and 2, one output, gates first, no care
/// list, no loop." A file that does not read has no stage.
pub fn member(file: &[u8]) -> Option<Stage> {
    let stage = read_stage(file).ok()?;
    let small = (1..=2).contains(&stage.inputs)
        && stage.gates.len() <= 2
        && stage.gates.iter().all(|gate| [1, 2].contains(&gate.kind))
        && stage.outputs.len() == 1
        && stage.care.is_empty()
        && least_gate_on_a_loop(&stage).is_none();
    // Written again, its gates stand first.
    (small && write_stage(&stage) == file).then_some(stage)
}

/// All lists of so many gates of kinds 1 and 2 with pins on these nets.
fn gate_lists(count: usize, nets: usize) -> Vec<Vec<Gate>> {
    let mut lists = vec![Vec::new()];
    for _ in 0..count {
        let mut longer = Vec::new();
        for list in &lists {
            for kind in [1, 2] {
                for (a, b) in pairs(nets) {
                    let mut gates: Vec<Gate> = list.clone();
                    gates.push(Gate {
                        kind,
                        pins: vec![a, b],
                    });
                    longer.push(gates);
                }
            }
        }
        lists = longer;
    }
    lists
}

fn pairs(nets: usize) -> impl Iterator<Item = (usize, usize)> {
    (0..nets).flat_map(move |a| (0..nets).map(move |b| (a, b)))
}

/// The family in its order: every stage that can be written with so many inputs and gates, but for
/// those with a loop.
static KEYS: LazyLock<Vec<Key>> = LazyLock::new(|| {
    let mut keys: Vec<Key> = Vec::new();
    for inputs in 1..=2 {
        for count in 0..=2 {
            let nets = 2 * inputs + count;
            for gates in gate_lists(count, nets) {
                let mut stage = Stage {
                    inputs,
                    gates,
                    outputs: vec![],
                    care: vec![],
                };
                if least_gate_on_a_loop(&stage).is_some() {
                    continue;
                }
                for (rail_0, rail_1) in pairs(nets) {
                    stage.outputs = vec![[rail_0, rail_1]];
                    keys.push(key(&stage));
                }
            }
        }
    }
    keys.sort();
    keys
});

/// Its files.
pub static FAMILY: LazyLock<Vec<Vec<u8>>> =
    LazyLock::new(|| KEYS.iter().map(|key| key.2.clone()).collect());

/// Where the file after this one stands in the family, or the refusal. After the empty file, the
/// first; after a file of the family, the first that is greater. "37 first, then 36."
fn place_after(file: &[u8]) -> Result<usize, Verdict> {
    if file.is_empty() {
        return Ok(0);
    }
    let stage = member(file).ok_or(NOT_IN_THE_FAMILY)?;
    let here = key(&stage);
    let place = KEYS.partition_point(|other| *other <= here);
    if place < KEYS.len() {
        Ok(place)
    } else {
        Err(NONE_FURTHER)
    }
}

/// "Given one file of this family, or an empty one, write the next", into a lent buffer.
pub fn next_stage(file: &[u8], buffer: &mut [u8]) -> Made {
    let refused = |verdict: Verdict| Made { verdict, len: 0 };
    let next = match place_after(file) {
        Ok(place) => &FAMILY[place],
        Err(verdict) => return refused(verdict),
    };
    if buffer.len() < next.len() {
        return refused(TOO_SHORT);
    }
    buffer[..next.len()].copy_from_slice(next);
    Made {
        verdict: ACCEPTED,
        len: next.len(),
    }
}
