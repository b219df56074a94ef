//! Building of stages and references: the usual dual-rail components, the
//! templates that turn a reference into a stage, and netlists given as text.

use crate::judge::{
    Boolean, Gate, Part, Pipeline, Reference, Stage, AND, KINDS, NAND, NOR, NOT, OR, OUTSIDE, XOR,
};
use std::collections::HashMap;

/// The number of a kind, its name in capital or small letters; a leading `r` is the relaxed kind
/// (M-109 of document 02).
pub fn kind_named(name: &str) -> usize {
    if let Some(cell) = name.strip_prefix('r') {
        return 128 + kind_named(cell);
    }
    let place = KINDS
        .iter()
        .position(|(kind, _)| kind.eq_ignore_ascii_case(name));
    place.unwrap_or_else(|| panic!("no kind is called {name}")) + 1
}

/// A dual-rail signal of a stage: the nets of its rails.
#[derive(Clone, Copy, PartialEq, Eq, Debug)]
pub struct Signal {
    pub rail_0: usize,
    pub rail_1: usize,
}

impl Signal {
    /// NOT swaps rails.
    pub fn inverted(self) -> Signal {
        Signal {
            rail_0: self.rail_1,
            rail_1: self.rail_0,
        }
    }
}

/// A stage under construction.
#[derive(Clone, Debug)]
pub struct StageBuilder {
    pub stage: Stage,
}

impl StageBuilder {
    pub fn new(inputs: usize) -> StageBuilder {
        StageBuilder {
            stage: Stage {
                inputs,
                ..Stage::default()
            },
        }
    }

    pub fn input(&self, input: usize) -> Signal {
        assert!(input < self.stage.inputs);
        Signal {
            rail_0: 2 * input,
            rail_1: 2 * input + 1,
        }
    }

    pub fn inputs(&self) -> Vec<Signal> {
        (0..self.stage.inputs)
            .map(|input| self.input(input))
            .collect()
    }

    /// Adds a gate and gives the net that it drives.
    pub fn gate(&mut self, kind: &str, pins: &[usize]) -> usize {
        let gate = Gate {
            kind: kind_named(kind),
            pins: pins.to_vec(),
        };
        assert_eq!(
            gate.pins.len(),
            crate::judge::pin_count(gate.kind),
            "pins of {kind}"
        );
        self.stage.gates.push(gate);
        self.stage.nets() - 1
    }

    pub fn output(&mut self, signal: Signal) {
        self.stage.outputs.push([signal.rail_0, signal.rail_1]);
    }

    /// Input-complete AND (Figure 7 of source document 001, and M-107 of document 02).
    pub fn and(&mut self, a: Signal, b: Signal) -> Signal {
        let rail_1 = self.gate("TH22", &[a.rail_1, b.rail_1]);
        let rail_0 = self.gate("THand0", &[a.rail_0, b.rail_0, a.rail_1, b.rail_1]);
        Signal { rail_0, rail_1 }
    }

    /// Input-incomplete AND (Figure 6): DATA0 as soon as one operand is DATA0.
    pub fn and_incomplete(&mut self, a: Signal, b: Signal) -> Signal {
        let rail_1 = self.gate("TH22", &[a.rail_1, b.rail_1]);
        let rail_0 = self.gate("TH12", &[a.rail_0, b.rail_0]);
        Signal { rail_0, rail_1 }
    }

    /// Input-complete OR.
    pub fn or(&mut self, a: Signal, b: Signal) -> Signal {
        let rail_0 = self.gate("TH22", &[a.rail_0, b.rail_0]);
        let rail_1 = self.gate("THand0", &[a.rail_1, b.rail_1, a.rail_0, b.rail_0]);
        Signal { rail_0, rail_1 }
    }

    /// Input-incomplete OR: DATA1 as soon as one operand is DATA1.
    pub fn or_incomplete(&mut self, a: Signal, b: Signal) -> Signal {
        let rail_0 = self.gate("TH22", &[a.rail_0, b.rail_0]);
        let rail_1 = self.gate("TH12", &[a.rail_1, b.rail_1]);
        Signal { rail_0, rail_1 }
    }

    /// XOR of THxor0 and TH24comp (M-107 of document 02).
    pub fn xor(&mut self, a: Signal, b: Signal) -> Signal {
        let pins = [a.rail_0, b.rail_0, a.rail_1, b.rail_1];
        let rail_0 = self.gate("THxor0", &pins);
        let rail_1 = self.gate("TH24comp", &pins);
        Signal { rail_0, rail_1 }
    }

    /// XOR of two TH24comp, the sum half of Figure 9.
    pub fn xor_of_two_comp(&mut self, a: Signal, b: Signal) -> Signal {
        let rail_1 = self.gate("TH24comp", &[a.rail_0, b.rail_0, a.rail_1, b.rail_1]);
        let rail_0 = self.gate("TH24comp", &[a.rail_0, b.rail_1, b.rail_0, a.rail_1]);
        Signal { rail_0, rail_1 }
    }

    /// The unobservable XOR of Figure 8: the TH12 gate also rises where it is not
    /// needed.
    pub fn xor_unobservable(&mut self, a: Signal, b: Signal) -> Signal {
        let either_0 = self.gate("TH12", &[a.rail_0, b.rail_0]);
        let both_0 = self.gate("TH22", &[a.rail_0, b.rail_0]);
        let rail_1 = self.gate("TH33w2", &[either_0, a.rail_1, b.rail_1]);
        let rail_0 = self.gate("TH23w2", &[both_0, a.rail_1, b.rail_1]);
        Signal { rail_0, rail_1 }
    }

    /// Half-adder (Figure 9): sum and carry.
    pub fn half_adder(&mut self, a: Signal, b: Signal) -> (Signal, Signal) {
        let sum = self.xor_of_two_comp(a, b);
        let carry = self.and_incomplete(a, b);
        (sum, carry)
    }

    /// Full adder (Figure 10): sum and carry.
    pub fn full_adder(&mut self, a: Signal, b: Signal, c: Signal) -> (Signal, Signal) {
        let carry_0 = self.gate("TH23", &[a.rail_0, b.rail_0, c.rail_0]);
        let carry_1 = self.gate("TH23", &[a.rail_1, b.rail_1, c.rail_1]);
        let sum_1 = self.gate("TH34w2", &[carry_0, a.rail_1, b.rail_1, c.rail_1]);
        let sum_0 = self.gate("TH34w2", &[carry_1, a.rail_0, b.rail_0, c.rail_0]);
        let sum = Signal {
            rail_0: sum_0,
            rail_1: sum_1,
        };
        let carry = Signal {
            rail_0: carry_0,
            rail_1: carry_1,
        };
        (sum, carry)
    }

    /// OR of any number of nets by trees of TH12, TH13 and TH14. One net is
    /// itself; of no net there is none.
    pub fn any_of(&mut self, nets: &[usize]) -> Option<usize> {
        let mut nets = nets.to_vec();
        while nets.len() > 1 {
            let mut next = Vec::new();
            for group in nets.chunks(4) {
                next.push(match group.len() {
                    1 => group[0],
                    2 => self.gate("TH12", group),
                    3 => self.gate("TH13", group),
                    _ => self.gate("TH14", group),
                });
            }
            nets = next;
        }
        nets.pop()
    }

    /// Delay-insensitive sum of products: one gate for each word of the inputs,
    /// and each output rail the OR of the words that call for it.
    /// `outputs[j][w]` is output j's value in word w. For 1 to 4 inputs. Where there is a care
    /// list, other words have no gate.
    pub fn sum_of_words(&mut self, outputs: &[Vec<bool>]) {
        let n = self.stage.inputs;
        let cared_for: Vec<usize> = self.stage.words().iter().map(|&w| w as usize).collect();
        let words: Vec<usize> = cared_for
            .iter()
            .map(|&word| {
                let rails: Vec<usize> = (0..n).map(|i| 2 * i + (word >> i & 1)).collect();
                match n {
                    1 => rails[0],
                    2 => self.gate("TH22", &rails),
                    3 => self.gate("TH33", &rails),
                    4 => self.gate("TH44", &rails),
                    _ => panic!("one gate takes at most four rails"),
                }
            })
            .collect();
        for values in outputs {
            let mut rails = [0, 0];
            for (rail, net) in rails.iter_mut().enumerate() {
                let calling: Vec<usize> = (0..words.len())
                    .filter(|&w| values[cared_for[w]] == (rail == 1))
                    .map(|w| words[w])
                    .collect();
                // A rail that no word calls for stays low: no input has both
                // rails high.
                *net = match self.any_of(&calling) {
                    Some(net) => net,
                    None => self.gate("TH22", &[0, 1]),
                };
            }
            self.stage.outputs.push(rails);
        }
    }
}

/// A reference under construction; signals are their numbers.
#[derive(Clone, Debug)]
pub struct ReferenceBuilder {
    pub reference: Reference,
}

impl ReferenceBuilder {
    pub fn new(inputs: usize) -> ReferenceBuilder {
        ReferenceBuilder {
            reference: Reference {
                inputs,
                ..Reference::default()
            },
        }
    }

    pub fn gate(&mut self, operation: usize, operands: &[usize]) -> usize {
        self.reference.gates.push(Boolean {
            operation,
            operands: operands.to_vec(),
        });
        self.reference.signals() - 1
    }

    pub fn not(&mut self, a: usize) -> usize {
        self.gate(NOT, &[a])
    }

    pub fn and(&mut self, a: usize, b: usize) -> usize {
        self.gate(AND, &[a, b])
    }

    pub fn or(&mut self, a: usize, b: usize) -> usize {
        self.gate(OR, &[a, b])
    }

    pub fn xor(&mut self, a: usize, b: usize) -> usize {
        self.gate(XOR, &[a, b])
    }

    pub fn nand(&mut self, a: usize, b: usize) -> usize {
        self.gate(NAND, &[a, b])
    }

    pub fn nor(&mut self, a: usize, b: usize) -> usize {
        self.gate(NOR, &[a, b])
    }

    pub fn output(&mut self, signal: usize) {
        self.reference.outputs.push(signal);
    }

    /// A chain of one operation over all signals.
    pub fn chain(&mut self, operation: usize, signals: &[usize]) -> usize {
        let (&first, rest) = signals.split_first().expect("a chain has a first signal");
        rest.iter().fold(first, |so_far, &signal| {
            self.gate(operation, &[so_far, signal])
        })
    }

    pub fn half_adder(&mut self, a: usize, b: usize) -> (usize, usize) {
        (self.xor(a, b), self.and(a, b))
    }

    pub fn full_adder(&mut self, a: usize, b: usize, c: usize) -> (usize, usize) {
        let (half, first) = self.half_adder(a, b);
        let (sum, second) = self.half_adder(half, c);
        (sum, self.or(first, second))
    }

    /// The signal that is 1 in exactly one word.
    pub fn one_word(&mut self, word: u64) -> usize {
        let literals: Vec<usize> = (0..self.reference.inputs)
            .map(|input| {
                if word >> input & 1 == 1 {
                    input
                } else {
                    self.not(input)
                }
            })
            .collect();
        self.chain(AND, &literals)
    }

    /// The signal with the given value in each word.
    pub fn by_words(&mut self, values: &[bool]) -> usize {
        let calling: Vec<usize> = (0..values.len())
            .filter(|&word| values[word])
            .map(|word| self.one_word(word as u64))
            .collect();
        if calling.is_empty() {
            self.xor(0, 0)
        } else {
            self.chain(OR, &calling)
        }
    }
}

/// A stage from a reference (M-107 of document 02): NOT swaps rails, every other operation
/// becomes two gates, gates in reference order.
pub fn dual_rail(reference: &Reference) -> Stage {
    let mut builder = StageBuilder::new(reference.inputs);
    let mut signals = builder.inputs();
    for gate in &reference.gates {
        let a = signals[gate.operands[0]];
        let b = signals[*gate.operands.last().unwrap()];
        signals.push(match gate.operation {
            NOT => a.inverted(),
            AND => builder.and(a, b),
            OR => builder.or(a, b),
            XOR => builder.xor(a, b),
            NAND => builder.and(a, b).inverted(),
            _ => builder.or(a, b).inverted(),
        });
    }
    for &output in &reference.outputs {
        builder.output(signals[output]);
    }
    builder.stage
}

/// The same stage with its gates in another order: gate k of the result is gate
/// `order[k]` of the old one.
pub fn reordered(stage: &Stage, order: &[usize]) -> Stage {
    let first = 2 * stage.inputs;
    let mut new_net: Vec<usize> = (0..stage.nets()).collect();
    for (new, &old) in order.iter().enumerate() {
        new_net[first + old] = first + new;
    }
    let renamed = |net: usize| new_net.get(net).copied().unwrap_or(net);
    let gates = order
        .iter()
        .map(|&old| Gate {
            kind: stage.gates[old].kind,
            pins: stage.gates[old]
                .pins
                .iter()
                .map(|&net| renamed(net))
                .collect(),
        })
        .collect();
    let outputs = stage
        .outputs
        .iter()
        .map(|rails| rails.map(renamed))
        .collect();
    Stage {
        inputs: stage.inputs,
        gates,
        outputs,
        care: stage.care.clone(),
    }
}

/// A stage from the text of a netlist in the form of source document 001.
///
/// `inputs` and `outputs` are signal names, a signal's rails are its name with _0
/// and _1. A line is a number with a point, then one of: a kind, its pins, its net;
/// a register (its name begins with Reg), whose two data outputs are made other
/// names for its two data inputs; a C-element, which is left out.
pub fn stage_from_netlist(inputs: &[&str], outputs: &[&str], text: &str) -> Stage {
    let rails = |name: &str| [format!("{name}_0"), format!("{name}_1")];
    let mut nets: HashMap<String, usize> = HashMap::new();
    for (input, name) in inputs.iter().enumerate() {
        for (rail, name) in rails(name).into_iter().enumerate() {
            nets.insert(name, 2 * input + rail);
        }
    }
    // First all names: a gate may name what a later line drives.
    let mut gate_lines = Vec::new();
    let mut wires: Vec<(String, String)> = Vec::new();
    for line in text.lines().map(str::trim).filter(|line| !line.is_empty()) {
        let words: Vec<&str> = line.split_whitespace().skip(1).collect();
        if words[0].starts_with("Reg") {
            // Kind (and level), data rails 0 and 1, Ki, Ko, output rails 0 and 1.
            let names: Vec<&str> = words[1..]
                .iter()
                .flat_map(|word| word.split(','))
                .filter(|word| word.parse::<u32>().is_err())
                .collect();
            let [from_0, from_1, _, _, to_0, to_1] = names[..] else {
                panic!("register: {line}")
            };
            wires.push((to_0.to_string(), from_0.to_string()));
            wires.push((to_1.to_string(), from_1.to_string()));
        } else if words[0].starts_with('C') {
            continue;
        } else {
            let [kind, pins, net] = words[..] else {
                panic!("gate: {line}")
            };
            let number = 2 * inputs.len() + gate_lines.len();
            let before = nets.insert(net.to_string(), number);
            assert!(before.is_none(), "{net} is driven twice");
            gate_lines.push((kind, pins));
        }
    }
    // A register's output may feed another register.
    while !wires.is_empty() {
        let left = wires.len();
        wires.retain(|(to, from)| match nets.get(from) {
            Some(&net) => {
                let before = nets.insert(to.clone(), net);
                assert!(before.is_none(), "{to} is driven twice");
                false
            }
            None => true,
        });
        assert!(wires.len() < left, "nobody drives {:?}", wires);
    }
    let net = |name: &str| {
        *nets
            .get(name)
            .unwrap_or_else(|| panic!("nobody drives {name}"))
    };
    let gates = gate_lines
        .iter()
        .map(|(kind, pins)| Gate {
            kind: kind_named(kind),
            pins: pins.split(',').map(net).collect(),
        })
        .collect();
    let outputs = outputs
        .iter()
        .map(|name| {
            let [rail_0, rail_1] = rails(name);
            [net(&rail_0), net(&rail_1)]
        })
        .collect();
    Stage {
        inputs: inputs.len(),
        gates,
        outputs,
        care: vec![],
    }
}

/// A stage with its registers and C-elements from the text of such a netlist. `Ki` is the outside
/// Ki.
pub fn pipeline_from_netlist(inputs: &[&str], outputs: &[&str], text: &str) -> Pipeline {
    let rails = |name: &str| [format!("{name}_0"), format!("{name}_1")];
    let mut nets: HashMap<String, usize> = HashMap::from([("Ki".to_string(), OUTSIDE)]);
    let mut count = 0;
    let mut drive = |name: &str| {
        let before = nets.insert(name.to_string(), count);
        assert!(before.is_none(), "{name} is driven twice");
        count += 1;
    };
    inputs
        .iter()
        .flat_map(|name| rails(name))
        .for_each(|rail| drive(&rail));
    let words = |line: &str| -> Vec<String> {
        let words = line.split([' ', ',']).skip(1);
        words.map(str::to_string).collect()
    };
    let lines = text.lines().map(str::trim).filter(|line| !line.is_empty());
    let (parts, gates): (Vec<_>, Vec<_>) = lines
        .map(words)
        .partition(|words| words[0].starts_with("Reg") || words[0].starts_with('C'));
    for words in &gates {
        drive(words.last().unwrap());
    }
    for words in &parts {
        match &words[..] {
            // Kind, level, data rails 0 and 1, Ki, Ko, output rails 0 and 1.
            [_, _, _, _, _, ko, rail_0, rail_1] => [rail_0, rail_1, ko].map(|name| drive(name)),
            [.., net] => [drive(net); 3],
            [] => unreachable!("a line has a kind"),
        };
    }
    let net = |name: &String| {
        *nets
            .get(name)
            .unwrap_or_else(|| panic!("nobody drives {name}"))
    };
    let all = |names: &[String]| -> Vec<usize> { names.iter().map(net).collect() };
    let part = |words: &Vec<String>| match &words[..] {
        [_, _, data_0, data_1, ki, _, _, _] => Part::Register {
            data: [net(data_0), net(data_1)],
            ki: net(ki),
        },
        words => Part::Element {
            pins: all(&words[1..words.len() - 1]),
        },
    };
    let gate = |words: &Vec<String>| Gate {
        kind: kind_named(&words[0]),
        pins: all(&words[1..words.len() - 1]),
    };
    Pipeline {
        raw: Stage {
            inputs: inputs.len(),
            gates: gates.iter().map(gate).collect(),
            outputs: outputs
                .iter()
                .map(|name| rails(name).map(|rail| net(&rail)))
                .collect(),
            care: vec![],
        },
        parts: parts.iter().map(part).collect(),
    }
}

/// How an array multiplier forms its partial products.
#[derive(Clone, Copy, PartialEq, Eq, Debug)]
pub enum Products {
    /// All by the input-complete AND.
    Complete,
    /// As in source document 001: input-complete where it is needed for the stage
    /// to be input-complete, else the incomplete AND.
    Mixed,
}

/// An a times b bit multiplier of half-adders and full adders. Inputs are the
/// bits of x, then those of y, least first; outputs the product, least first.
pub fn multiplier(a: usize, b: usize, products: Products) -> Stage {
    let mut builder = StageBuilder::new(a + b);
    let mut columns: Vec<Vec<Signal>> = vec![Vec::new(); a + b + 1];
    for i in 0..a {
        for j in 0..b {
            let (x, y) = (builder.input(i), builder.input(a + j));
            // The diagonal, and past its end the last row or column.
            let needed = i.min(b - 1) == j || i == j.min(a - 1);
            let product = if products == Products::Complete || needed {
                builder.and(x, y)
            } else {
                builder.and_incomplete(x, y)
            };
            columns[i + j].push(product);
        }
    }
    for column in 0..a + b {
        while columns[column].len() > 1 {
            let (sum, carry) = if columns[column].len() == 2 {
                let [p, q] = columns[column][..] else {
                    unreachable!()
                };
                columns[column].clear();
                builder.half_adder(p, q)
            } else {
                let rest = columns[column].split_off(3);
                let [p, q, r] = columns[column][..] else {
                    unreachable!()
                };
                columns[column] = rest;
                builder.full_adder(p, q, r)
            };
            columns[column].push(sum);
            columns[column + 1].push(carry);
        }
        let bit = columns[column][0];
        builder.output(bit);
    }
    builder.stage
}

/// The reference of a multiplier: shifted rows, added one after the other.
pub fn multiplier_reference(a: usize, b: usize) -> Reference {
    let mut builder = ReferenceBuilder::new(a + b);
    // The sum so far, least bit first.
    let mut sum: Vec<usize> = (0..a).map(|i| builder.and(i, a)).collect();
    for j in 1..b {
        let row: Vec<usize> = (0..a).map(|i| builder.and(i, a + j)).collect();
        let mut carry = None;
        for (i, &bit) in row.iter().enumerate() {
            let place = i + j;
            let (new, out) = match (sum.get(place).copied(), carry) {
                (None, None) => (bit, None),
                (Some(other), None) | (None, Some(other)) => {
                    let (new, out) = builder.half_adder(bit, other);
                    (new, Some(out))
                }
                (Some(other), Some(carry)) => {
                    let (new, out) = builder.full_adder(bit, other, carry);
                    (new, Some(out))
                }
            };
            if place < sum.len() {
                sum[place] = new;
            } else {
                sum.push(new);
            }
            carry = out;
        }
        sum.extend(carry);
    }
    while sum.len() < a + b {
        // A product of one bit by one bit has no carry.
        let zero = builder.xor(0, 0);
        sum.push(zero);
    }
    for signal in sum {
        builder.output(signal);
    }
    builder.reference
}

/// A ripple adder of two numbers of `bits` bits each, x first, and a carry in if
/// wanted as the last input. Outputs are the sum, least first, then the carry.
pub fn ripple_adder(bits: usize, carry_in: bool) -> Stage {
    let mut builder = StageBuilder::new(2 * bits + usize::from(carry_in));
    let mut carry = carry_in.then(|| builder.input(2 * bits));
    for i in 0..bits {
        let (x, y) = (builder.input(i), builder.input(bits + i));
        let (sum, out) = match carry {
            None => builder.half_adder(x, y),
            Some(carry) => builder.full_adder(x, y, carry),
        };
        builder.output(sum);
        carry = Some(out);
    }
    builder.output(carry.unwrap());
    builder.stage
}

pub fn ripple_adder_reference(bits: usize, carry_in: bool) -> Reference {
    let mut builder = ReferenceBuilder::new(2 * bits + usize::from(carry_in));
    let mut carry = carry_in.then_some(2 * bits);
    let mut sums = Vec::new();
    for i in 0..bits {
        let (sum, out) = match carry {
            None => builder.half_adder(i, bits + i),
            Some(carry) => builder.full_adder(i, bits + i, carry),
        };
        sums.push(sum);
        carry = Some(out);
    }
    sums.extend(carry);
    for sum in sums {
        builder.output(sum);
    }
    builder.reference
}
