//! Stages with registers and C-elements (document 02, M-111), each case of its rule once.
//!
//! The stages are small where a case allows it: mostly wires through registers, so that the nets can be
//! counted by hand. With n inputs and g gates the first register drives nets 2n + g (rail 0), the next
//! (rail 1) and the one after (Ko).

use super::{multiplier_netlist, Example};
use crate::circuits::{multiplier_reference, pipeline_from_netlist, Signal, StageBuilder};
use crate::files::{self, unhex, write_pipeline, write_reference, FilePair};
use crate::judge::{Gate, Part, Pipeline, Reference, Stage, ABSENT, ORDERS, OUTSIDE};
use crate::suite::verdict_in;

const TH12: usize = 1;
const TH22: usize = 2;
const THAND0: usize = 26;

/// A register's nets.
#[derive(Clone, Copy)]
struct Register {
    data: Signal,
    ko: usize,
}

/// A stage under construction to which registers and C-elements are added. All gates come first.
struct Board {
    pipeline: Pipeline,
    nets: usize,
}

impl Board {
    fn new(stage: &Stage) -> Board {
        Board {
            nets: stage.nets(),
            pipeline: Pipeline {
                raw: stage.clone(),
                parts: Vec::new(),
            },
        }
    }

    /// So many inputs, no gates, no outputs.
    fn of_inputs(inputs: usize) -> Board {
        Board::new(&StageBuilder::new(inputs).stage)
    }

    fn input(&self, input: usize) -> Signal {
        Signal {
            rail_0: 2 * input,
            rail_1: 2 * input + 1,
        }
    }

    /// A register whose Ki is the outside Ki, until `ki` names another.
    fn register(&mut self, data: Signal) -> Register {
        self.pipeline.parts.push(Part::Register {
            data: [data.rail_0, data.rail_1],
            ki: OUTSIDE,
        });
        self.nets += 3;
        Register {
            data: Signal {
                rail_0: self.nets - 3,
                rail_1: self.nets - 2,
            },
            ko: self.nets - 1,
        }
    }

    fn element(&mut self, pins: &[usize]) -> usize {
        let pins = pins.to_vec();
        self.pipeline.parts.push(Part::Element { pins });
        self.nets += 1;
        self.nets - 1
    }

    /// The Ki of register number `register`.
    fn ki(&mut self, register: usize, net: usize) {
        let mut kis = self
            .pipeline
            .parts
            .iter_mut()
            .filter_map(|part| match part {
                Part::Register { ki, .. } => Some(ki),
                Part::Element { .. } => None,
            });
        *kis.nth(register).expect("a register") = net;
    }

    /// The data rails of register number `register`.
    fn data(&mut self, register: usize, signal: Signal) {
        let mut all = self
            .pipeline
            .parts
            .iter_mut()
            .filter_map(|part| match part {
                Part::Register { data, .. } => Some(data),
                Part::Element { .. } => None,
            });
        *all.nth(register).expect("a register") = [signal.rail_0, signal.rail_1];
    }

    fn output(&mut self, signal: Signal) {
        let rails = [signal.rail_0, signal.rail_1];
        self.pipeline.raw.outputs.push(rails);
    }
}

/// As many wires.
fn wires(count: usize) -> Reference {
    Reference {
        inputs: count,
        gates: vec![],
        outputs: (0..count).collect(),
    }
}

/// Input 0 through registers in a row, each with the Ko of the next as its Ki, to the output.
fn row_of(registers: usize) -> (Board, Vec<Register>) {
    let mut board = Board::of_inputs(1);
    let mut list: Vec<Register> = Vec::new();
    for _ in 0..registers {
        let data = list.last().map_or(board.input(0), |last| last.data);
        list.push(board.register(data));
    }
    for register in 1..registers {
        board.ki(register - 1, list[register].ko);
    }
    board.output(list[registers - 1].data);
    (board, list)
}

/// Two inputs, each through one register to the two registers of the next level, which are outputs.
/// Each of the first two feeds one of the others.
fn two_by_two() -> (Board, [Register; 4]) {
    let mut board = Board::of_inputs(2);
    let first = [0, 1].map(|input| board.register(board.input(input)));
    let second = first.map(|register| board.register(register.data));
    board.ki(0, second[0].ko);
    board.ki(1, second[1].ko);
    for register in second {
        board.output(register.data);
    }
    (board, [first[0], first[1], second[0], second[1]])
}

/// Ten inputs, 64 registers in up to seven levels, and a completion tree of two-pin C-elements for each
/// level but the last; further C-elements behind no Ki.
fn at_the_limits(registers: usize, elements: usize) -> Pipeline {
    let mut board = Board::of_inputs(10);
    let mut signals: Vec<Signal> = (0..10).map(|input| board.input(input)).collect();
    let mut levels: Vec<Vec<(usize, Register)>> = Vec::new();
    for register in 0..registers {
        let column = register % 10;
        let here = board.register(signals[column]);
        signals[column] = here.data;
        if column == 0 {
            levels.push(Vec::new());
        }
        levels.last_mut().unwrap().push((register, here));
    }
    let mut left = elements;
    for level in 1..levels.len() {
        let mut nets: Vec<usize> = levels[level]
            .iter()
            .map(|(_, register)| register.ko)
            .collect();
        while nets.len() > 1 && left > 0 {
            let (a, b) = (nets.remove(0), nets.remove(0));
            nets.push(board.element(&[a, b]));
            left -= 1;
        }
        for (register, _) in &levels[level - 1][..levels[level].len()] {
            board.ki(*register, nets[0]);
        }
    }
    for _ in 0..left {
        let own = board.nets;
        board.element(&[own, own]);
    }
    for signal in signals {
        board.output(signal);
    }
    board.pipeline
}

/// The two gates of an AND of two inputs.
fn and_gates() -> (Stage, Signal) {
    let mut builder = StageBuilder::new(2);
    let (a, b) = (builder.input(0), builder.input(1));
    let and = builder.and(a, b);
    (builder.stage, and)
}

fn gate(kind: usize, pins: &[usize]) -> Gate {
    Gate {
        kind,
        pins: pins.to_vec(),
    }
}

/// So many inputs and these gates, no outputs. The first register drives 2n + g and the two nets behind it.
fn with_gates(inputs: usize, gates: &[Gate]) -> Board {
    let mut stage = StageBuilder::new(inputs).stage;
    stage.gates = gates.to_vec();
    Board::new(&stage)
}

fn and_reference() -> Reference {
    super::one_operation(crate::judge::AND)
}

/// The file examples/PIPELINES.md: every pair with its verdict and what it is.
pub fn listing() -> String {
    let mut text = String::from(
        "# Pairs with registers\n\n| Folder | Verdict | With `--lowest` | What it is |\n|---|---|---|---|\n",
    );
    for example in pipelines() {
        let [verdict, lowest] = ORDERS.map(|order| {
            let verdict = verdict_in(order, &example.pair);
            files::verdict_line(verdict).trim_end().to_string()
        });
        text += &format!(
            "| `{}` | {verdict} | {lowest} | {} |\n",
            example.name, example.about
        );
    }
    text
}

/// The multiplier of Figure 12(a) with its registers and completion.
pub fn multiplier_pipeline() -> Pipeline {
    pipeline_from_netlist(
        &["xi0", "xi1", "xi2", "yi0", "yi1", "yi2"],
        &["p0", "p1", "p2", "p3", "p4", "p5"],
        multiplier_netlist(),
    )
}

/// All pairs that are stored under examples/pipelines.
pub fn pipelines() -> Vec<Example> {
    let mut list: Vec<Example> = Vec::new();
    let mut add_file =
        |name: &str, about: &'static str, number: u64, stage: Vec<u8>, reference: &Reference| {
            list.push(Example {
                name: name.to_string(),
                about,
                number,
                pair: FilePair {
                    stage,
                    reference: write_reference(reference),
                },
            });
        };
    let mut add =
        |name: &str, about: &'static str, number: u64, board: &Board, reference: &Reference| {
            let stage = write_pipeline(&board.pipeline);
            add_file(name, about, number, stage, reference);
        };
    let wire = wires(1);
    let pair = |rail_0, rail_1| Signal { rail_0, rail_1 };

    // Well wired.
    let source = Board {
        nets: 0,
        pipeline: multiplier_pipeline(),
    };
    let product = multiplier_reference(3, 3);
    add(
        "multiplier-3x3",
        "Figures 12 and 19 of source document 001 with all registers and the completion tree",
        0,
        &source,
        &product,
    );
    add(
        "register",
        "a wire through a register",
        0,
        &row_of(1).0,
        &wire,
    );
    add(
        "registers-3",
        "a wire through three registers in a row",
        0,
        &row_of(3).0,
        &wire,
    );
    add(
        "registers-2x2",
        "two wires through two registers each",
        0,
        &two_by_two().0,
        &wires(2),
    );
    let (mut board, registers) = two_by_two();
    let both = board.element(&[registers[2].ko, registers[3].ko]);
    board.ki(0, both);
    board.ki(1, both);
    add(
        "next-level-too",
        "the same, each Ki also waits for the other register of the next level",
        0,
        &board,
        &wires(2),
    );
    let (mut board, registers) = two_by_two();
    let first = board.element(&[registers[2].ko, registers[2].ko]);
    let second = board.element(&[first, registers[3].ko, registers[2].ko]);
    let tree = board.element(&[first, second, registers[3].ko, registers[3].ko]);
    board.ki(0, tree);
    board.ki(1, second);
    add(
        "nested-tree",
        "the same with C-elements of two, three and four pins, a Ko behind a Ki more than once",
        0,
        &board,
        &wires(2),
    );
    let mut board = Board::of_inputs(1);
    let first = board.register(board.input(0));
    let three = [first; 3].map(|register| board.register(register.data));
    let two = board.element(&[three[0].ko, three[1].ko]);
    let tree = board.element(&[two, three[2].ko]);
    board.ki(0, tree);
    three
        .iter()
        .for_each(|register| board.output(register.data));
    let thrice = Reference {
        inputs: 1,
        gates: vec![],
        outputs: vec![0, 0, 0],
    };
    add(
        "two-element-tree",
        "a register that reaches three others, their Ko through two C-elements",
        0,
        &board,
        &thrice,
    );
    let (mut board, _) = row_of(2);
    let own = board.nets;
    board.element(&[own, 0]);
    add(
        "free-loop",
        "a C-element on its own net and on an input, behind no Ki",
        0,
        &board,
        &wire,
    );

    let mut board = with_gates(1, &[gate(TH12, &[3, 3])]);
    board.register(board.input(0));
    board.output(pair(2, 4));
    add(
        "gate-on-rail",
        "rail 0 of the output is a gate on rail 0 of a register, rail 1 is rail 1 of the register",
        0,
        &board,
        &wire,
    );

    // 33, the first pass.
    let (mut board, registers) = row_of(2);
    board.data(0, registers[1].data);
    add(
        "register-ring",
        "two registers that feed each other",
        33,
        &board,
        &wire,
    );
    let (mut board, registers) = row_of(2);
    let crossed = Signal {
        rail_0: 0,
        rail_1: registers[1].data.rail_0,
    };
    board.data(1, crossed);
    add(
        "register-own-rail",
        "register 1 with its rail 0 as its data rail 1: no loop of wires, but it reaches itself",
        33,
        &board,
        &wire,
    );
    let (stage, and) = and_gates();
    let mut board = Board::new(&stage);
    let register = board.register(and);
    board.pipeline.raw.gates[0].pins[0] = register.data.rail_1;
    board.output(register.data);
    add(
        "register-gate-ring",
        "a gate feeds a register and is fed by it: no loop of gates",
        33,
        &board,
        &and_reference(),
    );
    board.pipeline.raw.gates[1].pins[0] = stage.net_of_gate(1);
    add(
        "gate-loop-and-ring",
        "the same with a gate on its own net too: 12 comes first",
        12,
        &board,
        &and_reference(),
    );
    let mut board = with_gates(1, &[gate(TH12, &[3, 0])]);
    let register = board.register(pair(2, 1));
    board.output(register.data);
    add(
        "gate-on-own-register",
        "a gate on a rail of the register that it feeds: 33 and not 12",
        33,
        &board,
        &wire,
    );
    let (mut board, registers) = row_of(2);
    let own = board.nets;
    board.element(&[registers[1].ko, own]);
    board.ki(0, own);
    add(
        "element-loop",
        "a C-element on its own net behind the Ki of register 0",
        33,
        &board,
        &wire,
    );
    let (mut board, registers) = row_of(3);
    let first = board.nets;
    board.element(&[registers[2].ko, first + 1]);
    board.element(&[first + 2, registers[2].ko]);
    board.element(&[first + 1, registers[2].ko]);
    board.ki(1, first);
    add(
        "element-loop-behind",
        "two C-elements on each other's nets, further behind the Ki of register 1",
        33,
        &board,
        &wire,
    );

    // 33, the second pass.
    let (stage, and) = and_gates();
    let mut board = Board::new(&stage);
    let early = board.register(board.input(0));
    let last = board.register(and);
    for gate in &mut board.pipeline.raw.gates {
        for pin in &mut gate.pins {
            match *pin {
                0 => *pin = early.data.rail_0,
                1 => *pin = early.data.rail_1,
                _ => {}
            }
        }
    }
    board.ki(0, last.ko);
    board.output(last.data);
    add(
        "levels-meet-in-gate",
        "an AND of a register and an input feeds a register: levels 1 and 0",
        33,
        &board,
        &and_reference(),
    );
    let output_of_gate = {
        let mut board = Board::new(&board.pipeline.raw.clone());
        board.pipeline.raw.outputs.clear();
        board.register(board.input(0));
        board.output(and);
        board
    };
    add(
        "levels-meet-in-last-gate",
        "the same without the last register: no register is fed from unequal levels",
        0,
        &output_of_gate,
        &and_reference(),
    );
    let mut board = Board::of_inputs(1);
    let register = board.register(board.input(0));
    board.output(Signal {
        rail_0: 0,
        rail_1: register.data.rail_1,
    });
    add(
        "levels-meet-in-output",
        "an output with rail 0 of an input and rail 1 of a register",
        0,
        &board,
        &wire,
    );
    let (mut board, registers) = row_of(2);
    board.data(
        1,
        Signal {
            rail_0: registers[0].data.rail_0,
            rail_1: 1,
        },
    );
    add(
        "levels-meet-straight",
        "register 1 has a data rail on register 0 and one on the input",
        33,
        &board,
        &wire,
    );
    let (mut board, registers) = row_of(4);
    board.data(
        1,
        Signal {
            rail_0: registers[0].data.rail_0,
            rail_1: 1,
        },
    );
    board.data(2, registers[3].data);
    add(
        "ring-before-levels",
        "register 1 fed from unequal levels, registers 2 and 3 in a ring: the ring is named",
        33,
        &board,
        &wire,
    );
    let mut board = Board::of_inputs(1);
    for data in [pair(5, 9), pair(0, 9), pair(0, 1)] {
        board.register(data);
    }
    board.ki(1, 4);
    board.ki(2, 7);
    board.output(pair(2, 3));
    add(
        "highest-source",
        "register 0 fed by registers of levels 2 and 1: the highest source counts upstream too",
        33,
        &board,
        &wire,
    );

    // 34.
    let (mut board, _) = row_of(2);
    board.ki(0, OUTSIDE);
    add(
        "outside-too-early",
        "the outside Ki at a register that reaches another",
        34,
        &board,
        &wire,
    );
    let (mut board, registers) = two_by_two();
    board.ki(0, registers[3].ko);
    add(
        "wrong-ko",
        "the Ki of register 0 is the Ko of the register that the other one reaches",
        34,
        &board,
        &wires(2),
    );
    let mut board = Board::of_inputs(1);
    let first = board.register(board.input(0));
    let two = [first, first].map(|register| board.register(register.data));
    board.ki(0, two[0].ko);
    board.output(two[0].data);
    board.output(two[1].data);
    let twice = Reference {
        inputs: 1,
        gates: vec![],
        outputs: vec![0, 0],
    };
    add(
        "one-ko-of-two",
        "register 0 reaches two registers, its Ki has one of their Ko",
        34,
        &board,
        &twice,
    );
    let both = board.element(&[two[0].ko, two[1].ko]);
    board.ki(0, both);
    add("both-ko", "the same with both Ko", 0, &board, &twice);
    let mut board = Board::of_inputs(1);
    for data in [pair(0, 1), pair(0, 1), pair(5, 6)] {
        board.register(data);
    }
    board.ki(0, 0);
    board.output(pair(8, 9));
    add(
        "34-before-35",
        "an input as the Ki of register 0, and a Ko missing at register 1",
        34,
        &board,
        &wire,
    );

    // 35.
    let (mut board, registers) = row_of(2);
    let data = board.element(&[registers[1].ko, 0]);
    board.ki(0, data);
    add(
        "data-behind-ki",
        "an input rail at a pin of the C-element behind a Ki",
        35,
        &board,
        &wire,
    );
    let (mut board, registers) = row_of(1);
    board.ki(0, registers[0].data.rail_0);
    add(
        "ki-on-own-rail",
        "a Ki on its own register's rail",
        35,
        &board,
        &wire,
    );
    let (mut board, registers) = two_by_two();
    let same = board.element(&[registers[2].ko, registers[1].ko]);
    board.ki(0, same);
    add(
        "same-level",
        "behind the Ki of register 0 the Ko of register 1, of the same level",
        35,
        &board,
        &wires(2),
    );
    let (mut board, registers) = row_of(3);
    let far = board.element(&[registers[1].ko, registers[2].ko]);
    board.ki(0, far);
    add(
        "level-after-next",
        "behind the Ki of register 0 a Ko of the level after the next",
        35,
        &board,
        &wire,
    );
    let (mut board, registers) = row_of(3);
    let back = board.element(&[registers[2].ko, registers[0].ko]);
    board.ki(1, back);
    add(
        "level-before",
        "behind the Ki of register 1 the Ko of register 0",
        35,
        &board,
        &wire,
    );
    let (mut board, registers) = two_by_two();
    let wide = [
        registers[2].ko,
        registers[3].ko,
        registers[2].ko,
        registers[0].ko,
    ];
    let fourth = board.element(&wide);
    board.ki(0, fourth);
    add(
        "pin-d",
        "the net that is barred stands at pin D",
        35,
        &board,
        &wires(2),
    );
    let (mut board, registers) = row_of(2);
    board.ki(1, registers[0].ko);
    add(
        "last-register-ko",
        "a register that reaches none has a Ko as its Ki",
        35,
        &board,
        &wire,
    );
    let mut board = Board::of_inputs(1);
    for data in [pair(0, 1), pair(2, 3), pair(0, 1)] {
        board.register(data);
    }
    board.ki(0, 7);
    board.ki(2, 7);
    board.output(pair(5, 6));
    add(
        "next-level-of-last",
        "a register that reaches none has a Ko of the next level",
        35,
        &board,
        &wire,
    );

    // From 28 on a register is two wires.
    let (mut board, _) = row_of(2);
    board.data(0, board.input(0).inverted());
    add(
        "rails-exchanged",
        "the data rails of register 0 exchanged",
        13,
        &board,
        &wire,
    );
    let mut board = Board::new(&{
        let mut builder = StageBuilder::new(2);
        let (a, b) = (builder.input(0), builder.input(1));
        builder.and_incomplete(a, b);
        builder.stage
    });
    let and = pair(board.nets - 1, board.nets - 2);
    let register = board.register(and);
    board.output(register.data);
    add(
        "incomplete-behind-register",
        "the AND of Figure 6 of source document 001, through a register",
        14,
        &board,
        &and_reference(),
    );
    board.pipeline.raw.gates[0] = gate(24, &[1, 3, 1, 3]);
    add(
        "retired-behind-register",
        "the same with a gate of a retired kind",
        28,
        &board,
        &and_reference(),
    );
    board.ki(0, 0);
    add(
        "retired-and-barred",
        "the same with an input rail as its Ki: 35 comes before 28",
        35,
        &board,
        &and_reference(),
    );

    let mut board = with_gates(1, &[gate(TH12, &[3, 4])]);
    let register = board.register(board.input(0));
    board.output(register.data);
    add(
        "spare-gate-behind-register",
        "a wire through a register, and a gate on both rails of it that feeds nothing",
        15,
        &board,
        &wire,
    );
    board.pipeline.raw.gates[0] = gate(TH22, &[3, 4]);
    add(
        "idle-gate-behind-register",
        "the same gate as a TH22, which rises in no word",
        32,
        &board,
        &wire,
    );
    // An AND of two inputs, each through a register: gates 0 and 1, then registers at 6 and 9.
    let behind_registers = |gates: &[Gate], rails: Signal| {
        let mut board = with_gates(2, gates);
        let first = [0, 1].map(|input| board.register(board.input(input)));
        assert_eq!(first.map(|register| register.data.rail_0), [6, 9]);
        board.output(rails);
        board
    };
    let and = [gate(TH22, &[7, 10]), gate(THAND0, &[6, 9, 7, 10])];
    let relaxed = [gate(TH22 + 128, &[7, 10]), and[1].clone()];
    add(
        "relaxed-behind-registers",
        "an AND of two registers whose TH22 has no hold",
        20,
        &behind_registers(&relaxed, pair(5, 4)),
        &and_reference(),
    );
    let early = [gate(TH22, &[6, 9]), gate(TH12, &[7, 10])];
    add(
        "or-behind-registers",
        "an OR of two registers by TH22 and TH12, which does not wait for the other input",
        14,
        &behind_registers(&early, pair(4, 5)),
        &super::one_operation(crate::judge::OR),
    );
    let mut board = with_gates(1, &[gate(TH12, &[5, 5]), gate(TH22 + 128, &[2, 5])]);
    let register = board.register(board.input(0));
    board.output(pair(register.data.rail_0, 3));
    add(
        "relaxed-behind-buffer",
        "a relaxed gate on a rail of a register and on a buffer of it, which may still be high",
        21,
        &board,
        &wire,
    );
    let equal = [gate(TH22, &[6, 9]), gate(TH22, &[7, 10])];
    let mut board = behind_registers(&equal, pair(4, 5));
    add(
        "equal-registers",
        "TH22 on the equal rails of two registers, which shows nothing where they differ",
        13,
        &board,
        &and_reference(),
    );
    board.pipeline.raw.care = vec![0, 3];
    add(
        "equal-registers-care",
        "the same with a care list of the two words in which they are equal",
        0,
        &board,
        &and_reference(),
    );

    // The limits.
    let limits = |registers, elements| Board {
        nets: 0,
        pipeline: at_the_limits(registers, elements),
    };
    let ten = wires(10);
    add(
        "registers-64",
        "64 registers and 64 C-elements",
        0,
        &limits(64, 64),
        &ten,
    );
    add("registers-65", "a 65th register", 6, &limits(65, 64), &ten);
    add("elements-65", "a 65th C-element", 6, &limits(64, 65), &ten);

    // Files that cannot be read.
    let with_part = |part: Part| {
        let (mut board, _) = row_of(2);
        board.pipeline.parts.push(part);
        board
    };
    let register = |rail_0, rail_1, ki| Part::Register {
        data: [rail_0, rail_1],
        ki,
    };
    let element = |pins: &[usize]| Part::Element {
        pins: pins.to_vec(),
    };
    for (name, about, number, part) in [
        (
            "outside-data",
            "FFFE as a data rail",
            9,
            register(0, OUTSIDE, 4),
        ),
        (
            "absent-data",
            "FFFF as a data rail",
            9,
            register(ABSENT, 1, 4),
        ),
        ("absent-ki", "FFFF as a Ki", 9, register(0, 1, ABSENT)),
        ("ko-data", "a Ko as a data rail", 9, register(0, 4, 4)),
        (
            "own-ko",
            "its own Ko as its Ki: readable",
            35,
            register(0, 1, 10),
        ),
        (
            "beyond-ki",
            "a Ki on a net that is not there",
            9,
            register(0, 1, 11),
        ),
        (
            "outside-pin",
            "FFFE at a pin of a C-element",
            9,
            element(&[4, OUTSIDE]),
        ),
        (
            "absent-a",
            "pin A of a C-element unused",
            5,
            element(&[ABSENT, 4]),
        ),
        (
            "absent-b",
            "pin B of a C-element unused",
            5,
            element(&[4, ABSENT, 4]),
        ),
        (
            "d-without-c",
            "pin D of a C-element used, pin C not",
            5,
            element(&[4, 7, ABSENT, 4]),
        ),
        (
            "outside-c",
            "FFFE at pin C of a C-element",
            9,
            element(&[4, 7, OUTSIDE]),
        ),
    ] {
        add(name, about, number, &with_part(part), &wire);
    }
    let mut board = Board::of_inputs(1);
    let first = board.register(pair(0, 5));
    board.element(&[first.ko, first.ko]);
    board.output(first.data);
    add(
        "element-data",
        "a C-element's net as a data rail",
        9,
        &board,
        &wire,
    );
    let (mut board, registers) = row_of(2);
    board.pipeline.raw.outputs[0][1] = registers[1].ko;
    add("ko-output", "a Ko as a rail of an output", 9, &board, &wire);
    let (mut board, registers) = row_of(2);
    let net = board.element(&[registers[1].ko, registers[1].ko]);
    board.pipeline.raw.outputs[0][0] = net;
    add(
        "element-output",
        "a C-element's net as a rail of an output",
        9,
        &board,
        &wire,
    );
    let mut board = Board::new(&and_gates().0);
    let register = board.register(pair(5, 4));
    board.pipeline.raw.gates[1].pins[3] = register.ko;
    board.output(register.data);
    add(
        "ko-pin",
        "a Ko at a pin of a gate",
        9,
        &board,
        &and_reference(),
    );
    let stage = "01 01 04 02 00 01 00 FE FF 02 01 00 00 00 00 FF FF FF FF 03 03 00 04 00 00";
    add_file(
        "gate-after-register",
        "a register command before that of the gate it reads: new nets follow all gates",
        0,
        unhex(stage),
        &wire,
    );
    let mut cut = write_pipeline(&row_of(1).0.pipeline);
    cut.truncate(8);
    add_file(
        "register-cut",
        "a file that ends in a register",
        1,
        cut,
        &wire,
    );
    list
}
