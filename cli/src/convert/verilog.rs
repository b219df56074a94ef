//! A stage as structural Verilog, the 54 cells for a simulator, and a bench that plays every word once, in one order: that of its delays.

use super::threshold::{input_rails, output_rails};
use crate::netlist::{kind_name, pin_count, set_expression, Reference, Stage, CELLS};
use std::fmt::Write;

/// The stage: an instance for each gate, uk for gate k.
pub fn structural(stage: &Stage) -> String {
    let mut text = String::from(
        "// A stage of NULL Convention Logic: each signal has the rails _0 and _1. Gate k is the instance uk and drives the net gk.\n",
    );
    let _ = writeln!(text, "module stage (");
    let inputs = input_rails(stage).into_iter().map(|rail| format!("  input {rail}"));
    let outputs = output_rails(stage).into_iter().map(|rail| format!("  output {rail}"));
    let _ = writeln!(text, "{}\n);", inputs.chain(outputs).collect::<Vec<String>>().join(",\n"));
    for k in 0..stage.gates.len() {
        let _ = writeln!(text, "  wire {};", stage.gate_name(k));
    }
    for (k, gate) in stage.gates.iter().enumerate() {
        let pins = gate.pins.iter().zip("ABCD".chars()).map(|(&pin, letter)| format!(".{letter}({})", stage.net_name(pin)));
        let pins: Vec<String> = [format!(".Z({})", stage.gate_name(k))].into_iter().chain(pins).collect();
        let _ = writeln!(text, "  {} u{k} ({});", gate.name(), pins.join(", "));
    }
    let nets = stage.outputs.iter().flatten();
    for (rail, &net) in output_rails(stage).iter().zip(nets) {
        let _ = writeln!(text, "  assign {rail} = {};", stage.net_name(net));
    }
    text + "endmodule\n"
}

/// The kinds, those with hold and those without.
fn kinds() -> impl Iterator<Item = u8> {
    (1..=CELLS.len() as u8).flat_map(|cell| [cell, cell | 0x80])
}

/// The pins of a kind, with commas.
fn pins(kind: u8) -> String {
    ["A", "B", "C", "D"][..pin_count(kind).unwrap_or(0)].join(", ")
}

/// A set expression in Verilog.
fn expression(kind: u8) -> String {
    let products = set_expression(kind).unwrap_or_default().split('+');
    let product = |letters: &str| letters.chars().map(String::from).collect::<Vec<String>>().join("&");
    products.map(product).collect::<Vec<String>>().join(" | ")
}

/// The cells as modules for a simulator.
pub fn cells() -> String {
    let mut text = String::from(
        "// The 27 threshold cells with hold, and without it (r). A cell rises when its set expression holds. With hold it falls when all of its pins\n\
         // are low, without when its set expression does not hold. DELAY is in units of time; every choice of delays is one order of switching.\n\
         `timescale 1ns/1ps\n",
    );
    for kind in kinds() {
        let (name, pins) = (kind_name(kind).unwrap_or_default(), pins(kind));
        let _ = writeln!(text, "module {name} #(parameter DELAY = 1) (output reg Z, input {pins});");
        let _ = writeln!(text, "  initial Z = 1'b0;\n  wire set = {};", expression(kind));
        if kind & 0x80 == 0 {
            let _ = writeln!(text, "  wire low = ~({});", pins.replace(", ", " | "));
            let _ = writeln!(text, "  always @(set or low) if (set) Z <= #DELAY 1'b1; else if (low) Z <= #DELAY 1'b0;");
        } else {
            let _ = writeln!(text, "  always @(set) Z <= #DELAY set;");
        }
        text += "endmodule\n";
    }
    text
}

/// The cells as empty modules, so that a netlist of them is read as it stands.
pub fn boxes() -> String {
    let one = |kind: u8| {
        format!("module {} #(parameter DELAY = 1) (output Z, input {}); endmodule\n", kind_name(kind).unwrap_or_default(), pins(kind))
    };
    kinds().map(one).collect()
}

/// Delays that differ from gate to gate, and are the same for the same seed.
struct Delays(u32);

impl Delays {
    fn next(&mut self) -> u32 {
        self.0 = self.0.wrapping_mul(1_664_525).wrapping_add(1_013_904_223);
        1 + (self.0 >> 16) % 20
    }
}

/// A bench: each word that the stage cares for rises and falls once, and each answer is compared with the reference's.
pub fn bench(stage: &Stage, reference: &Reference, seed: u32) -> String {
    let (inputs, outputs) = (stage.inputs, stage.outputs.len());
    // Words of files have input i as bit i.
    let words: Vec<usize> = if stage.care.is_empty() { (0..1 << inputs).collect() } else { stage.care.clone() };
    let mut text = format!(
        "// A bench for the stage: every word rises and falls once, with the delays of seed {seed}. It plays one order of switching; that all others\n\
         // end alike, and that nothing is still switching when the outputs are there, no bench can show: 'ncl check' does.\n\
         `timescale 1ns/1ps\nmodule bench;\n"
    );
    let _ = writeln!(text, "  reg [{}:0] rail0 = 0, rail1 = 0;\n  wire [{}:0] out0, out1;", inputs - 1, outputs - 1);
    let port = |(k, name): (usize, String), low: &str, high: &str| format!(".{name}({}[{}])", if k % 2 == 0 { low } else { high }, k / 2);
    let ins = input_rails(stage).into_iter().enumerate().map(|rail| port(rail, "rail0", "rail1"));
    let outs = output_rails(stage).into_iter().enumerate().map(|rail| port(rail, "out0", "out1"));
    let _ = writeln!(text, "  stage dut (\n    {}\n  );", ins.chain(outs).collect::<Vec<String>>().join(",\n    "));
    let mut delays = Delays(seed);
    for k in 0..stage.gates.len() {
        let _ = writeln!(text, "  defparam dut.u{k}.DELAY = {};", delays.next());
    }
    let _ = writeln!(text, "  wire all_data = &(out0 ^ out1), all_null = ~|(out0 | out1);");
    let last = words.len() - 1;
    let _ = writeln!(text, "  reg [{}:0] word [0:{last}];\n  reg [{}:0] answer [0:{last}];", inputs - 1, outputs - 1);
    text += "  integer k, i, waited, wrong = 0;\n  initial begin\n    if ($test$plusargs(\"vcd\")) begin $dumpfile(\"bench.vcd\"); $dumpvars(0, bench); end\n";
    for (k, &word) in words.iter().enumerate() {
        let values: Vec<bool> = (0..inputs).map(|input| word >> input & 1 == 1).collect();
        let answer: usize = reference.answer(&values).iter().take(outputs).enumerate().map(|(j, &bit)| usize::from(bit) << j).sum();
        let _ = writeln!(text, "    word[{k}] = {inputs}'d{word}; answer[{k}] = {outputs}'d{answer};");
    }
    let _ = write!(
        text,
        "    for (k = 0; k < {count}; k = k + 1) begin
      for (i = 0; i < {inputs}; i = i + 1) begin #1; if (word[k][i]) rail1[i] = 1; else rail0[i] = 1; end
      for (waited = 0; !all_data && waited < 20000; waited = waited + 1) #1;
      if (!all_data || out1 !== answer[k]) begin
        $display(\"word %0d: rails 1 %b, rails 0 %b, and the answer is %b\", word[k], out1, out0, answer[k]);
        wrong = wrong + 1;
      end
      rail0 = 0; rail1 = 0;
      for (waited = 0; !all_null && waited < 20000; waited = waited + 1) #1;
      if (!all_null) begin $display(\"word %0d: not back to NULL\", word[k]); wrong = wrong + 1; end
    end
    $display(\"%0d words, %0d wrong\", {count}, wrong);
    $finish;
  end
endmodule
",
        count = words.len()
    );
    text
}
