//! A run as a waveform: VCD, one switching a nanosecond, and what GTKWave has to know to show it. Pairs are strings (NULL, DATA0, DATA1), which is an
//! extension of GTKWave's; rails and gates are wires. Where the promise breaks, a wire of its own rises.

use crate::netlist::Stage;
use crate::runs::Run;
use crate::situation::pair_state;
use std::fmt::Write;

/// A waveform to be written.
pub struct Wave<'a> {
    pub stage: &'a Stage,
    pub run: &'a Run,
    /// The verdict and the word, for a comment.
    pub title: String,
    /// Whether the promise is broken at the end of the run.
    pub broken: bool,
    /// The gate at which that is.
    pub gate: Option<usize>,
}

/// The places of the signals that are no nets, behind the nets.
struct Places {
    inputs: usize,
    outputs: usize,
    phase: usize,
    broken: usize,
}

/// An identifier of VCD: printable signs, the lowest first.
fn identifier(mut number: usize) -> String {
    let mut signs = String::new();
    loop {
        signs.push((b'!' + (number % 94) as u8) as char);
        number /= 94;
        if number == 0 {
            return signs;
        }
    }
}

/// A name as a waveform takes it: without signs that end a word.
fn named(name: &str) -> String {
    name.chars().map(|sign| if sign.is_ascii_graphic() { sign } else { '_' }).collect()
}

impl Wave<'_> {
    fn places(&self) -> Places {
        let inputs = self.stage.nets();
        let outputs = inputs + self.stage.inputs;
        let phase = outputs + self.stage.outputs.len();
        Places { inputs, outputs, phase, broken: phase + 1 }
    }

    /// When the last switching is over.
    pub fn end(&self) -> usize {
        self.run.nets.len() + 1
    }

    /// The signals in the order in which they are shown: group, place, name, and whether it is a string.
    fn signals(&self) -> Vec<(&'static str, usize, String, bool)> {
        let (stage, places) = (self.stage, self.places());
        let mut signals = vec![("", places.phase, "phase".into(), true), ("", places.broken, "promise_broken".into(), false)];
        signals.extend((0..stage.inputs).map(|input| ("", places.inputs + input, named(&stage.input_name(input)), true)));
        signals.extend((0..stage.outputs.len()).map(|output| ("", places.outputs + output, named(&stage.output_name(output)), true)));
        signals.extend((0..2 * stage.inputs).map(|net| ("rails", net, named(&stage.net_name(net)), false)));
        for (output, rails) in stage.outputs.iter().enumerate() {
            // A rail of an output is a net by a second name.
            let name = |rail: usize| format!("{}_{rail}", named(&stage.output_name(output)));
            signals.extend(rails.iter().enumerate().map(|(rail, &net)| ("rails", net, name(rail), false)));
        }
        signals.extend((0..stage.gates.len()).map(|k| ("gates", stage.net_of(k), self.gate_name(k), false)));
        signals
    }

    /// A gate with its kind.
    fn gate_name(&self, gate: usize) -> String {
        format!("{}_{}", named(&self.stage.gate_name(gate)), self.stage.gates.get(gate).map_or(String::new(), |gate| gate.name()))
    }

    /// The waveform.
    pub fn vcd(&self) -> String {
        let (stage, places) = (self.stage, self.places());
        let mut text = format!("$comment {} $end\n$timescale 1ns $end\n$scope module stage $end\n", self.title.replace('$', "S"));
        let mut scope = "";
        for (group, place, name, string) in self.signals() {
            if group != scope {
                text += if scope.is_empty() { "" } else { "$upscope $end\n" };
                let _ = writeln!(text, "$scope module {group} $end");
                scope = group;
            }
            let _ = writeln!(text, "$var {} 1 {} {name} $end", if string { "string" } else { "wire" }, identifier(place));
        }
        text += if scope.is_empty() { "" } else { "$upscope $end\n" };
        text += "$upscope $end\n$enddefinitions $end\n#0\n$dumpvars\n";
        let mut row = vec![false; stage.nets()];
        for net in 0..stage.nets() {
            let _ = writeln!(text, "0{}", identifier(net));
        }
        for pair in places.inputs..places.phase {
            let _ = writeln!(text, "sNULL {}", identifier(pair));
        }
        let _ = writeln!(text, "srise {}\n0{}\n$end", identifier(places.phase), identifier(places.broken));
        for (k, &net) in self.run.nets.iter().enumerate() {
            row[net] = !row[net];
            let _ = writeln!(text, "#{}\n{}{}", k + 1, u8::from(row[net]), identifier(net));
            if k == self.run.fall {
                let _ = writeln!(text, "sfall {}", identifier(places.phase));
            }
            let pair = |rails: [usize; 2]| pair_state(&row, rails).split(' ').next().unwrap_or_default().to_uppercase();
            if net < 2 * stage.inputs {
                let _ = writeln!(text, "s{} {}", pair([net & !1, net | 1]), identifier(places.inputs + net / 2));
            }
            for (output, &rails) in stage.outputs.iter().enumerate().filter(|(_, rails)| rails.contains(&net)) {
                let _ = writeln!(text, "s{} {}", pair(rails), identifier(places.outputs + output));
            }
        }
        let end = self.end();
        if self.broken {
            let _ = writeln!(text, "#{end}\n1{}", identifier(places.broken));
        }
        let _ = writeln!(text, "#{}", end + 3);
        text
    }

    /// What GTKWave shows of it: pairs first, then rails and gates, with a mark where the run ends.
    pub fn save(&self, dump: &str) -> String {
        let mut text = format!("[*]\n[*] {}\n[dumpfile] \"{dump}\"\n[timestart] 0\n[size] 1400 800\n[pos] -1 -1\n", self.title);
        // The zoom, and the place of the mark; then of 26 others, which are not set.
        let _ = writeln!(text, "*-1.500000 {}{}", self.end(), " -1".repeat(26));
        text += "[treeopen] stage.\n[signals_width] 230\n[sst_expanded] 1\n";
        let mut shown = None;
        for (group, _, name, string) in self.signals() {
            let title = match group {
                "" if name == "phase" || name == "promise_broken" => "the run",
                "" => "inputs and outputs",
                group => group,
            };
            if shown != Some(title) {
                let _ = writeln!(text, "@200\n-{title}");
                shown = Some(title);
            }
            let scope = if group.is_empty() { String::new() } else { format!("{group}.") };
            let _ = writeln!(text, "@{}\nstage.{scope}{name}", if string { "820" } else { "28" });
            if let Some(gate) = self.gate.filter(|_| name == "promise_broken") {
                let _ = writeln!(text, "@28\nstage.gates.{}", self.gate_name(gate));
            }
        }
        text
    }
}
