//! Stored texts (document 02, M-109): the netlists of source document 001 in the line form, and texts
//! that are refused.

use super::*;
use crate::judge::{Verdict, ACCEPTED, KINDS};
use crate::text::{file_of_text, text_of_file, LONGEST_NAME, LONGEST_NET};
use std::collections::HashMap;

/// One stored text.
pub struct TextExample {
    pub name: &'static str,
    /// What it is, in a few words.
    pub about: &'static str,
    /// The verdict on reading it, by design.
    pub verdict: Verdict,
    /// The stored pair whose stage it gives.
    pub stage: Option<&'static str>,
    pub text: Vec<u8>,
}

/// Figure 19(b), which is Figure 12(b), of source document 001, from its line 3 on.
const CONVERTED_MULTIPLIER: &str = include_str!("../netlists/multiplier-3x3-converted.txt");

/// Figure 15(b) of source document 001, from its line 3 on.
const CONVERTED_MAC: &str = include_str!("../netlists/mac-4-2x2-converted.txt");

const MULTIPLIER_INPUTS: &str = "xi0,xi1,xi2,yi0,yi1,yi2";
const MAC_INPUTS: &str = "xi0,xi1,yi0,yi1,acci0,acci1,acci2,acci3";

/// The lines of a figure without their numbers, as words.
fn figure(netlist: &str) -> Vec<Vec<&str>> {
    let lines = netlist.lines();
    lines
        .map(|line| line.split_whitespace().skip(1).collect())
        .collect()
}

/// The gate lines of a figure: kind, pins, net.
fn gate_lines(netlist: &str) -> Vec<[&str; 3]> {
    let lines = figure(netlist).into_iter();
    lines
        .filter(|words| words[0].starts_with("th"))
        .map(|words| words.try_into().expect("three columns"))
        .collect()
}

/// A kind as document 01 spells it; the figures have small letters throughout.
fn spelt_kind(kind: &str) -> &'static str {
    let mut kinds = KINDS.iter().map(|(name, _)| *name);
    let found = kinds.find(|name| name.eq_ignore_ascii_case(kind));
    found.expect("a kind of document 01")
}

/// The names that registers are left out by: what a register drives is what it reads.
fn through_registers(netlist: &str) -> HashMap<String, String> {
    let mut read = HashMap::new();
    for words in figure(netlist) {
        if !words[0].starts_with("Reg_NULL") {
            continue;
        }
        // Data rails, Ki, Ko, output rails; a level may stand by itself.
        let names: Vec<&str> = words[1..]
            .iter()
            .flat_map(|word| word.split(','))
            .filter(|word| word.parse::<u32>().is_err())
            .collect();
        let [from, _, _, _, to, _] = names[..] else {
            panic!("register: {words:?}")
        };
        // Rail 0 of both names the signal.
        let signal = |rail: &str| rail.trim_end_matches("_0").to_string();
        read.insert(signal(to), signal(from));
    }
    read
}

/// A figure as text: inputs, outputs, and its gates with kinds as document 01 spells them, each pin as
/// `renamed` has it.
fn text_of_figure(
    inputs: &str,
    outputs: &str,
    netlist: &str,
    renamed: impl Fn(&str) -> String,
) -> Vec<u8> {
    let mut text = format!("{inputs}\n{outputs}\n");
    for [kind, pins, net] in gate_lines(netlist) {
        let pins: Vec<String> = pins.split(',').map(&renamed).collect();
        text += &format!("{} {} {net}\n", spelt_kind(kind), pins.join(","));
    }
    text.into_bytes()
}

/// A figure with registers as text: what a register drives has the name of what it reads.
fn without_registers(inputs: &str, outputs: &str, netlist: &str) -> Vec<u8> {
    let read = through_registers(netlist);
    text_of_figure(inputs, outputs, netlist, |pin| {
        let (signal, rail) = pin.split_at(pin.len() - 2);
        let mut signal = signal;
        while let Some(before) = read.get(signal) {
            signal = before;
        }
        format!("{signal}{rail}")
    })
}

/// Ten inputs, 256 gates and sixteen outputs, all names as long as they may be.
fn long_names() -> Vec<u8> {
    let input = |i: usize| format!("input_signal_{i:03}");
    let output = |j: usize| format!("output_signal_{j:02}");
    let mut nets: Vec<String> = Vec::new();
    for i in 0..10 {
        nets.extend([0, 1].map(|rail| format!("{}_{rail}", input(i))));
    }
    let mut gates = String::new();
    for k in 0..256 {
        // The last 32 gates are the rails of the outputs.
        let net = match k {
            0..=223 => format!("internal_net_n{k:04}"),
            _ => format!("{}_{}", output((k - 224) / 2), k % 2),
        };
        assert_eq!(net.len(), LONGEST_NET);
        // Pins on nets far and near, rails of inputs and earlier gates.
        let pins =
            [1, 3, 7 + k / 2, 20 + k].map(|back| nets[nets.len() - back.min(nets.len())].clone());
        gates += &format!("rTH54w322 {} {net}\n", pins.join(","));
        nets.push(net);
    }
    let list = |names: Vec<String>| {
        assert!(names.iter().all(|name| name.len() == LONGEST_NAME));
        names.join(",")
    };
    let inputs = list((0..10).map(input).collect());
    let outputs = list((0..16).map(output).collect());
    format!("{inputs}\n{outputs}\n{gates}").into_bytes()
}

/// A text of one input a, so many gates on it, and the output a so many times.
fn many(gates: usize, outputs: usize) -> Vec<u8> {
    let lines = (0..gates).map(|k| format!("TH12 a_0,a_1 g{k}\n"));
    let outputs = vec!["a"; outputs].join(",");
    format!("a\n{outputs}\n{}", lines.collect::<String>()).into_bytes()
}

/// The text that writing gives for the stage of a stored pair.
fn written(pair: &str) -> Vec<u8> {
    let examples = examples();
    let example = examples.iter().find(|example| example.name == pair);
    text_of_file(&example.expect("a stored pair").pair.stage).expect("a stage that can be written")
}

/// All stored texts.
pub fn texts() -> Vec<TextExample> {
    let mut list = Vec::new();
    let mut reads = |name, stage: Option<&'static str>, text: Vec<u8>, about| {
        list.push(TextExample {
            name,
            about,
            verdict: ACCEPTED,
            stage,
            text,
        });
    };

    // Source document 001.
    let figure_12 = without_registers(MULTIPLIER_INPUTS, "m0,m1,m2,z3,z4,z5", MULTIPLIER_3X3);
    reads(
        "figure-12",
        Some("multiplier-3x3-source"),
        figure_12.clone(),
        "Figure 12(a) of source document 001, registers left out",
    );
    let same = |pin: &str| pin.to_string();
    reads(
        "figure-19",
        Some("multiplier-3x3-source"),
        text_of_figure(
            MULTIPLIER_INPUTS,
            "p0,p1,p2,p3,p4,p5",
            CONVERTED_MULTIPLIER,
            same,
        ),
        "Figure 19(b): the same gates under other names, inverters left out",
    );
    reads(
        "figure-15",
        Some("mac-4-2x2-source"),
        without_registers(MAC_INPUTS, "t5,t8,t9,t10", MAC_4_2X2),
        "Figure 15(a), registers left out",
    );

    // As they are written.
    for (name, about) in [
        ("marked-01", "case 1 of document 01, as it is written"),
        ("marked-06", "case 6 of document 01, as it is written"),
        ("half-adder-relaxed", "relaxed kinds have a leading r"),
        (
            "full-adder-retired",
            "a retired kind reads; the check refuses it",
        ),
        ("marked-09", "a loop reads; the check refuses it"),
        (
            "hamming-4",
            "outputs that are inputs have the inputs' names",
        ),
    ] {
        reads(name, Some(name), written(name), about);
    }

    // Lengths.
    let name = "a_name_of_16_abc";
    reads(
        "names-16",
        Some("marked-02"),
        format!("{name}\n{name}\n").into(),
        "a name of 16 characters",
    );
    let and = |net: &str| {
        format!("a,b\nz\nTH22 a_1,b_1 z_1\nTHand0 a_0,b_0,a_1,b_1 {net}\nTH12 {net},{net} z_0\n")
    };
    reads(
        "pins-18",
        None,
        and("a_net_of_18_abcdef").into(),
        "pins and a net of 18 characters",
    );
    reads(
        "long-names",
        None,
        long_names(),
        "256 gates, all names as long as they may be",
    );

    let mut refused = |name, verdict, text: &[u8], about| {
        list.push(TextExample {
            name,
            about,
            verdict,
            stage: None,
            text: text.to_vec(),
        });
    };

    // 29, 30 and 31.
    let lines: Vec<&[u8]> = figure_12.split_inclusive(|&byte| byte == b'\n').collect();
    let small = [
        &lines[..2].concat()[..],
        &lines[2..].concat().to_ascii_lowercase(),
    ]
    .concat();
    refused(
        "figure-12-kinds",
        [29, 1, 2, 0],
        &small,
        "Figure 12(a) with kinds as it spells them, in small letters",
    );
    let registers = figure(MULTIPLIER_3X3).into_iter();
    let registers = registers.filter(|words| !words[0].starts_with("th"));
    let registers: String = registers.map(|words| words.join(" ") + "\n").collect();
    refused(
        "figure-12-registers",
        [29, 1, 44, 0],
        &[&figure_12[..], registers.as_bytes()].concat(),
        "Figure 12(a) with the lines of its registers and C-elements behind the gates",
    );
    refused(
        "figure-12-outputs",
        [30, 1, 1, 0],
        &text_of_figure(MULTIPLIER_INPUTS, "p0,p1,p2,p3,p4,p5", MULTIPLIER_3X3, same),
        "Figure 12(a) with its registers left out and no name changed: nobody drives p0",
    );
    refused(
        "figure-15-converted",
        [30, 1, 8, 0],
        &text_of_figure(MAC_INPUTS, "t5,t8,t9,t10", CONVERTED_MAC, same),
        "Figure 15(b), inverters and registers left out: its line 13 names x1 for xi1",
    );
    refused(
        "one-rail",
        [30, 1, 1, 0],
        b"a,b\nz\nTH22 a_1,b_1 z_1\nTHand0 a_0,b_0,a_1,b_1 z0\n",
        "an output of which only rail 1 is driven",
    );
    refused(
        "input-twice",
        [31, 1, 0, 0],
        b"a,b,a\nz\nTH22 a_1,b_1 z_1\nTHand0 a_0,b_0,a_1,b_1 z_0\n",
        "an input comes twice",
    );
    refused(
        "line-twice",
        [31, 1, 3, 0],
        b"a,b\nz\nTH22 a_1,b_1 z_1\nTH22 a_1,b_1 z_1\nTHand0 a_0,b_0,a_1,b_1 z_0\n",
        "a gate's line comes twice",
    );
    refused(
        "rail-again",
        [31, 1, 3, 0],
        b"a,b\na\nTH12 a_0,a_1 a\nTH12 b_0,b_1 b_1\n",
        "a gate drives the rail of an input; one that drives a, line 2, does not",
    );
    refused(
        "undriven-first",
        [30, 1, 3, 0],
        b"a,a\na\nTH12 a_0,a_1 a_0\nTH12 a_0,c g\n",
        "a name that nobody drives comes before names driven again in earlier lines",
    );

    // Lengths and line ends.
    let name = "a_name_of_17_abcd";
    refused(
        "names-17",
        [29, 1, 0, 0],
        format!("{name}\n{name}\n").as_bytes(),
        "a name of 17 characters",
    );
    refused(
        "pins-19",
        [29, 1, 3, 0],
        and("a_net_of_19_abcdefg").as_bytes(),
        "pins and a net of 19 characters",
    );
    refused(
        "carriage-return",
        [29, 1, 0, 0],
        b"a,b\r\nz\r\nTH22 a_1,b_1 z_1\r\nTHand0 a_0,b_0,a_1,b_1 z_0\r\n",
        "lines that end in a carriage return and a newline",
    );
    refused(
        "empty-line",
        [29, 1, 2, 0],
        b"a,b\nz\n\nTH22 a_1,b_1 z_1\nTHand0 a_0,b_0,a_1,b_1 z_0\n",
        "an empty line",
    );
    refused(
        "no-last-newline",
        [29, 1, 3, 0],
        b"a,b\nz\nTH22 a_1,b_1 z_1\nTHand0 a_0,b_0,a_1,b_1 z_0",
        "the last line has no newline",
    );
    refused("empty", [29, 1, 0, 0], b"", "no line at all");

    // The numbers of the file that is made.
    refused(
        "pin-too-many",
        [5, 1, 8, 0],
        b"a\na\nTH12 a_0,a_1,a_0 g\n",
        "three pins where the kind has two: the place is in the file made",
    );
    refused(
        "eleven-inputs",
        [3, 1, 1, 0],
        b"a,b,c,d,e,f,g,h,i,j,k\na\n",
        "eleven inputs",
    );
    refused("gates-257", [6, 1, 2562, 0], &many(257, 1), "257 gates");
    refused("outputs-17", [6, 1, 82, 0], &many(0, 17), "17 outputs");
    list
}

/// The file examples/TEXTS.md: every text with its verdict and what it is, and the stored stages that
/// have no text.
pub fn listing() -> String {
    let line = |verdict| files::verdict_line(verdict).trim_end().to_string();
    let mut text = String::from(
        "# Texts\n\n| Folder in `text/` | Verdict | Stage of | What it is |\n|---|---|---|---|\n",
    );
    for example in texts() {
        let stage = example
            .stage
            .map_or(String::new(), |name| format!("`{name}`"));
        text += &format!(
            "| `{}` | {} | {stage} | {} |\n",
            example.name,
            line(file_of_text(&example.text).map_or_else(|verdict| verdict, |_| ACCEPTED)),
            example.about
        );
    }
    text += "\n# Stages that have no text\n\nOf the pairs in `LIST.md`, with the verdict on writing; all others are written.\n\n";
    text += "| Pair | Verdict |\n|---|---|\n";
    for example in examples() {
        if let Err(verdict) = text_of_file(&example.pair.stage) {
            text += &format!("| `{}` | {} |\n", example.name, line(verdict));
        }
    }
    text
}
