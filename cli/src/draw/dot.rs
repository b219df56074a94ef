//! A scene in the language of Graphviz: a node for each input, gate, register, C-element and output, as tables with a port for each pin and rail.

use super::scene::{Mark, Scene};
use crate::explain::wrapped;
use crate::netlist::{set_expression, Driver, OUTSIDE};
use crate::situation::pair_state;
use crate::wiring::Wiring;
use std::fmt::Write;

const INK: &str = "#1b1f24";
const SOFT: &str = "#6e7781";
const FAINT: &str = "#c4cad0";
const HIGH: &str = "#c9efcd";
const GREEN: &str = "#1a7f37";
const RED: &str = "#cf222e";
const PINK: &str = "#ffdcd9";
/// The rails 0 and 1.
const RAILS: [&str; 2] = ["#0969da", "#d4760a"];

/// The whole drawing.
pub fn dot(scene: &Scene) -> String {
    let mut text = String::from(
        "digraph stage {\n  rankdir=LR; nodesep=0.14; ranksep=0.75; fontname=\"Helvetica\"; fontsize=12; labelloc=t; labeljust=l; outputorder=edgesfirst;\n",
    );
    let _ = writeln!(text, "  label=<{}>;", heading(scene));
    let _ = writeln!(text, "  node [shape=plain, fontname=\"Helvetica\", fontsize=11, fontcolor=\"{INK}\"];");
    let _ = writeln!(text, "  edge [arrowhead=none, fontname=\"Helvetica\", fontsize=9, color=\"{FAINT}\"];");
    let inputs: Vec<usize> = (0..scene.stage.inputs).filter(|&input| scene.input_shown(input)).collect();
    let outputs: Vec<usize> = (0..scene.stage.outputs.len()).filter(|&output| scene.output_shown(output)).collect();
    inputs.iter().for_each(|&input| text += &input_node(scene, input));
    (0..scene.stage.gates.len()).filter(|&gate| scene.shown[gate]).for_each(|gate| text += &gate_node(scene, gate));
    if scene.parts_shown() {
        let wiring = Wiring::of(scene.stage);
        (0..scene.stage.registers.len()).for_each(|register| text += &register_node(scene, &wiring, register));
        (0..scene.stage.elements.len()).for_each(|element| text += &element_node(scene, element));
    }
    outputs.iter().for_each(|&output| text += &output_node(scene, output));
    let listed = |letter: char, list: &[usize]| list.iter().map(|k| format!("{letter}{k}; ")).collect::<String>();
    let _ = writeln!(text, "  {{ rank=source; {}}}", listed('x', &inputs));
    let _ = writeln!(text, "  {{ rank=sink; {}}}", listed('y', &outputs));
    text + "}\n"
}

/// Words for a label in Graphviz's form of HTML.
fn escaped(words: &str) -> String {
    let mut text = String::new();
    for sign in words.chars() {
        match sign {
            '&' => text += "&amp;",
            '<' => text += "&lt;",
            '>' => text += "&gt;",
            '"' => text += "&quot;",
            _ if sign.is_control() => text.extend(sign.escape_default()),
            _ => text.push(sign),
        }
    }
    text
}

/// Lines of the title have at most so many signs, so that no drawing is wider for it than it has to be.
const WIDE: usize = 96;

/// The title, and what the colours mean.
fn heading(scene: &Scene) -> String {
    let mut rows = String::new();
    for (k, line) in scene.title.iter().flat_map(|line| wrapped(line, WIDE)).enumerate() {
        let line = escaped(&line);
        let words = if k == 0 { format!("<font point-size=\"14\"><b>{line}</b></font>") } else { line };
        // The last cell is room for fonts that are wider than the one that Graphviz measures with.
        rows += &format!("<tr><td align=\"left\">{words}</td><td width=\"40\"></td></tr>");
    }
    let square = |colour: &str, words: &str| format!("<font color=\"{colour}\">&#9632;</font>&#160; {words} &#160; ");
    let mut legend = square(RAILS[0], "rail 0") + &square(RAILS[1], "rail 1");
    if scene.levels {
        legend += &square(HIGH, "high");
    }
    let marks: Vec<&Mark> = scene.inputs.iter().chain(&scene.gates).chain(&scene.registers).chain(&scene.outputs).collect();
    let word = |words: &str| format!("<font color=\"{RED}\">{words}</font> &#160; ");
    if marks.iter().any(|mark| matches!(mark, Mark::Fault(_))) {
        legend += &square(RED, "the fault");
    }
    if marks.iter().any(|mark| matches!(mark, Mark::Look(_))) {
        legend += &word("&#9633; look here");
    }
    if scene.late.contains(&true) {
        legend += &word("- - - still to switch");
    }
    let legend = format!("<tr><td align=\"left\"><font point-size=\"10\">{legend}</font></td></tr>");
    format!("<table border=\"0\" cellborder=\"0\" cellspacing=\"0\" cellpadding=\"1\">{rows}{legend}</table>")
}

/// The outline and the ground of a part.
fn style(mark: &Mark, high: bool) -> String {
    let ground = if high { HIGH } else { "white" };
    match mark {
        Mark::Fault(_) => format!("border=\"3\" color=\"{RED}\" bgcolor=\"{PINK}\""),
        Mark::Look(_) => format!("border=\"2\" color=\"{RED}\" bgcolor=\"{ground}\""),
        Mark::Late => format!("border=\"1\" style=\"dashed\" color=\"{RED}\" bgcolor=\"{ground}\""),
        Mark::None | Mark::End => format!("border=\"1\" color=\"{SOFT}\" bgcolor=\"{ground}\""),
    }
}

/// What is said of a part, below its name.
fn note(mark: &Mark) -> String {
    match mark {
        Mark::Fault(words) | Mark::Look(words) if !words.is_empty() => {
            format!("<br/><font color=\"{RED}\" point-size=\"9\">{}</font>", escaped(words))
        }
        Mark::End => format!("<br/><font color=\"{RED}\" point-size=\"9\">low in this word</font>"),
        _ => String::new(),
    }
}

fn table(style: &str, rows: &str) -> String {
    format!("<<table {style} cellborder=\"0\" cellspacing=\"0\" cellpadding=\"2\">{rows}</table>>")
}

/// What an input or output is: its name and state.
fn named(scene: &Scene, name: &str, rails: [usize; 2], mark: &Mark) -> String {
    let state = if scene.levels { format!("<br/>{}", pair_state(&scene.row, rails)) } else { String::new() };
    format!("<td rowspan=\"2\" cellpadding=\"4\"><b>{}</b>{state}{}</td>", escaped(name), note(mark))
}

fn rail_cell(rail: usize, high: bool) -> String {
    let ground = if high { format!(" bgcolor=\"{HIGH}\"") } else { String::new() };
    format!("<td port=\"r{rail}\"{ground}><font color=\"{}\" point-size=\"9\"><b>{rail}</b></font></td>", RAILS[rail])
}

fn is_data(scene: &Scene, rails: [usize; 2]) -> bool {
    pair_state(&scene.row, rails).starts_with("DATA")
}

fn input_node(scene: &Scene, input: usize) -> String {
    let (rails, mark) = ([2 * input, 2 * input + 1], &scene.inputs[input]);
    let name = named(scene, &scene.stage.input_name(input), rails, mark);
    let [low, high] = [0, 1].map(|rail| rail_cell(rail, scene.row[rails[rail]]));
    let rows = format!("<tr>{name}{low}</tr><tr>{high}</tr>");
    format!("  x{input} [label={}];\n", table(&style(mark, is_data(scene, rails)), &rows))
}

fn output_node(scene: &Scene, output: usize) -> String {
    let (rails, mark) = (scene.stage.outputs[output], &scene.outputs[output]);
    let high = |rail: usize| scene.row.get(rails[rail]) == Some(&true);
    let name = named(scene, &scene.stage.output_name(output), rails, mark);
    let [low, top] = [0, 1].map(|rail| rail_cell(rail, high(rail)));
    let rows = format!("<tr>{low}{name}</tr><tr>{top}</tr>");
    let mut text = format!("  y{output} [label={}];\n", table(&style(mark, is_data(scene, rails)), &rows));
    for (rail, net) in rails.into_iter().enumerate() {
        let how = wire(RAILS[rail], high(rail));
        text += &edge(scene, net, &format!("y{output}:r{rail}"), &how);
    }
    text
}

fn gate_node(scene: &Scene, gate: usize) -> String {
    let (found, mark) = (&scene.stage.gates[gate], &scene.gates[gate]);
    let high = scene.row[scene.stage.net_of(gate)];
    let set = set_expression(found.kind).unwrap_or_default();
    let body = format!(
        "<td rowspan=\"{}\" port=\"z\" cellpadding=\"3\"><b>{} {}</b><br/><font color=\"{SOFT}\" point-size=\"9\">{set}</font>{}</td>",
        found.pins.len(),
        escaped(&scene.stage.gate_name(gate)),
        found.name(),
        note(mark)
    );
    let mut rows = String::new();
    for (k, (&pin, letter)) in found.pins.iter().zip("ABCD".chars()).enumerate() {
        let ground = if scene.row.get(pin) == Some(&true) { format!(" bgcolor=\"{HIGH}\"") } else { String::new() };
        let body = if k == 0 { &body } else { "" };
        rows += &format!("<tr><td port=\"{letter}\"{ground}><font color=\"{SOFT}\" point-size=\"8\">{letter}</font></td>{body}</tr>");
    }
    let mut text = format!("  g{gate} [label={}];\n", table(&style(mark, high), &rows));
    for (&pin, letter) in found.pins.iter().zip("ABCD".chars()) {
        text += &edge(scene, pin, &format!("g{gate}:{letter}"), &pin_style(scene, gate, pin));
    }
    text
}

/// A wire of the completion: it does not move what it leads to.
fn completion() -> String {
    format!("color=\"{SOFT}\", penwidth=0.7, style=dotted, constraint=false")
}

/// A register with its data at the left and its rails at the right, its Ki and Ko below them. Where no register reaches itself it has a level.
fn register_node(scene: &Scene, wiring: &Wiring, register: usize) -> String {
    let (found, mark) = (&scene.stage.registers[register], &scene.registers[register]);
    let rails = [found.net, found.net + 1];
    let ring = (0..wiring.fed.len()).any(|other| !wiring.ring(other).is_empty());
    let level = if ring { "register".into() } else { format!("register, level {}", wiring.levels[register]) };
    let state = if scene.levels { format!("<br/>{}", pair_state(&scene.row, rails)) } else { String::new() };
    let name = escaped(&scene.stage.register_name(register));
    let soft = |words: &str| format!("<font color=\"{SOFT}\" point-size=\"9\">{words}</font>");
    let body = format!("<td rowspan=\"3\" cellpadding=\"4\"><b>{name}</b><br/>{}{state}{}</td>", soft(&level), note(mark));
    let small = |port: &str, words: &str| format!("<td port=\"{port}\">{}</td>", soft(words));
    let ki = if found.ki == OUTSIDE { "Ki: outside" } else { "Ki" };
    let [low, high] = [0, 1].map(|rail| rail_cell(rail, scene.row[rails[rail]]));
    let rows = [
        format!("<tr>{}{body}{low}</tr>", small("d0", "0")),
        format!("<tr>{}{high}</tr>", small("d1", "1")),
        format!("<tr>{}{}</tr>", small("ki", ki), small("ko", "Ko")),
    ];
    let mut text = format!("  r{register} [label={}];\n", table(&style(mark, is_data(scene, rails)), &rows.concat()));
    for (rail, &net) in found.data.iter().enumerate() {
        let how = wire(RAILS[rail], scene.row.get(net) == Some(&true));
        text += &edge(scene, net, &format!("r{register}:d{rail}"), &how);
    }
    if found.ki != OUTSIDE {
        text += &edge(scene, found.ki, &format!("r{register}:ki"), &completion());
    }
    text
}

fn element_node(scene: &Scene, element: usize) -> String {
    let found = &scene.stage.elements[element];
    let name = escaped(&scene.stage.element_name(element));
    let body = format!("<td rowspan=\"{}\" port=\"z\" cellpadding=\"3\"><b>{name} C</b></td>", found.pins.len());
    let mut rows = String::new();
    for (k, letter) in "ABCD".chars().enumerate().take(found.pins.len()) {
        let body = if k == 0 { &body } else { "" };
        rows += &format!("<tr><td port=\"{letter}\"><font color=\"{SOFT}\" point-size=\"8\">{letter}</font></td>{body}</tr>");
    }
    let mut text = format!("  c{element} [label={}];\n", table(&style(&Mark::None, false), &rows));
    for (&pin, letter) in found.pins.iter().zip("ABCD".chars()) {
        text += &edge(scene, pin, &format!("c{element}:{letter}"), &completion());
    }
    text
}

/// How the wire of a net is drawn that a gate reads.
fn pin_style(scene: &Scene, gate: usize, net: usize) -> String {
    let on_loop = scene.path.iter().enumerate().any(|(k, &own)| {
        let before = scene.path[(k + scene.path.len() - 1) % scene.path.len()];
        own == gate && net == scene.stage.net_of(before)
    });
    let rail = match scene.stage.source(net) {
        Driver::Input(_) => Some(RAILS[net % 2]),
        Driver::Rail(_, rail) => Some(RAILS[rail]),
        _ => None,
    };
    if on_loop {
        format!("color=\"{RED}\", penwidth=2.4")
    } else if scene.late.get(net) == Some(&true) {
        format!("color=\"{RED}\", penwidth=1.6, style=dashed")
    } else {
        let high = scene.row.get(net) == Some(&true);
        wire(rail.unwrap_or(if high { GREEN } else { SOFT }), high)
    }
}

/// A wire is thick where it is high.
fn wire(colour: &str, high: bool) -> String {
    format!("color=\"{colour}\", penwidth={}", if high { "2" } else { "0.7" })
}

/// The wire from what drives a net; where that is not drawn, from the net's name.
fn edge(scene: &Scene, net: usize, to: &str, how: &str) -> String {
    let from = match scene.stage.source(net) {
        Driver::Gate(gate) if scene.shown[gate] => format!("g{gate}:z:e"),
        Driver::Input(input) if scene.net_shown(net) => format!("x{input}:r{}:e", net % 2),
        Driver::Rail(register, rail) if scene.parts_shown() => format!("r{register}:r{rail}:e"),
        Driver::Ko(register) if scene.parts_shown() => format!("r{register}:ko:e"),
        Driver::Element(element) if scene.parts_shown() => format!("c{element}:z:e"),
        _ => {
            let stub = format!("from_{}", to.replace(':', "_"));
            let colour = if scene.row.get(net) == Some(&true) { GREEN } else { SOFT };
            let name = escaped(&scene.stage.net_name(net));
            return format!(
                "  {stub} [label=<<font color=\"{colour}\" point-size=\"9\">{name}</font>>];\n  {stub} -> {to}:w [{how}, minlen=1];\n"
            );
        }
    };
    format!("  {from} -> {to}:w [{how}];\n")
}
