"""Tests of 'ncl draw': the stored drawings, the marks of a verdict, and files."""
import json
import re
import xml.etree.ElementTree as xml

from trying import (
    ACCEPTED, AND_REFERENCE, AND_TEXT, WIRE, WIRE_REFERENCE, Ran, compared, examples, folder, holds, pair_of, pipelines, root, same, spelt, stored, tried)


def drawn(*words):
    """a drawing in dot's language: its exit status, its nodes with what they say, and its wires"""
    ran = Ran("draw", *words)
    nodes = dict(re.findall(r"(?m)^  (\w+) \[label=<(.*)>\];$", ran.out))
    wires = re.findall(r"(?m)^  (\w+)(?::(\w+):e)? -> (\w+):(\w+):w \[.*?(style=dashed)?\];", ran.out)
    same(f"draw {words}, nothing else is said", ["", True], [ran.err, ran.out.startswith("digraph stage {\n") and ran.out.endswith("}\n")])
    lost = [wire for wire in wires for name, port in [wire[:2], wire[2:4]]
            if name not in nodes or port and f'port="{port}"' not in nodes[name]]
    same(f"draw {words}, wires without an end", [], lost)
    # A label is a table; Graphviz takes what is well-formed.
    for label in [*nodes.values(), *re.findall(r"(?m)^  label=<(.*)>;$", ran.out)]:
        xml.fromstring(label)
    return ran.status, nodes, wires


def try_drawn_pair(stage, reference, verdict):
    """the marks of a drawing are those of the verdict"""
    number, _, at, word = verdict
    about = f"draw {stage}"
    status, nodes, wires = drawn(stage, reference)
    same(f"{about}, exit status", 1 if number else 0, status)
    faults = [name for name, label in nodes.items() if 'border="3"' in label]
    letter = {12: "g", 13: "y", 14: "x", 15: "g", 20: "x", 21: "g", 33: "r", 34: "r", 35: "r"}.get(number)
    if letter:
        same(f"{about}, the fault", [f"{letter}{at}"], faults)
    elif number not in (28, 32):
        same(f"{about}, no fault is marked", [], faults)
    outputs = [label for name, label in nodes.items() if name[0] == "y"]
    if number in (14, 15):
        same(f"{about}, all outputs are DATA", len(outputs), sum("DATA" in label for label in outputs))
    if number in (20, 21):
        same(f"{about}, all outputs are NULL", len(outputs), sum("NULL" in label for label in outputs))
    if number in (14, 15, 20, 21):
        # Input i is digit i of the word from the left; its rail is that of its value.
        inputs = (root / stage).read_bytes()[1]
        port = f"r{word >> inputs - 1 - at & 1}" if letter == "x" else "z"
        from_fault = [wire for wire in wires if wire[:2] == (faults[0], port) and wire[2][0] == "g"]
        same(f"{about}, the wires of the fault are dashed", [True] * len(from_fault), [bool(wire[4]) for wire in from_fault])
    else:
        same(f"{about}, nothing waits", False, any(wire[4] for wire in wires))
    gates = sum(name[0] == "g" for name in nodes)
    _, every, _ = drawn("--all", stage, reference)
    in_all = sum(name[0] == "g" for name in every)
    # A register that is refused is drawn with all that is there.
    whole = in_all <= 40 or not faults or letter == "r"
    holds(f"{about}, how many gates", gates == in_all if whole else 0 < gates <= 24, [gates, in_all])
    return nodes


def try_drawings():
    """drawings: what is stored, the marks in every example, files, formats, and what is not drawn"""
    text = []
    for example in ["and", "or-incomplete", "xor-unobservable", "full-adder-weight", "full-adder-loop", "full-adder-retired", "and-relaxed",
                    "multiplier-3x3-unobservable", "adder-4-against-5", "pipelines/registers-2x2", "pipelines/register-ring", "pipelines/one-ko-of-two",
                    "pipelines/same-level", "pipelines/or-behind-registers"]:
        text.append(f"== ncl draw {' '.join(pair_of(example))}\n{Ran('draw', *pair_of(example)).out}")
    text.append(f"== ncl draw examples/and/stage.ncl --inputs 0.\n{Ran('draw', 'examples/and/stage.ncl', '--inputs', '0.').out}")
    named = spelt(AND_TEXT.replace("THand0 a_0,b_0,a_1,b_1", "TH12 a_0,b_0"), reference=AND_REFERENCE)
    text.append(f"== ncl draw stage.txt reference.ncl\n{Ran('draw', 'stage.txt', 'reference.ncl', cwd=named).out}")
    compared("what is drawn", stored / "drawn.txt", "".join(text))
    for example in examples + pipelines:
        verdict = [int(number) for number in (root / "examples" / example / "verdict").read_text().split()]
        if verdict[0] in range(1, 10) and verdict[1] == 1 or verdict[0] in (18, 19):
            tried(f"draw {example}, which does not read", 1, " ".join(map(str, verdict)) + "\n", "", "draw", *pair_of(example))
        else:
            try_drawn_pair(*pair_of(example), verdict)

    here = folder(stage=WIRE, reference=WIRE_REFERENCE, cut="01 01 02", loop="01 01 02 02 00 00 02 00 FF FF FF FF 03 00 00 02 00 00")
    tried("draw into a file", 0, ACCEPTED, "", "draw", "stage.ncl", "reference.ncl", "-o", "new.dot", cwd=here)
    same("the file has the drawing", Ran("draw", "stage.ncl", "reference.ncl", cwd=here).out, (here / "new.dot").read_text())
    same("draw without a reference", [0, False], [(ran := Ran("draw", "stage.ncl", cwd=here)).status, "0 0 0 0" in ran.out])
    same("draw a loop without a reference", [1, True], [(ran := Ran("draw", "loop.ncl", cwd=here)).status, "reaches itself" in ran.out])
    tried("draw what does not read", 1, "1 1 3 0\n", "", "draw", "cut.ncl", "-o", "none.dot", cwd=here)
    same("then nothing is written", False, (here / "none.dot").exists())
    same("draw with a reference that does not read", [1, True], [(ran := Ran("draw", "stage.ncl", "cut.ncl", cwd=here)).status, "digraph" in ran.out])
    tried("draw, quiet", 1, "", "", "draw", "-q", *pair_of("or-incomplete"))
    value = json.loads(Ran("draw", "--json", *pair_of("or-incomplete")).out)
    same("draw as JSON", [14, True], [value["number"], value["dot"].startswith("digraph")])
    tried("draw over its stage", 2, "", "is one of the files read", "draw", "stage.ncl", "-o", "./stage.ncl", cwd=here)
    tried("draw, a missing stage", 2, "", "nothing.ncl: No such file", "draw", "nothing.ncl", cwd=here)
    tried("draw, odd signs", 2, "", "sign 1 is 'x'", "draw", "stage.ncl", "--inputs", "0x", cwd=here)
    tried("draw, too many signs", 2, "", "has 1 input; --inputs gives 2 signs", "draw", "stage.ncl", "--inputs", "00", cwd=here)
    tried("draw without dot", 2, "", "Debian's package graphviz", "draw", "stage.ncl", "-o", "new.svg", cwd=here, env={"PATH": "/nowhere"})
    same("then there is no drawing", False, (here / "new.svg").exists())
    odd = here / 'a "stage" <&>.ncl'
    odd.write_bytes(bytes.fromhex(WIRE))
    holds("an odd name in a drawing", "a &quot;stage&quot; &lt;&amp;&gt;.ncl" in Ran("draw", odd.name, cwd=here).out)
    _, nodes, _ = drawn("examples/timing-network/stage.ncl", "--inputs", "0123456789".replace("2", ".").translate(str.maketrans("3456789", "0101010")))
    row = Ran("row", "examples/timing-network/stage.ncl", "01.0101010").out.split()[-1]
    high = [name for name, label in nodes.items() if name[0] == "g" and 'bgcolor="#c9efcd" cellborder' in label]
    same("the gates that are drawn high", [f"g{k}" for k, level in enumerate(row[20:]) if level == "1"], high)
