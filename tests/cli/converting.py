"""Tests of 'ncl from' and 'ncl to' that need no program of others, and of names files."""
import itertools
import json
import random

from trying import ACCEPTED, WIRE, Ran, examples, folder, holds, pair_of, root, same, spelt, tried

SEGMENTS = [0x3F, 0x06, 0x5B, 0x4F, 0x66, 0x6D, 0x7D, 0x07, 0x7F, 0x6F, 0x77, 0x7C, 0x39, 0x5E, 0x79, 0x71]


def digit(d, ci):
    """the next decimal digit and its carry, as a number of five bits"""
    return (1 << 4 if d == 9 else d + 1 & 15) if ci else d


# The modules of examples/verilog: the widths of the inputs, what they compute, and the outputs.
MODULES = {
    "adder": ([5, 5], lambda a, b: a + b, ["s[0]", "s[1]", "s[2]", "s[3]", "s[4]", "s[5]"]),
    "address": ([5, 5], lambda want, at: (at == want) | (at < want) << 1, ["hit", "left"]),
    "digit": ([4, 1], digit, ["q[0]", "q[1]", "q[2]", "q[3]", "co"]),
    "multiplier": ([4, 4], lambda a, b: a * b, [f"p[{k}]" for k in range(8)]),
    "segments": ([4], lambda d: SEGMENTS[d], [f"s[{k}]" for k in range(7)]),
}


def answers(reference):
    """what a reference file answers to every word, bit i of which is input i, and the values that each signal has in some word"""
    count, at, gates, outputs = reference[1], 2, [], []
    while reference[at]:
        two = [int.from_bytes(reference[place:place + 2], "little") for place in (at + 2, at + 4)]
        if reference[at] == 0x11:
            gates.append((reference[at + 1], *two))
        else:
            outputs.append(int.from_bytes(reference[at + 1:at + 3], "little"))
        at += 6 if reference[at] == 0x11 else 3
    found, seen = [], [set() for _ in range(count + len(gates))]
    for word in range(2 ** count):
        values = [word >> k & 1 for k in range(count)]
        for operation, a, b in gates:
            x, y = values[a], values[b] if operation != 1 else 0
            values.append([None, 1 - x, x & y, x | y, x ^ y, 1 - (x & y), 1 - (x | y)][operation])
        for known, value in zip(seen, values):
            known.add(value)
        found.append(sum(values[signal] << j for j, signal in enumerate(outputs)))
    return found, seen


def expected(module):
    """what a module answers to every word"""
    widths, function, _ = MODULES[module]
    found = []
    for word in range(2 ** sum(widths)):
        values, rest = [], word
        for width in widths:
            values.append(rest & (1 << width) - 1)
            rest >>= width
        found.append(function(*values))
    return found


def try_module(source, module, here):
    """a reference of a module, its names, and a stage of it: three commands from a netlist to a proved stage"""
    about = f"from {source}"
    new, names, stage = here / "reference.ncl", here / "names", here / "stage.ncl"
    ran = Ran("from", source, new, names)
    same(f"{about}, exit status", [0, ""], [ran.status, ran.err])
    holds(f"{about}, what is said", f"a reference of module {module}: " in ran.out, ran.out)
    found, seen = answers(new.read_bytes())
    same(f"{about}, all words", expected(module), found)
    same(f"{about}, every signal has both values", [], [k for k, values in enumerate(seen) if values != {0, 1}])
    same(f"{about}, the outputs' names", MODULES[module][2], names.read_text().split("\n")[1].split(","))
    tried(f"{about}, make", 0, ACCEPTED, "", "make", new, stage)
    tried(f"{about}, check", 0, ACCEPTED, "", "check", stage, new)
    back = here / "back.blif"
    tried(f"{about}, to BLIF", 0, "", "", "to", "blif", "--reference", new, back, "--names", names)
    tried(f"{about}, and back", 0, "", "", "from", "-q", back, here / "again.ncl", here / "again.names")
    same(f"{about}, and back, all words", found, answers((here / "again.ncl").read_bytes())[0])
    same(f"{about}, and back, the names", names.read_text(), (here / "again.names").read_text())


HEAD = ".model m\n.inputs a b\n.outputs y\n"

REFUSED = {
    "nothing": ("", "no model in it"),
    "no model": (".inputs a\n", "no model in it"),
    "two models": (HEAD + ".names a b y\n11 1\n.end\n.model n\n", "line 7: a second model, n: flatten"),
    "eleven inputs": (".model m\n.inputs " + " ".join(f"a{k}" for k in range(11)) + "\n.outputs y\n", "11 inputs, and a stage has at most 10"),
    "seventeen outputs": (".model m\n.inputs a\n.outputs " + " ".join(f"y{k}" for k in range(17)) + "\n", "17 outputs, and a stage has at most 16"),
    "no inputs": (".model m\n.outputs y\n", "no inputs"),
    "no outputs": (".model m\n.inputs a\n", "no outputs"),
    "a register": (HEAD + ".latch a y re clk 2\n", "line 4: y is held by a register or a latch"),
    "a register as a cell": (HEAD + ".subckt $_DFF_P_ C=a D=b Q=y\n", "line 4: $_DFF_P_ is held by a register"),
    "a net that nothing drives": (HEAD + ".names a u y\n11 1\n.end\n", "u is used, and nothing drives it"),
    "an output that nothing drives": (HEAD + ".end\n", "y is used, and nothing drives it"),
    "an output that yosys leaves open": (HEAD + ".names $undef\n.names $undef y\n1 1\n.end\n", "y is used, and nothing drives it"),
    "a loop": (HEAD + ".names a t y\n11 1\n.names y t\n1 1\n.end\n", "line 4: y is on a loop"),
    "driven twice": (HEAD + ".names a y\n1 1\n.names b y\n1 1\n.end\n", "line 6: y is driven again"),
    "a driven input": (HEAD + ".names a b\n1 1\n.names b y\n1 1\n.end\n", "line 4: b is an input, and is driven here too"),
    "an input twice": (".model m\n.inputs a a\n.outputs y\n", "input a comes twice"),
    "an unknown cell": (HEAD + ".subckt FOO A=a Y=y\n", "line 4: cell FOO is none of NOT"),
    "a cell without a pin": (HEAD + ".subckt $_AND_ A=a Y=y\n.end\n", "line 4: cell $_AND_ without pin B"),
    "no pin": (HEAD + ".subckt $_AND_ a b y\n", "line 4: a is no pin=net"),
    "a row too short": (HEAD + ".names a b y\n1 1\n", "line 5: is no row of a cover"),
    "a row of odd signs": (HEAD + ".names a b y\n1x 1\n", "line 5: is no row of a cover"),
    "rows for both": (HEAD + ".names a b y\n11 1\n00 0\n", "line 6: a cover has rows for 1 or rows for 0"),
    "names of nothing": (HEAD + ".names\n", "line 4: .names without a net"),
    "an unknown command": (HEAD + ".mystery\n", "line 4: .mystery is no command"),
    "words behind the end": (HEAD + ".names a b y\n11 1\n.end\n.names a y\n", "line 7: .names stands behind .end"),
    "a stage of threshold cells": (HEAD + ".subckt TH22 A=a B=b Z=y\n", "line 4: cell TH22 is a threshold cell; --stage"),
}

TAKEN = {
    "a comment and a line that goes on": (".model m # the model\n.inputs a \\\nb\n.outputs y\n.names a b y # and\n11 1\n.end\n", [0, 0, 0, 1], ""),
    "rows for 0": (HEAD + ".names a b y\n11 0\n.end\n", [1, 1, 1, 0], ""),
    "cells": (HEAD + ".subckt $_ORNOT_ A=a B=b Y=t\n.gate XNOR A=t B=a Y=u\n.subckt $_NOT_ A=u Y=y\n.end\n", [1, 0, 0, 0], ""),
    "wires": (HEAD + ".conn t y\n.names a b t\n1- 1\n-1 1\n.end\n", [0, 1, 1, 1], ""),
    "an output that is an input": (".model m\n.inputs a b\n.outputs a y\n.names b y\n0 1\n.end\n", [2, 3, 0, 1], ""),
    "no end": (HEAD + ".names a b y\n10 1\n01 1\n", [0, 1, 1, 0], ""),
    "an input that leads nowhere": (HEAD + ".names a y\n1 1\n.end\n", [0, 1, 0, 1], "input b leads to no output: no stage is made of it (25)"),
    "two of them": (".model m\n.inputs a b c\n.outputs y\n.names a y\n1 1\n.end\n", [0, 1] * 4, "inputs b c lead to no output"),
    "a constant 0": (HEAD.replace(" y", " y z") + ".names a b y\n11 1\n.names z\n.end\n", [0, 0, 0, 1], "output z is always 0: in a stage its rail 1 never"),
    "a constant 1": (HEAD + ".names a y\n1 1\n0 1\n.end\n", [1] * 4, "output y is always 1: in a stage its rail 0 never rises"),
    "a constant that is computed": (HEAD + ".names a n\n0 1\n.names a n y\n11 1\n.end\n", [0] * 4, "output y is always 0"),
}


def try_blif():
    """BLIF that is taken, and what is said of what is not"""
    here = folder(kept=b"kept")
    for about, (text, says) in REFUSED.items():
        (here / "m.blif").write_text(text)
        tried(f"from BLIF, {about}", 2, "", f"m.blif: {says}" if not says.startswith("line") else f"m.blif, {says}", "from", "m.blif", "kept.ncl", cwd=here)
    same("what is refused writes nothing", b"kept", (here / "kept.ncl").read_bytes())
    for about, (text, words, says) in TAKEN.items():
        (here / "m.blif").write_text(text)
        ran = Ran("from", "m.blif", "new.ncl", cwd=here)
        same(f"from BLIF, {about}", [0, words], [ran.status, answers((here / "new.ncl").read_bytes())[0]])
        holds(f"from BLIF, {about}, what is said", says in ran.err if says else ran.err == "", ran.err)
    # Every function of two signals by its cover, and of three by rows for 1 or for 0.
    for count, (way, table) in itertools.chain(((2, case) for case in itertools.product("10", range(16))),
                                               ((3, case) for case in itertools.product("10", range(0, 256, 7)))):
        rows = [f"{word:0{count}b}"[::-1] + f" {way}\n" for word in range(2 ** count) if (table >> word & 1) == int(way)]
        if not rows:
            continue
        names = "a b c"[:2 * count - 1]
        (here / "m.blif").write_text(f".model m\n.inputs {names}\n.outputs y\n.names {names} y\n{''.join(rows)}.end\n")
        Ran("from", "-q", "m.blif", "new.ncl", cwd=here)
        same(f"from BLIF, function {table} of {count} by its rows for {way}", [table >> word & 1 for word in range(2 ** count)],
             answers((here / "new.ncl").read_bytes())[0])
    # A deep netlist, one with too many gates, one that is too long, and what is no text.
    deep = ".names a t0\n0 1\n" + "".join(f".names t{k} t{k + 1}\n0 1\n" for k in range(100000)) + ".names t100000 b y\n11 1\n.end\n"
    (here / "deep.blif").write_text(HEAD + deep)
    ran = Ran("from", "-q", "deep.blif", "new.ncl", cwd=here)
    same("from BLIF, 100,000 inverters in a row", [0, "", [0, 0, 1, 0]], [ran.status, ran.err, answers((here / "new.ncl").read_bytes())[0]])
    draw = random.Random(5)
    wide = ".model m\n.inputs " + " ".join(f"x{k}" for k in range(10)) + "\n.outputs y\n.names " + " ".join(f"x{k}" for k in range(10)) + " y\n"
    (here / "wide.blif").write_text(wide + "".join(f"{word:010b} 1\n" for word in range(1024) if draw.random() < 0.5) + ".end\n")
    tried("from BLIF, too many gates", 2, "", "a reference has at most", "from", "wide.blif", "kept.ncl", cwd=here)
    tried("from BLIF, a device without end", 2, "", "/dev/zero: has more than 4194304 bytes", "from", "/dev/zero", "kept.ncl", cwd=here)
    (here / "binary.blif").write_bytes(bytes(range(256)))
    tried("from BLIF, no text", 2, "", "binary.blif: is no text", "from", "binary.blif", "kept.ncl", cwd=here)
    tried("from BLIF, a missing file", 2, "", "nothing.blif: No such file", "from", "nothing.blif", "kept.ncl", cwd=here)
    tried("from BLIF, a folder", 2, "", ".: is a folder", "from", ".", "kept.ncl", cwd=here)
    (here / "and.blif").write_text(HEAD + ".names a b y\n11 1\n.end\n")
    tried("from BLIF, over itself", 2, "", "is one of the files read", "from", "and.blif", "and.blif", cwd=here)
    tried("from BLIF, names into the same file", 2, "", "are one file", "from", "and.blif", "new.ncl", "new.ncl", cwd=here)
    tried("from BLIF, a top", 2, "", "BLIF has one model", "from", "and.blif", "new.ncl", "--top", "m", cwd=here)
    tried("from BLIF on standard input", 0, "", "", "from", "-q", "-", "new.ncl", cwd=here, given=(here / "and.blif").read_bytes())
    same("its reference", bytes.fromhex("01 02 11 02 00 00 01 00 12 02 00 00"), (here / "new.ncl").read_bytes())
    (here / "odd.blif").write_text(".model m\n.inputs a,1 b=2\n.outputs y\n.names a,1 b=2 y\n11 1\n.end\n")
    tried("from BLIF, odd names", 0, "", "", "from", "-q", "odd.blif", "new.ncl", "names", cwd=here)
    same("odd names in a names file", "a_1,b_2\ny\n", (here / "names").read_text())
    value = json.loads(Ran("from", "--json", "and.blif", "new.ncl", cwd=here).out)
    same("from as JSON", ["m", "reference", {"inputs": ["a", "b"], "outputs": ["y"]}, []], [value[key] for key in ["module", "what", "names", "notes"]])


def try_damaged_blif():
    """damaged netlists: no panic, a message or a file that reads"""
    draw = random.Random(11)
    wholes = [(root / "examples/verilog" / f"{name}.blif").read_text() for name in ["digit", "segments"]]
    wholes += [Ran("to", "blif", pair_of(name)[0]).out for name in ["full-adder", "half-adder-relaxed"]]
    here = folder()
    lost = []
    for k in range(400):
        text = wholes[k % len(wholes)]
        for _ in range(draw.randrange(1, 4)):
            at, lines = draw.randrange(len(text)), text.split("\n")
            line = draw.randrange(len(lines))
            text = draw.choice([text[:at] + draw.choice(" .\n01-=\\#x$") + text[at + 1:], text[:at] + text[at + 1:], text[:at],
                                "\n".join(lines[:line] + lines[line + 1:]), "\n".join(lines[:line + 1] + lines[line:])]) or "x"
        (here / "m.blif").write_text(text)
        option = ["--stage"] if k % 4 > 1 else []
        (here / "new.ncl").unlink(missing_ok=True)
        ran = Ran("from", *option, "m.blif", "new.ncl", cwd=here)
        written = (here / "new.ncl").exists()
        if ran.status not in (0, 2) or "panicked" in ran.err or written != (ran.status == 0) or ran.status == 2 and not ran.err.startswith("ncl: "):
            lost.append([text, ran.status, ran.err])
        elif written and not option and not Ran("make", "new.ncl", "/dev/null", cwd=here).out.startswith(("0 ", "25 ", "26 ")):
            lost.append([text, "does not read"])
        elif written and option and Ran("to", "blif", "new.ncl", "/dev/null", cwd=here).status != 0:
            lost.append([text, "does not read"])
    same("damaged netlists", [], lost[:2])


STAGE_HEAD = ".model stage\n.inputs a_0 a_1 b_0 b_1\n.outputs z_0 z_1\n"

STAGES_REFUSED = {
    "a port that is no rail": (".model s\n.inputs a b_0 b_1\n.outputs z_0 z_1\n", "input a is no rail"),
    "one rail": (".model s\n.inputs a_0 b_0 b_1\n.outputs z_0 z_1\n", "input a has one rail"),
    "a port twice": (".model s\n.inputs a_0 a_1 a_1\n.outputs z_0 z_1\n", "a port comes twice among the inputs"),
    "a Boolean function": (STAGE_HEAD + ".names a_0 b_0 z_0\n11 1\n", "line 4: z_0 is a Boolean function"),
    "an unknown cell": (STAGE_HEAD + ".subckt TH99 A=a_0 B=b_0 Z=z_0\n", "line 4: cell TH99 is none of the threshold cells"),
    "a pin too few": (STAGE_HEAD + ".subckt TH33 A=a_0 B=b_0 Z=z_0\n", "line 4: cell TH33 without pin C"),
    "a pin too many": (STAGE_HEAD + ".subckt TH22 A=a_0 B=b_0 C=a_1 Z=z_0\n", "line 4: cell TH22 has 2 pins and the output Z, and 4 connections here"),
    "no output pin": (STAGE_HEAD + ".subckt TH22 A=a_0 B=b_0 C=z_0\n", "cell TH22 "),
    "driven twice": (STAGE_HEAD + ".subckt TH22 A=a_0 B=b_0 Z=z_0\n.subckt TH22 A=a_1 B=b_1 Z=z_0\n", "line 5: z_0 is driven again"),
    "nothing drives a rail": (STAGE_HEAD + ".subckt TH22 A=a_0 B=b_0 Z=z_0\n.end\n", "z_1 is used, and nothing drives it"),
    "wires in a loop": (STAGE_HEAD + ".conn t z_0\n.conn z_0 t\n.conn a_1 z_1\n.end\n", "is on a loop of wires"),
    "a latch": (STAGE_HEAD + ".latch a_0 z_0\n", "line 4: z_0 is held by a latch"),
    "eleven inputs": (".model s\n.inputs " + " ".join(f"a{k}_0 a{k}_1" for k in range(11)) + "\n.outputs z_0 z_1\n", "11 inputs and 1 output; a stage has"),
    "257 gates": (STAGE_HEAD + "".join(f".subckt TH22 A=a_0 B=b_0 Z=g{k}\n" for k in range(257)) + ".conn g0 z_0\n.conn g1 z_1\n",
                  "257 gates; a stage has at most"),
}


def try_netlists():
    """stages as BLIF and back, byte for byte; gates by the numbers of their instances; what is no stage"""
    here = folder()
    kept = 0
    for example in examples:
        stage = pair_of(example)[0]
        ran = Ran("to", "blif", stage, here / "s.blif")
        if ran.status == 1:
            holds(f"to blif, {example} does not read", ran.out.split()[0] in "1 2 3 4 5 6 7 8 9 18 19".split(), ran.out)
            continue
        kept += 1
        tried(f"to blif and back, {example}", 0, "", "", "from", "-q", "--stage", here / "s.blif", here / "new.ncl", "--care", stage)
        same(f"to blif and back, {example}, the bytes", (root / stage).read_bytes(), (here / "new.ncl").read_bytes())
    holds("to blif and back, most examples", kept > 100, kept)
    text = Ran("to", "blif", "examples/adder-2/stage.ncl").out
    head, *gates = text.split(".subckt")
    gates[-1], tail = gates[-1].split(".names", 1)
    for about, order in [("reversed", gates[::-1]), ("shuffled", random.Random(3).sample(gates, len(gates)))]:
        (here / "s.blif").write_text(".subckt".join([head, *order]) + ".names" + tail)
        tried(f"gates {about}", 0, "", "", "from", "-q", "--stage", "s.blif", "new.ncl", cwd=here)
        same(f"gates {about}, the bytes", (root / "examples/adder-2/stage.ncl").read_bytes(), (here / "new.ncl").read_bytes())
    (here / "s.blif").write_text(text.replace(".cname u3", ".cname other"))
    ran = Ran("from", "--stage", "s.blif", "new.ncl", "names", cwd=here)
    same("instances without numbers", [0, True], [ran.status, "gates are in the order of the netlist" in ran.err])
    same("the names of a stage", "x0,x1,x2,x3\ny0,y1,y2\n", (here / "names").read_text())
    for about, (text, says) in STAGES_REFUSED.items():
        (here / "s.blif").write_text(text)
        tried(f"from --stage, {about}", 2, "", says, "from", "--stage", "s.blif", "none.ncl", cwd=here)
    same("what is refused writes nothing", False, (here / "none.ncl").exists())
    (here / "s.blif").write_text(STAGE_HEAD + ".subckt TH22 A=a_1 B=b_1 Z=z_1\n.subckt TH12 A=z_0 B=b_0 Z=z_0\n.end\n")
    tried("from --stage, a loop is the check's", 0, "", "", "from", "-q", "--stage", "s.blif", "loop.ncl", cwd=here)
    same("and the check tells", "12 1 1 0\n", Ran("check", "loop.ncl", root / pair_of("and")[1], cwd=here).out)
    tried("care words of what does not read", 2, "", "is no stage that reads: 3 1 1 0", "from", "--stage", "s.blif", "none.ncl", "--care",
          root / pair_of("marked-12")[0], cwd=here)
    holds("care words are said to be left out", "has care words" in Ran("to", "verilog", pair_of("decimal-segments")[0]).err)
    whole = pair_of("and")
    for words in [["cells"], ["verilog", whole[0]], ["bench", *whole], ["blif", whole[0]], ["blif", "--reference", whole[1]]]:
        printed = Ran("to", *words)
        same(f"to {words[0]}", [0, ""], [printed.status, printed.err])
        tried(f"to {words[0]} into a file", 0, "", "", "to", *words, here / "new")
        same(f"to {words[0]}, the same", printed.out, (here / "new").read_text())
        if words[1:]:
            tried(f"to {words[0]}, a missing file", 2, "", "nothing: No such file", "to", *words[:-1], "nothing", here / "new")
    same("54 cells", 54, Ran("to", "cells").out.count("endmodule"))
    tried("to verilog, what does not read", 1, "3 1 1 0\n", "", "to", "verilog", pair_of("marked-12")[0])
    tried("to blif, a reference that does not read", 1, "9 2 6 0\n", "", "to", "blif", "--reference", pair_of("nand-absent-signal")[1])
    tried("to bench, what does not fit", 1, "10 0 8 10\n", "", "to", "bench", *pair_of("adder-4-against-5"))
    tried("to verilog over its stage", 2, "", "is one of the files read", "to", "verilog", "loop.ncl", "loop.ncl", cwd=here)
    texts = spelt("a,b\nz\nTH22 a_1,b_1 z_1\nTHand0 a_0,b_0,a_1,b_1 z_0\n")
    same("a text to BLIF", Ran("to", "blif", pair_of("and")[0]).out, Ran("to", "blif", "stage.txt", cwd=texts).out)


def try_names():
    """names files: buses in what is explained and drawn, and files that are none"""
    here = folder(wire=WIRE)
    Ran("from", "-q", "examples/verilog/multiplier.blif", here / "reference.ncl", here / "names")
    Ran("make", here / "reference.ncl", here / "stage.ncl")
    stage = bytearray((here / "stage.ncl").read_bytes())
    # The third gate from the end with another first pin.
    at = 2 + 10 * (stage.count(0x02) and (len(stage) - 3 - 8 * 5) // 10 - 3)
    stage[at + 2] = 3
    (here / "stage.ncl").write_bytes(stage)
    pair = ["stage.ncl", "reference.ncl"]
    plain, named = Ran("explain", *pair, cwd=here), Ran("explain", *pair, "--names", "names", cwd=here)
    same("explain by names, the same verdict", [plain.status, plain.out.split("\n")[0]], [named.status, named.out.split("\n")[0]])
    word = int(named.out.split("\n")[0].split()[3])
    values = [int(f"{word:08b}"[part][::-1], 2) for part in (slice(0, 4), slice(4, 8))]
    spoken = " ".join(named.out.split())
    holds("explain by names, the word", f"{word} is a = {values[0]} ({values[0]:04b}), b = {values[1]} ({values[1]:04b})" in spoken, named.out)
    if named.out.startswith("13"):
        holds("explain by names, the answer", f"p = {values[0] * values[1]} ({values[0] * values[1]:08b}) by the reference" in spoken, named.out)
        holds("explain by names, the output", "found p[" in spoken, named.out)
    picture = Ran("draw", *pair, "--names", "names", cwd=here).out
    holds("draw by names", "word 0 is a = 0 (0000), b = 0 (0000)" in picture and "<b>p[7]</b>" in picture, picture[:2000])
    holds("mend by names", Ran("mend", *pair, "--names", "names", "--seconds", "0", cwd=here).status in (0, 1))
    picture = Ran("draw", "stage.ncl", "--inputs", "10101.00", "--names", "names", cwd=here).out
    holds("levels by names", "settled for a = 5 (0101), b = 00.1" in picture, picture[:2000])
    (here / "wire.names").write_text("go\ndone[3]\n")
    holds("one bit alone is no bus", "settled for go = 1" in Ran("draw", "wire.ncl", "--inputs", "1", "--names", "wire.names", cwd=here).out)
    odd = {"one line": ("a,b\n", "has 1 line"), "three lines": ("a\nb\nc\n", "has 3 lines"), "an empty name": ("a,\nz\n", "'' is no name"),
           "a sign": ("a=b\nz\n", "'a=b' is no name"), "an escape": ("a\x1b\nz\n", "\\u{1b}' is no name"),
           "too many": ("a,b\nz\n", "names 2 inputs, and there is 1"), "no text": (b"\xff\xfe\nz\n", "is no text"),
           "too long": ("a" * 300 + "\nz\n", "is no name")}
    for about, (text, says) in odd.items():
        (here / "odd").write_bytes(text if isinstance(text, bytes) else text.encode())
        tried(f"a names file with {about}", 2, "", says, "draw", "wire.ncl", "--names", "odd", cwd=here)
    tried("a names file without end", 2, "", "/dev/zero: ", "draw", "wire.ncl", "--names", "/dev/zero", cwd=here)
    tried("a missing names file", 2, "", "nothing: No such file", "explain", *pair, "--names", "nothing", cwd=here)
    (here / "cut.ncl").write_bytes(b"\x01")
    tried("names of what does not read", 1, "1 1 1 0\n", "", "draw", "cut.ncl", "--names", "names", cwd=here)


def try_converting():
    for module in MODULES:
        try_module(f"examples/verilog/{module}.blif", module, folder())
    try_blif()
    try_damaged_blif()
    try_netlists()
    try_names()
