"""Tests of 'ncl mend': the stored texts, every single change against a list made here, two pins at once, files, and the time."""
import json

from trying import (
    ACCEPTED, WIRE, WIRE_REFERENCE, Ran, compared, examples, folder, holds, on_a_terminal, pair_of, pipelines, root, same, stored, tried)

# How many pins each kind has from A on; kinds by the table of document 01.
PINS = {kind: 2 if kind <= 2 else 3 if kind <= 7 else 4 for kind in range(1, 28)}
RETIRED = 24


def places(stage):
    """where the gates and the outputs of a stage file stand, and how many nets it has"""
    at, gates, outputs = 2, [], []
    while stage[at]:
        if stage[at] == 2:
            gates.append(at)
        elif stage[at] == 3:
            outputs.append(at)
        at += {2: 10, 3: 5, 4: 7, 5: 9, 6: 3}[stage[at]]
    return gates, outputs, 2 * stage[1] + len(gates)


def singles(stage):
    """every stage with one kind, hold, pin or output rail changed"""
    gates, outputs, nets = places(stage)

    def put(at, new):
        return stage[:at] + new + stage[at + len(new):]

    def operands(at, count):
        for place in range(at, at + 2 * count, 2):
            for net in range(nets):
                if stage[place:place + 2] != net.to_bytes(2, "little"):
                    yield put(place, net.to_bytes(2, "little"))

    for at in outputs:
        yield put(at + 1, stage[at + 3:at + 5] + stage[at + 1:at + 3])
        yield from operands(at + 1, 2)
    for at in gates:
        kind, hold = stage[at + 1] & 127, stage[at + 1] & 128
        if kind != RETIRED:
            yield put(at + 1, bytes([kind | hold ^ 128]))
        for other in PINS:
            if other not in (kind, RETIRED) and PINS[other] == PINS[kind]:
                yield put(at + 1, bytes([other | hold]))
        yield from operands(at + 2, PINS[kind])


def try_singles(example):
    """the single changes that are accepted are those that a check of each of them accepts"""
    stage = (root / "examples" / example / "stage.ncl").read_bytes()
    here = folder(reference=(root / "examples" / example / "reference.ncl").read_bytes(), stage=stage)
    changed = list(singles(stage))
    for k, data in enumerate(changed):
        (here / f"{k}.ncl").write_bytes(data)
    lines = Ran("batch", "-", cwd=here, given="".join(f"{k}.ncl reference.ncl\n" for k in range(len(changed))).encode()).out.splitlines()
    accepted = {changed[k] for k, line in enumerate(lines) if line.startswith(ACCEPTED.strip())}
    answer = json.loads(Ran("mend", "--json", "stage.ncl", "reference.ncl", cwd=here).out)
    same(f"mend {example}, how many single changes", len(changed), answer["tried"])
    written = set()
    for k in range(1, len(answer["changes"]) + 1):
        Ran("mend", "-q", "stage.ncl", "reference.ncl", "-o", "new.ncl", "--take", k, cwd=here)
        written.add((here / "new.ncl").read_bytes())
    same(f"mend {example}, those that are accepted", accepted, written)


def try_mending():
    text = []
    for example in examples + pipelines:
        verdict = (root / "examples" / example / "verdict").read_text()
        # 128 gates and ten inputs take some seconds.
        if verdict == ACCEPTED or example.startswith("timing-"):
            continue
        ran = Ran("mend", "--seconds", "60", *pair_of(example))
        text.append(f"== ncl mend {' '.join(pair_of(example))}\n{ran.out}{ran.err}-- status {ran.status}\n")
        here = folder()
        if "accepted  1." in ran.out:
            same(f"mend {example}, exit status", 0, ran.status)
            tried(f"mend {example} into a file", 0, "", "", "mend", "-q", *pair_of(example), "-o", here / "new.ncl")
            tried(f"mend {example}, the file is accepted", 0, ACCEPTED, "", "check", here / "new.ncl", pair_of(example)[1])
        else:
            tried(f"mend {example}, which cannot be mended, into a file", 1, "", "", "mend", "-q", *pair_of(example), "-o", here / "new.ncl")
            same(f"mend {example}, then nothing is written", False, (here / "new.ncl").exists())
    compared("what is mended", stored / "mended.txt", "".join(text))
    for example in ["full-adder-weight", "full-adder-loop", "multiplier-3x3-relaxed-sum", "adder-5-carry-pin", "and-swapped", "and-relaxed-rail-1"]:
        try_singles(example)

    # Two pins of one gate on wrong nets: g1 = THand0(x0_0, x2_0, g5, g11) in place of THand0(x0_0, x2_0, x0_1, x2_1).
    whole = (root / "examples/multiplier-2x2/stage.ncl").read_bytes()
    at = places(whole)[0][1]
    here = folder(stage=whole[:at + 6] + bytes([13, 0, 19, 0]) + whole[at + 10:])
    pair = [here / "stage.ncl", pair_of("multiplier-2x2")[1]]
    same("two wrong pins", "14 1 0 0\n", Ran("check", *pair).out)
    answer = json.loads(Ran("mend", "--json", "--seconds", "60", *pair, "-o", here / "new.ncl").out)
    same("two wrong pins, mended", ["pin C of g1 on x0_1 in place of g5, and pin D of g1 on x2_1 in place of g11"], answer["changes"])
    same("two wrong pins, all were tried", False, answer["cut"])
    same("two wrong pins, the bytes of the whole", whole, (here / "new.ncl").read_bytes())
    answer = Ran("mend", "--seconds", "0", *pair)
    holds("no time for more than single changes", "0 s were over before all" in answer.out, answer.out)

    here = folder(stage=WIRE, reference=WIRE_REFERENCE)
    ran = Ran("mend", "stage.ncl", "reference.ncl", "-o", "new.ncl", cwd=here)
    same("mend what is accepted", [0, "0 0 0 0  accepted", ""], [ran.status, ran.out.split("\n")[0], ran.err])
    same("then nothing is written", False, (here / "new.ncl").exists())
    tried("mend, a change that is not there", 2, "", "--take 9: 1 change found", "mend", *pair_of("and-swapped"), "-o", here / "new.ncl", "--take", "9")
    tried("mend, number 0", 2, "", "--take", "mend", *pair_of("and-swapped"), "-o", here / "new.ncl", "--take", "0")
    tried("mend, a number without a file", 2, "", "--output", "mend", *pair_of("and-swapped"), "--take", "1")
    tried("mend, odd seconds", 2, "", "--seconds", "mend", *pair_of("and-swapped"), "--seconds", "x")
    tried("mend over its stage", 2, "", "is one of the files read", "mend", *pair_of("and-swapped"), "-o", pair_of("and-swapped")[0])
    tried("mend, a missing stage", 2, "", "nothing.ncl: No such file", "mend", "nothing.ncl", "reference.ncl", cwd=here)
    # However fast the machine is, this takes more than the second after which a bar is drawn: one thread, held for more than a second.
    words, status = on_a_terminal("mend", "--seconds", "0", *pair_of("timing-network-last-word"), env={"RAYON_NUM_THREADS": "1"}, held=1.3)
    same("mend on a terminal, a bar", [1, True], [status, "gates and outputs" in words])


def try_mended_pair(row):
    """a generated pair: no panic, and what is found is accepted"""
    ran = Ran("mend", "--json", "--seconds", "0", row["stage"], row["reference"])
    answer = json.loads(ran.out)
    holds(f"mend {row['stage']}", ran.err == "" and ran.status == (0 if answer["changes"] or answer["accepted"] else 1), [ran.status, ran.err])
