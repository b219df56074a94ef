"""Tests of runs: every run that is explained or handed out is played by the judge, and shows what the verdict says; waveforms."""
import json
import os
import re
import subprocess

from mending import places
from trying import ACCEPTED, WIRE, WIRE_REFERENCE, Ran, compared, examples, folder, holds, pair_of, pipelines, root, same, stored, tried, watching

# The runs that the judge is to play, in one go: what each is about, whether it shows its verdict, and the run as a line.
asked = []


def ask(about, verdict, run, stage, reference=b"", shown=True, order="highest"):
    """asks the judge whether a run shows a verdict: a list of nets, and where the fall begins"""
    (number, _, at, word), (nets, fall) = verdict, run
    asked.append((about, shown, " ".join(map(str, [stage.hex(), reference.hex() or "-", order, number, at, word, fall, *nets]))))


def judged():
    """what the judge says of all that was asked"""
    if not asked:
        return
    words = ["cargo", "run", "--offline", "--release", "--quiet", "--bin", "play_runs"]
    env = {**os.environ, "CARGO_TARGET_DIR": "../target/tests"}
    given = "".join(f"{line}\n" for _, _, line in asked)
    said = subprocess.run(words, cwd=root / "tests", env=env, input=given, stdout=subprocess.PIPE, text=True, check=True).stdout.splitlines()
    same("the judge plays every run", len(asked), len(said))
    for (about, shown, line), answer in zip(asked, said):
        if shown or answer == "no run":
            same(f"{about}, by the judge", "shown", answer)
        else:
            holds(f"{about}, by the judge", answer != "shown", line)


def try_run(stage, reference, verdict, about):
    """the run of a verdict, whole and short; a rise and fall of a word by several seeds"""
    here = folder()
    files = [(root / file).read_bytes() for file in [stage, reference]]
    for option in [[], ["--short"]]:
        ran = Ran("wave", "--json", *option, stage, reference, here / "new.vcd")
        answer = json.loads(ran.out)["run"]
        same(f"{about} {option}, broken", verdict[0] not in (0, 32), answer["broken"])
        ask(f"{about} {option}, the run", [*verdict[:3], answer["word"]], (answer["nets"], answer["fall"]), *files)
        whole = answer if not option else whole
        holds(f"{about} {option}, no longer", len(answer["nets"]) <= len(whole["nets"]))
    # Nothing more can be left out of the short one.
    if verdict[0] in (14, 15, 20, 21):
        nets, fall = answer["nets"], answer["fall"]
        for k in range(0 if verdict[0] < 20 else fall, len(nets)):
            ask(f"{about}, without step {k}", verdict, (nets[:k] + nets[k + 1:], fall - (k < fall)), *files, shown=False)
    if verdict[0] not in (0, 14, 15, 32):
        return
    for seed in ["1", "2"]:
        answer = json.loads(Ran("wave", "--json", "--seed", seed, stage, reference, here / "new.vcd").out)["run"]
        ask(f"{about}, a rise and fall by seed {seed}", [0, 0, 0, answer["word"]], (answer["nets"], answer["fall"]), *files)


def changes(vcd):
    """the values of each signal of a waveform, by time and name"""
    names, found, scopes, time = {}, [], [], 0
    for line in vcd.split("\n"):
        words = line.split()
        if line.startswith("$scope"):
            scopes.append(words[2])
        elif line.startswith("$upscope"):
            scopes.pop()
        elif line.startswith("$var"):
            names.setdefault(words[3], []).append(".".join([*scopes, words[4]]))
        elif line.startswith("#"):
            time = int(line[1:])
        elif line[:1] in ("0", "1") and line[1:] in names:
            found += [(time, name, line[0]) for name in names[line[1:]]]
        elif line.startswith("s") and len(words) == 2:
            found += [(time, name, words[0][1:]) for name in names[words[1]]]
    return sorted(set(found))


def try_waving():
    text = []
    here = folder(stage=WIRE, reference=WIRE_REFERENCE)
    for example in ["and-incomplete", "xor-unobservable", "and-relaxed", "wire-relaxed", "and", "pipelines/or-behind-registers"]:
        tried(f"wave {example}", 0 if example == "and" else 1, (root / "examples" / example / "verdict").read_text(), "",
              "wave", *pair_of(example), here / "new.vcd", "--save", here / "new.gtkw")
        save = (here / "new.gtkw").read_text().replace(str(here), "")
        text.append(f"== ncl wave {' '.join(pair_of(example))}\n{(here / 'new.vcd').read_text()}{save}")
    compared("what is waved", stored / "waved.txt", "".join(text))
    for example in examples + pipelines:
        verdict = [int(number) for number in (root / "examples" / example / "verdict").read_text().split()]
        if verdict[0] in (0, 13, 14, 15, 20, 21, 32):
            try_run(*pair_of(example), verdict, f"wave {example}")
        elif verdict[0] not in (10, 11, 28):
            Ran("wave", *pair_of(example), here / "none.vcd")
            same(f"wave {example}, nothing is written", False, (here / "none.vcd").exists() and verdict[0] != 9)
            (here / "none.vcd").unlink(missing_ok=True)
    found = changes((Ran("wave", *pair_of("and-incomplete"), here / "new.vcd"), (here / "new.vcd").read_text())[1])
    same("a waveform", [(0, "stage.promise_broken", "0"), (3, "stage.promise_broken", "1")], [row for row in found if "broken" in row[1]])
    same("its pairs", [(0, "stage.x0", "NULL"), (0, "stage.x1", "NULL"), (0, "stage.y0", "NULL"), (1, "stage.x1", "DATA0"), (2, "stage.y0", "DATA0")],
         [row for row in found if re.fullmatch(r"stage\.[xy]\d", row[1])])
    saved = re.findall(r"(?m)^stage\.\S+$", (Ran("wave", *pair_of("and"), here / "new.vcd", "--save", here / "s"), (here / "s").read_text())[1])
    same("the signals of the save file are those of the waveform", {row[1] for row in changes((here / "new.vcd").read_text())}, set(saved))
    for example in ["and", "full-adder", "hamming-4-relaxed"]:
        runs = [json.loads(Ran("wave", "--json", *pair_of(example), here / "new.vcd", *words).out)["run"] for words in [[], ["--word", "0"]]]
        same(f"wave {example}, word 0 is the one that is shown", runs[0], runs[1])
    tried("wave, a word without care", 1, "32 1 1 0\n", "word 0, for which the stage does not care: nothing is promised of it",
          "wave", *pair_of("and-one-word"), here / "new.vcd", "--word", "0")
    for words in [[], ["--seed", "3"]]:
        answer = json.loads(Ran("wave", "--json", *pair_of("and-one-word"), here / "new.vcd", *words).out)["run"]
        same(f"wave, the least word with care {words}", 3, answer["word"])
    tried("wave, a word that is none", 2, "", "--word 4: words of 2 inputs are 0 to 3", "wave", *pair_of("and"), here / "new.vcd", "--word", "4")
    tried("wave, quiet", 1, "", "", "wave", "-q", *pair_of("or-incomplete"), here / "new.vcd")
    tried("wave over its stage", 2, "", "is one of the files read", "wave", "stage.ncl", "reference.ncl", "stage.ncl", cwd=here)
    tried("wave, a missing stage", 2, "", "nothing: No such file", "wave", "nothing", "reference.ncl", "new.vcd", cwd=here)
    tried("wave, no run", 1, "28 1 0 0\n", "nothing is written, since the verdict speaks of no run", "wave", *pair_of("full-adder-retired"), here / "no.vcd")
    tried("wave, no run, a word", 1, "28 1 0 0\n", "", "wave", *pair_of("full-adder-retired"), here / "new.vcd", "--word", "5")
    tried("wave of a wire", 0, ACCEPTED, "", "wave", "stage.ncl", "reference.ncl", "new.vcd", cwd=here)


def net_names(stage, names=None, text=None):
    """the nets of a stage file by the names that an explanation has for them: plain ones, those of a names file, or those of a text"""
    gates, _, nets = places(stage)
    inputs = [f"x{i}" for i in range(stage[1])]
    lines = [f"g{k}" for k in range(len(gates))]
    if names or text:
        inputs = (names or text).decode().split("\n")[0].split(",")
    if text:
        lines = [line.split(" ")[2] for line in text.decode().split("\n")[2:] if line]
    return {name: net for net, name in enumerate([f"{name}_{rail}" for name in inputs for rail in (0, 1)] + lines)}


def shown_run(explanation, nets):
    """the nets of the run in an explanation, in order, and which way it goes"""
    block = re.search(r"(?m)^  run       .*\n(?: {12}\S.*\n)*((?: {14}.*\n)+)", explanation)
    words = " ".join(block.group(1).split())
    list_of = []
    for part in re.split(r"(?:^| )(?:rise|fall) ", words)[1:]:
        gate = re.match(r"(\S+) = ", part)
        list_of += [nets[name] for name in ([gate.group(1)] if gate else part.split())]
    return list_of, words.split(" ")[0]


def ask_explained(about, explanation, stage, nets, order="highest"):
    """asks the judge about the run in an explanation; before a fall comes the rise, all of it"""
    verdict = [int(number) for number in explanation.split("  ")[0].split()]
    steps, way = shown_run(explanation, nets)
    counted = re.search(r"(\d+) switchings? (?:is|are) enough", explanation).group(1)
    same(f"{about}, as many as is said", int(counted), len(steps))
    fall = len(steps)
    if way == "fall":
        here = folder(stage=stage, reference=WIRE_REFERENCE)
        lowest = ["--lowest"] if order == "lowest" else []
        rise = json.loads(Ran("wave", "--json", "--word", verdict[3], *lowest, "stage.ncl", "reference.ncl", "new.vcd", cwd=here).out)["run"]
        steps, fall = rise["nets"][:rise["fall"]] + steps, rise["fall"]
    ask(about, verdict, (steps, fall), stage, order=order)


# How many explained runs were asked about.
explained = {"by a command": 0, "of a batch": 0}


def note_explained(words, cwd, given, ran):
    """each run of the command that explains one: the run is played by the judge"""
    text = ran.out if "\n  run       " in ran.out else ran.err
    if "\n  run       " not in text or words[0] not in ("explain", "check", "report", "join"):
        return
    name = re.search(r"(?m)^  stage     ((?:.|\n {12})*?): \d+ input", text).group(1).replace("\n            ", "")
    data = given if name in ("-", "standard input") else (cwd / name).read_bytes()
    names = (cwd / words[words.index("--names") + 1]).read_bytes() if "--names" in words else None
    spelt = data if name.endswith(".txt") or "--text" in words else None
    if spelt:
        here = folder()
        (here / "stage.txt").write_bytes(spelt)
        Ran("text", "read", "stage.txt", "stage.ncl", cwd=here)
        data = (here / "stage.ncl").read_bytes()
    explained["by a command"] += 1
    ask_explained(f"ncl {' '.join(map(str, words))}, the run", text[re.search(r"(?m)^\d+ \d+ \d+ \d+  ", text).start():], data,
                  net_names(data, names, spelt), "lowest" if "--lowest" in words else "highest")


watching.append(note_explained)


def try_explained_runs(rows):
    """every run that a batch explains"""
    for row in rows:
        text = row.get("explanation", "")
        verdict = [row[key] for key in ["number", "file", "at", "word"]]
        same(f"a run of {row['stage']} is explained", verdict[0] in (14, 15, 20, 21), "\n  run       " in f"\n{text}")
        if verdict[0] in (14, 15, 20, 21):
            explained["of a batch"] += 1
            stage = (root / row["stage"]).read_bytes()
            ask_explained(f"the run that is explained of {row['stage']}", f"{' '.join(map(str, verdict))}  \n{text}", stage, net_names(stage))


def try_judged():
    """all of these runs, by the judge"""
    holds("explained runs of commands", explained["by a command"] > 30, explained)
    holds("explained runs of a batch", explained["of a batch"] > 215, explained)
    judged()
