#!/usr/bin/env python3
"""Turns the proof of a function by hand, proofs/F/Proof.antt, into today's Invariants.antt and Answers.antt.

usage: tools/to_answers.py CRATE NAMES LANDED [F ..]     at the top

NAMES is the names.json that 'rt check --generated DIR --old-names' wrote for the crate, and LANDED the commit whose proofs have the old names
of the goals. Answers that only searched are dropped, as are answers to goals that there are no longer: the check tries those alone. What it
could not place is printed. The old file goes, and the check decides.
"""

import json
import os
import re
import subprocess
import sys

OLD = [(r"-holds(-\d+)?$", r"-init\1"), (r"-again(-\d+)?$", r"-preserved\1"), (r"-less(-\d+)?$", r"-smaller\1")]
WAS = {}
with open("tools/spelling.json", encoding="utf-8") as f:
    for was, new in json.load(f).items():
        WAS.setdefault(new, []).append(was)
PATH = re.compile(r"(?<![\w.'₀-₉-])([A-Za-z_][\w'-]*?)((?:\.[^\s(){},;.\"]+)+|(?![\w'.-]))")


def dash(t):
    return t.replace("_", "-")


def show(commit, path):
    r = subprocess.run(["git", "show", f"{commit}:{path}"], capture_output=True, text=True)
    return r.stdout


class Function:
    def __init__(self, crate, name, names, landed):
        self.crate, self.name, self.said = crate, name, []
        self.folder = f"crates/{crate}/proofs/{name}"
        self.text = open(f"{self.folder}/Proof.antt", encoding="utf-8").read()
        old = show(landed, f"{self.folder}/Proof.antt")
        module = "Rattle-" + crate + "-proofs." + name.replace("/", ".") + ".Lts"
        self.names = names.get(module)
        wants = re.findall(r"(?m)^\S+ : tie\.Need-(\S+)", self.text)
        had = re.findall(r"(?m)^\S+ : tie\.Need-(\S+)", old)
        self.old = dict(zip(wants, had)) if len(wants) == len(had) else {w: w for w in wants}
        if len(wants) != len(had):
            self.say("its answers are not those of the landed file")

    def say(self, text):
        self.said.append(f"{self.crate}/{self.name}: {text}")

    def chain(self, at):
        """The indexes of the places above a place, itself first."""
        by = {p[0]: i for i, p in enumerate(self.names["places"])}
        out = []
        i = by.get(at)
        while i is not None:
            out.append(i)
            up = self.names["places"][i][1]
            i = by.get(up) if up else None
        return out

    def goal(self, want):
        """The new name of a goal, and the index of the place where it is asked."""
        key = self.old.get(want, want)
        for a, b in OLD:
            key = re.sub(a, b, key)
        for k, (old, new) in enumerate(self.names["needs"]):
            if dash(old) == dash(key):
                at = self.names["asked_at"][k][0] if k < len(self.names["asked_at"]) else None
                return new, at
        return None, None

    def step(self, at, segments):
        """The new path of an old one below c, as segments."""
        segs = list(segments)
        while segs and segs[0] == "before":
            segs.pop(0)
        if not segs:
            return ["c"]
        head, rest = segs[0], segs[1:]
        if head == "args" and rest:
            rest = [rest[0].replace("-", "_"), *rest[1:]]
        if head in ("args", "requires", "ranges", "utf8", "type_inv", "conjured"):
            return ["c", head, *rest]
        if dash(head) == "well-formed":
            return ["c", "well_formed", *rest]
        found = self.step_named(at, head, rest)
        if found:
            return found
        for was in WAS.get(head, []):
            if dash(was) != dash(head):
                found = self.step_named(at, was, rest)
                if found:
                    return found
        self.say(f"no step {head} above {at}")
        return ["c", head, *rest]

    def step_named(self, at, head, rest):
        chain = self.chain(at)
        for i in chain:
            arm = self.names["arms"][i] if i < len(self.names["arms"]) else None
            if arm:
                for new, label, path in sorted(arm[2], key=lambda f: -len(f[2])):
                    if dash(label) == dash(head) and rest[: len(path)] == path and path:
                        return ["c", arm[0], new, *rest[len(path):]]
        for i in chain:
            place = self.names["places"][i]
            if dash(place[2][0]) == dash(head):
                fields = dict(place[4])
                live = next((vs for (a, b), vs in self.names["loops"] if b == place[2][1]), [])
                if rest and rest[0].replace("-", "_") in live:
                    rest = [rest[0].replace("-", "_"), *rest[1:]]
                if rest and rest[0] in fields:
                    rest = [fields[rest[0]], *rest[1:]]
                told = self.names["clauses"][i] if i < len(self.names["clauses"]) else None
                if told and len(told["fields"]) > 1 and len(rest) > 1 and rest[0] == "ensures" and rest[1].isdigit():
                    k = int(rest[1])
                    if k < len(told["fields"]):
                        rest = ["ensures", told["fields"][k], *rest[2:]]
                return ["c", place[2][1], *rest]
        return None

    def typed(self, at, label):
        for i in self.chain(at)[:1]:
            for var, lab in self.names["typed"][i]:
                if dash(lab) == dash(label):
                    return var
        return None

    def body(self, text, at):
        """The text of an answer with the new paths."""
        alias = {}

        def known(m):
            root, path, arg = m[1], m[2], m[3]
            label = path.split(".")[-1] if path else ""
            var = self.typed(at, label)
            if not var:
                return m[0]
            return f"(c.type_inv.{var} {arg}).fits"

        text = re.sub(r"\(([A-Za-z_]\w*)((?:\.[^\s(){},;.]+)*)\.given ((?:[^\s()]+|\((?:[^()]|\([^()]*\))*\)))\)\.fits", known, text)
        out, pos = [], 0
        let = re.compile(r"let (\S+) = (c|[A-Za-z_]\w*)((?:\.[^\s(){},;.]+)*) in\s*")
        while pos < len(text):
            m = let.match(text, pos)
            if m and (m[2] == "c" or m[2] in alias):
                segs = [s for s in m[3].split(".") if s]
                if m[2] != "c":
                    kind, base = alias[m[2]]
                    if kind == "step":
                        m = None
                    else:
                        segs = base + segs
                if m:
                    if all(s == "before" for s in segs):
                        alias[m[1]] = ("place", segs)
                        pos = m.end()
                        continue
                    new = self.step(at, segs)
                    out.append(f"let {m[1]} = {'.'.join(new)} in" + text[m.start() + len(m[0].rstrip()): m.end()])
                    alias[m[1]] = ("step", segs)
                    pos = m.end()
                    continue
            m = PATH.match(text, pos)
            if m and (pos == 0 or not re.match(r"[\w.'-]", text[pos - 1])):
                root = m[1]
                segs = [s for s in m[2].split(".") if s]
                if root == "c" or (root in alias and alias[root][0] == "place"):
                    base = [] if root == "c" else alias[root][1]
                    out.append(".".join(self.step(at, base + segs)))
                    pos = m.end()
                    continue
                if root in alias and segs:
                    base = alias[root][1]
                    quiet = len(self.said)
                    short, full = self.step(at, base), self.step(at, base + segs)
                    del self.said[quiet:]
                    out.append(".".join([root, *full[len(short):]]) if full[: len(short)] == short else ".".join(full))
                    pos = m.end()
                    continue
                if m.end() > pos:
                    out.append(m[0])
                    pos = m.end()
                    continue
            out.append(text[pos])
            pos += 1
        return "".join(out)

    def loops(self):
        return {dash(a): (b, vs) for (a, b), vs in self.names["loops"]}

    def over(self, text, kind):
        """An invariant or a measure, as a function of l."""
        m = re.search(rf"(?m)^{kind}-(\S+) (.*?)=(?=\s)(.*)\Z", text, re.S)
        loop, params, body = m[1], m[2].split(), m[3]
        found = self.loops().get(dash(loop))
        if not found:
            self.say(f"no loop {loop}")
            return None
        new, live = found
        for p in sorted(set(params), key=len, reverse=True):
            if p == "_":
                continue
            plain = p.rstrip("₀")
            if plain not in live:
                self.say(f"{kind}-{loop}: {p} is none of {' '.join(live)}")
            to = f"l.{plain}" if plain == p else f"l.initial.{plain}"
            body = re.sub(rf"(?<![\w.'₀-₉-]){re.escape(p)}(?![\w'₀-₉-])", to, body)
        body = re.sub(r"\((l\.\S+) :", r"(\1 :", body)
        return f"abbrev pub {kind}-{new} : goal.{kind}-{new}\n{kind}-{new} l ={body.rstrip()}"

    def turn(self):
        if not self.names:
            self.say("no names")
            return None
        blocks = re.split(r"\n\n+", self.text.strip("\n"))
        head = blocks[0]
        comment = "\n".join(l for l in head.split("\n") if l.startswith("--"))
        uses = [l for l in head.split("\n") if l.startswith("use ") and not re.search(r"\.(Statement|Tie)( |\.)", l)]
        inv, ans = [], []
        # a block goes on as long as its lines do not begin a declaration of their own
        merged = []
        for b in blocks[1:]:
            first = b.split("\n")[0]
            if merged and first.startswith(" "):
                merged[-1] += "\n\n" + b
            else:
                merged.append(b)
        for b in merged:
            m = re.search(r"(?m)^(?:abbrev )?(?:pub )?(invariant|decreases|Inv|μ)-\S+ : tie\.", b)
            if m:
                t = self.over(b, m[1])
                notes = [l for l in b.split("\n") if l.startswith("--")]
                if t:
                    inv.append("\n".join(notes + [t]))
                continue
            if re.search(r"(?m)^pub \S+[-_]spec : ", b):
                continue
            m = re.search(r"(?m)^(\S+) : tie\.Need-(\S+)(.*)$", b)
            if m:
                name, want = m[1], m[2]
                lines = b.split("\n")
                notes = [l for l in lines if l.startswith("--")]
                unfolding = [l for l in lines if l.startswith("unfolding ")]
                body = b[b.index(m[0]) + len(m[0]):]
                body = "\n".join(l for l in body.split("\n") if not l.startswith("unfolding ")).lstrip("\n")
                q = re.match(rf"{re.escape(name)}((?: [^=\s]+)*) =(?=\s)", body)
                if not q:
                    self.say(f"{want}: its clause is not read")
                    continue
                rest = body[q.end():]
                if re.sub(r"\s", "", rest) in ("searchrules",) and not unfolding:
                    continue
                new, at = self.goal(want)
                if not new:
                    self.say(f"dropped {want}")
                    continue
                args = [a for a in q[1].split() if a != "κs"]
                if args and args[0] != "c":
                    self.say(f"{want}: its first argument is {args[0]}")
                text = self.body(rest, at)
                if re.fullmatch(r"\s*omega \(arith, c\.(shared_)?slice_known\S*\.given (\([^()]*\)|\S+)\)\s*", text):
                    continue
                ans.append("\n".join(notes + [f"pub {new} : goal.{new}", *unfolding, f"{new} {' '.join(args)} ={text.rstrip()}"]))
            else:
                ans.append(b)
        path = "Rattle." + self.crate + ".proofs." + self.name.replace("/", ".")

        def imports(blocks):
            said = "\n".join(blocks)
            out = []
            for u in uses:
                m = re.match(r"use (.*)\.\{(.*)\}$", u)
                if not m:
                    out.append(u)
                    continue
                kept = [n for n in m[2].split(", ") if all(re.search(r"(?<![\w'-])" + re.escape(p) + r"(?![\w'-])" if re.match(r"\w", p) else re.escape(p), said) for p in [x for x in n.split(" as ")[-1].strip().split("◌") if x])]
                if kept:
                    out.append(f"use {m[1]}.{{{', '.join(kept)}}}")
            return out

        files = {}
        if inv:
            files["Invariants.antt"] = "\n".join([comment, *imports(inv), f"use {path}.Given as goal"]) + "\n\n" + "\n\n".join(inv) + "\n"
        if any("goal." in a for a in ans):
            files["Answers.antt"] = "\n".join([comment, *imports(ans), f"use {path}.Goals as goal"]) + "\n\n" + "\n\n".join(ans) + "\n"
        return files


def main(argv):
    crate, names, landed = argv[:3]
    names = json.load(open(names))
    only = argv[3:]
    root = f"crates/{crate}/proofs"
    for folder, dirs, files in sorted(os.walk(root)):
        if "Proof.antt" not in files:
            continue
        name = os.path.relpath(folder, root)
        if name.startswith("+") or "/+" in name:
            print(f"{crate}/{name}: a cycle, by hand")
            continue
        if only and name not in only:
            continue
        f = Function(crate, name, names, landed)
        try:
            made = f.turn()
        except Exception as e:
            f.say(f"failed: {e!r}")
            made = None
        if made is not None:
            os.remove(f"{folder}/Proof.antt")
            for n, t in made.items():
                with open(f"{folder}/{n}", "w", encoding="utf-8") as out:
                    out.write(t)
        print("\n".join(f.said), end="\n" if f.said else "")


main(sys.argv[1:])
