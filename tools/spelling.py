#!/usr/bin/env python3
"""Brings the names of the repository's definitions and lemmas to the library's spelling: words in snake case, types in camel case.

usage: tools/spelling.py KIT [--write]     at the top; KIT is the folder of the toolchain's library

A name that the library has too stays. A dash stays in a lemma's name after the word, the type or the sign that the lemma is about. Functions of
src/, strings, inputs and outputs keep their names. Without --write it prints what it would do, and which names would fall together in a file.
"""

import collections
import json
import os
import re
import sys

TOKEN = re.compile(r"[^\s(){},;.\"`λ:]+")
CAMEL = re.compile(r"^[a-z][a-z0-9]*(?:[A-Z][a-z0-9]*)+[0-9₀-₉']*$")
HEAD = re.compile(r"^\s*(?:(?:abbrev|unfoldable|opaque|private|pub|data|record|instance|macro|syntax)\s+)*([^\s(){},;.\":]+)\s")


def files(root, ends):
    for folder, dirs, names in os.walk(root):
        dirs[:] = sorted(d for d in dirs if d not in ("out", ".git"))
        for n in sorted(names):
            if n.endswith(ends):
                yield os.path.join(folder, n)


def read(p):
    with open(p, encoding="utf-8") as f:
        return f.read()


def code(text, mark="--"):
    """The text without its comments."""
    return "\n".join(l.split(mark)[0] if l.lstrip().startswith(mark) or " " + mark in l else l for l in text.split("\n"))


def snake(part):
    return re.sub(r"(?<=[a-z0-9])([A-Z])", lambda m: "_" + m[1].lower(), part)


def main(argv):
    kit, write = argv[0], "--write" in argv
    theirs = set()
    for p in files(kit, ".antt"):
        theirs.update(TOKEN.findall(code(read(p))))
    antt = [p for p in files("crates", ".antt")]
    universe = collections.Counter()
    stated, fields, kinds, words = set(), set(), set(), set()
    for p in antt:
        text = code(read(p))
        universe.update(TOKEN.findall(text))
        for line in text.split("\n"):
            h = HEAD.match(line)
            if not h or h[1] in ("use", "mod", "module", "where", "let", "in", "unfolding"):
                continue
            name = h[1]
            if ": tie." in line:
                continue
            stated.add(name)
            if re.match(r"^\s*(pub\s+)?(data|record)\s", line) or re.match(r"^\s*(abbrev|unfoldable)\s+(pub\s+)?[A-Z]", line):
                kinds.add(name)
            elif "/specs/" in p:
                fields.add(name)
                if re.match(r"^(abbrev |unfoldable )?(pub )?(abbrev |unfoldable )?\S+ : .*→", line):
                    words.add(name)
        for m in re.finditer(r"(?m)^\s+pub (\S+) :", text):
            fields.add(m[1])
        for m in re.finditer(r"(?ms)^(?:pub )?data .*?(?=^\S|\Z)", text):
            for l in m[0].split("\n")[1:]:
                c = re.match(r"^\s+(\S+) :", l)
                if c:
                    fields.add(c[1])
    words |= {"length", "get_or", "take", "drop", "map", "set", "append", "lane"}
    turned = {}
    for t in sorted(universe):
        if t in theirs or t.startswith(("Need-", "InvT-", "MeasureT-")) or not re.search(r"[a-zA-Z]", t):
            continue
        if CAMEL.match(t):
            turned[t] = snake(t)
            continue
        if "-" not in t.strip("-") or t not in stated:
            continue
        parts = t.split("-")
        if "" in parts:
            continue
        if t in kinds:
            new = "".join(x[0].upper() + x[1:] for x in parts)
        else:
            low = [snake(x) if re.match(r"[a-z]", x) else x for x in parts]
            new = low[0]
            for k, x in enumerate(low[1:], 1):
                sign = not re.match(r"^[a-z0-9_]+[?'₀-₉]*$", x) or not re.match(r"^[a-z0-9_]+[?'₀-₉]*$", low[k - 1])
                first = k == 1 and parts[0] in words and t not in fields
                new += ("-" if sign or first else "_") + x
        if new != t:
            turned[t] = new
    # a name with a dash that would fall together with a definition's
    for t in sorted(turned):
        new = turned[t]
        if "-" in t and not t.endswith("-spec") and t not in kinds:
            others = {u for u in stated if u != t and turned.get(u, u) == new}
            if any("-" not in u for u in others):
                turned[t] = new + ("_holds" if t in fields else "_lem")
    # the same, by hand: lemmas that the first script had turned, and fields beside a parameter
    turned |= {u: u + "_lem" for u in ("answer_word", "operand_in", "none_left", "first_part")}
    turned |= {"reference-left": "reference_left_holds", "stage-left": "stage_left_holds", "next-stage": "next_stage_lem"}
    bad = 0
    for p in antt + list(files("crates", ".rt")):
        text = read(p)
        here = set(TOKEN.findall(code(text) if p.endswith(".antt") else "\n".join(l.split("//")[0] for l in text.split("\n"))))
        came = collections.defaultdict(set)
        for t in here:
            came[turned.get(t, t)].add(t)
        for new, olds in came.items():
            if len(olds) > 1 and p.endswith(".antt"):
                bad += 1
                print(f"{p}: {' '.join(sorted(olds))} would all be {new}")
    names = {}
    for p in antt:
        mod = p
        for line in code(read(p)).split("\n"):
            h = HEAD.match(line)
            if h and h[1] in turned:
                names.setdefault((mod, turned[h[1]]), set()).add(h[1])
    with open("tools/spelling.json", "w", encoding="utf-8") as f:
        json.dump(turned, f, ensure_ascii=False, indent=0)
    print(len(turned), "names;", bad, "places where names fall together")
    if not write:
        return 0

    def turn(text, comment):
        out = []
        for line in text.split("\n"):
            cut = line.find(comment) if line.lstrip().startswith(comment) or " " + comment + " " in line else -1
            body, rest = (line, "") if cut < 0 else (line[:cut], line[cut:])
            pieces = re.split(r'("(?:[^"\\]|\\.)*")', body)
            body = "".join(x if i % 2 else TOKEN.sub(lambda m: turned.get(m[0], m[0]), x) for i, x in enumerate(pieces))
            rest = re.sub(r"`[^`]*`", lambda m: TOKEN.sub(lambda n: turned.get(n[0], n[0]), m[0]), rest)
            out.append(body + rest)
        return "\n".join(out)

    for p in antt + list(files("crates", ".rt")):
        old = read(p)
        new = turn(old, "--" if p.endswith(".antt") else "//")
        if new != old:
            with open(p, "w", encoding="utf-8") as f:
                f.write(new)
    return 0


if __name__ == "__main__":
    raise SystemExit(main(sys.argv[1:]))
