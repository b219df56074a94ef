#!/usr/bin/env python3
"""Writes the clauses that the check asks for in lemmas: impossible cases, which are to be shown today.

usage: tools/mend_clauses.py CRATE..     at the top; checks each crate, and mends and checks again while that helps
"""

import re
import subprocess
import sys


def check(crate):
    r = subprocess.run(["rt", "check"], cwd=f"crates/{crate}", stdout=subprocess.PIPE, stderr=subprocess.STDOUT, text=True, errors="replace")
    return r.stdout


def asked(said):
    """For each place, the clauses that are asked for there."""
    lines = said.split("\n")
    out = []
    for i, line in enumerate(lines):
        t = re.match(r"\./(\S+?Answers\.antt):(\d+):(\d+): error: `([^`]*)`: a value of `", line)
        if t and i + 1 < len(lines):
            r = re.match(r"\s+is built with `record \{ (.*) \}`, not as a tuple", lines[i + 1])
            if r:
                out.append((t[1], int(t[2]), ("record", t[4], [f.split(" = ")[0] for f in r[1].split("; ")])))
                continue
        m = re.match(r"\./(\S+?):(\d+):(\d+): error: `([^`]*)`: write the clause(s| `(.*)`)$", line)
        if not m:
            m2 = re.match(r"\./(\S+?):(\d+):(\d+): error: `([^`]*)`: declare `([^`]*)` before (?:argument \d+ \()?`([^`]*)`\)?$", line)
            if m2:
                out.append((m2[1], int(m2[2]), ("move", m2[4], m2[5], m2[6])))
            continue
        if m[6]:
            out.append((m[1], int(m[2]), ("clauses", m[4], [m[6]])))
            continue
        clauses = []
        for l in lines[i + 1:]:
            if not l.startswith("  "):
                break
            if re.match(r"  \S+ .* = elim ", l):
                clauses.append(l.strip())
        out.append((m[1], int(m[2]), ("clauses", m[4], clauses)))
    return out


def split(inside):
    """The parts of a tuple."""
    parts, deep, last = [], 0, 0
    for j, x in enumerate(inside):
        deep += (x in "([{") - (x in ")]}")
        if x == "," and not deep:
            parts.append(inside[last:j].strip())
            last = j + 1
    if inside[last:].strip():
        parts.append(inside[last:].strip())
    return parts


def as_record(p, text, line, what):
    """A tuple at a line's start becomes a record with the names of the clauses."""
    whole = "\n".join(text)
    at = sum(len(l) + 1 for l in text[: line - 1])
    end = whole.find("\n\n", at)
    end = len(whole) if end < 0 else end
    # the last parenthesis that closes at the end of the answer
    body = whole[at:end].rstrip()
    if not body.endswith(")"):
        print(f"{p}:{line}: no tuple at the end of {what[1]}")
        return 0
    deep, k = 0, len(body)
    while k > 0:
        k -= 1
        if body[k] in ")]}":
            deep += 1
        elif body[k] in "([{":
            deep -= 1
            if not deep:
                break
    names, parts = what[2], split(body[k + 1 : -1])
    while len(parts) < len(names) and parts[-1].startswith("(") and parts[-1].endswith(")") and len(split(parts[-1][1:-1])) > 1:
        parts[-1:] = split(parts[-1][1:-1])
    if len(parts) < len(names):
        print(f"{p}:{line}: {len(parts)} parts for {' '.join(names)}")
        return 0
    if len(parts) > len(names):
        parts = parts[: len(names) - 1] + ["(" + ", ".join(parts[len(names) - 1 :]) + ")"]
    new = "record { " + "; ".join(f"{n} = {v}" for n, v in zip(names, parts)) + " }"
    text[:] = (whole[: at + k] + new + whole[at + len(body) :]).split("\n")
    return 1


def mend(crate, said):
    by = {}
    for path, line, what in asked(said):
        by.setdefault(path, []).append((line, what))
    done = 0
    for path, places in by.items():
        p = f"crates/{crate}/{path}"
        text = open(p, encoding="utf-8").read().split("\n")
        for line, what in sorted(places, key=lambda x: -x[0]):
            if what[0] == "record":
                done += as_record(p, text, line, what)
            elif what[0] == "clauses":
                indent = re.match(r"\s*", text[line - 1])[0]
                word = what[2][0].split()[0] if what[2] else what[1]
                if not text[line - 1].strip().startswith(word + " "):
                    # the name may be an operator's: look above for the first clause
                    print(f"{p}:{line}: not at a clause of {what[1]}")
                    continue
                text[line - 1: line - 1] = [indent + c for c in what[2]]
                done += 1
            else:
                name, first, second = what[1:]
                k = line - 1
                while k >= 0 and not re.match(r"\s*(pub )?\S+ : .*\{[^{}:]*(?<!\S)?" + re.escape(second), text[k]):
                    k -= 1
                if k < 0:
                    print(f"{p}:{line}: no signature of {name}")
                    continue
                sig = text[k]
                both = re.search(r"\{([^{}:]*) : ", sig)
                if both and first in both[1].split() and second in both[1].split():
                    words = both[1].split()
                    words.remove(second)
                    words.insert(words.index(first) + 1, second)
                    text[k] = sig[: both.start(1)] + " ".join(words) + sig[both.end(1):]
                    done += 1
                    continue
                b = re.search(r"\{" + re.escape(second) + r" : ([^{}]*)\} ?", sig)
                if not b:
                    print(f"{p}:{line}: move {first} before {second} by hand")
                    continue
                rest = sig[: b.start()] + sig[b.end():]
                g = re.search(r"[({](?:[^(){}:]* )?" + re.escape(first) + r"(?: [^(){}:]*)? : [^(){}]*[)}]", rest)
                if not g:
                    print(f"{p}:{line}: move {first} before {second} by hand")
                    continue
                text[k] = rest[: g.end()] + " {" + second + " : " + b[1] + "}" + rest[g.end():]
                done += 1
        with open(p, "w", encoding="utf-8") as f:
            f.write("\n".join(text))
    return done


for crate in sys.argv[1:]:
    said = check(crate)
    for _ in range(6):
        if not mend(crate, said):
            break
        said = check(crate)
    errors = len(re.findall(r": error", said))
    proved, left = (len(re.findall(rf"(?m)^fn .*: {word}", said)) for word in ("proved", "no"))
    print(f"{crate}: {proved} proved, {left} not, {errors} errors, {re.findall(r'(?m)^logic=[a-z-]*', said)}", flush=True)
