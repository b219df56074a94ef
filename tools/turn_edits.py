#!/usr/bin/env python3
"""Brings the must-fail edits to today's spelling, as port.py and tools/spelling.py brought the files that they change.

usage: tools/turn_edits.py FROM [--write]     at the top; FROM is the commit whose files the edits were written for
       tools/turn_edits.py --check            whether each edit can be applied and has no old spelling

Each 'old:' text is looked for in the file as it stood at FROM, and turned; where the turned text stands once in today's file, the pair is
turned. Where it is too short to stand alone, its whole line is taken. What is left is printed: it is for the hand.
"""

import collections
import glob
import json
import os
import re
import subprocess
import sys

SPELLING = "tools/spelling.json"
# What the scripts of the port turned besides the repository's own names.
LIBRARY = {
    "_≡_": "◌≡◌", "_+_": "◌+◌", "_*_": "◌*◌", "_-_": "◌-◌", "_++_": "◌++◌", "_∷_": "◌∷◌", "_<_": "◌<◌", "_≤_": "◌≤◌", "_||_": "◌||◌", "_&&_": "◌&&◌",
    "_⊎_": "◌⊎◌", "_↔_": "◌↔◌", "getD": "get_or", "flatMap": "flat_map", "the-variants": "TheVariants", "the-constants": "TheConstants",
}
TOKEN = re.compile(r'"(?:[^"\\]|\\.)*"|[^\s(){}\[\],;."`:]+|\s+|.')
# What ends an application: what stands before it is no argument of a projection behind it.
ENDS = {"→", "×", "≡", "=", ":", ",", ";", "+", "*", "-", "/", "%", "^", "≤", "<", "∷", "++", "||", "&&", "⊎", "↔", "↦", "∨", "∧", "⌜", "⌝", "in", "let", "|", "pub", "λ"}


def read(p):
    with open(p, encoding="utf-8") as f:
        return f.read()


def landed(commit, p):
    r = subprocess.run(["git", "show", f"{commit}:{p}"], capture_output=True, text=True)
    return r.stdout if r.returncode == 0 else None


class Names:
    def __init__(self):
        with open(SPELLING, encoding="utf-8") as f:
            self.own = json.load(f)

    def turn(self, word, here=frozenset()):
        """The word today; `here` are the words of today's file: a word that the port's scripts turned as they turn the library's stands there."""
        new = self.own.get(word) or LIBRARY.get(word)
        if new:
            return new
        low = re.sub(r"(?<=[a-z0-9])([A-Z])", lambda m: "_" + m[1].lower(), word).replace("′", "'")
        return low if low != word and (low in here or "′" in word) and re.match(r"[a-z]", word) else word


def words_of(text):
    return [t for t in TOKEN.findall(text)]


def projections(text):
    """`(x .field)` as `x.field`, `f x .field` as `(f x).field`: a projection is of the whole application before it."""
    tokens = words_of(text)
    out, _ = sequence(tokens, 0, None)
    return out


def sequence(tokens, i, close):
    """The text up to a closing bracket, and where it ends. `spine` is the application that is being read: its atoms with the spaces before them."""
    done, spine = "", []

    def flush():
        nonlocal done, spine
        done += "".join(space + atom for space, atom in spine)
        spine = []

    space = ""
    while i < len(tokens):
        t = tokens[i]
        if t.isspace():
            space += t
            i += 1
            continue
        if t == close:
            break
        if t in "([{":
            end = {"(": ")", "[": "]", "{": "}"}[t]
            inside, i = sequence(tokens, i + 1, end)
            closed = i < len(tokens)
            i += 1
            atom = t + inside + (end if closed else "")
            if t == "(" and closed and re.fullmatch(r"(?:[^\s(){}\[\].,;:]+|\([^()]*(?:\([^()]*\)[^()]*)*\))(?:\.[\w'₀-₉]+)+", inside):
                atom = inside  # a projection alone needs no brackets
            spine.append((space, atom))
            space = ""
            continue
        after = tokens[i + 1] if i + 1 < len(tokens) else ""
        if t == "." and space and re.match(r"[\w]", after) and spine:
            whole = "".join((s if n else "") + a for n, (s, a) in enumerate(spine))
            lead = spine[0][0]
            if len(spine) > 1:
                whole = f"({whole})"
            spine = [(lead, f"{whole}.{after}")]
            space = ""
            i += 2
            continue
        if t == "." and not space and spine and re.match(r"[\w'₀-₉]", after or " "):  # a path, or a projection that is tight already
            s, a = spine[-1]
            spine[-1] = (s, a + "." + after)
            i += 2
            continue
        if t in ENDS or t in ".),;:]}":
            flush()
            done += space + t
            space = ""
            i += 1
            continue
        spine.append((space, t))
        space = ""
        i += 1
    flush()
    return done + space, i


def turned_antt(text, names, here):
    text = "".join(names.turn(t, here) for t in words_of(text))
    text = re.sub(r"Rattle·(\w+)·specs\.specs\.", r"Rattle.\1.specs.", text)
    text = re.sub(r"Rattle·(\w+)\.", r"Rattle.\1.", text)
    return projections(text)


def flat(text):
    return re.sub(r"\s+", " ", text).strip()


def line_of(text, at):
    start = text.rfind("\n", 0, at) + 1
    end = text.find("\n", at)
    return start, len(text) if end < 0 else end


class Pair:
    def __init__(self, path, old, new):
        self.path, self.old, self.new = path, old, new


def parse(text):
    """The lines of an edit: what is no pair as it stands, and the pairs."""
    items, path, old = [], None, None
    for line in text.split("\n"):
        if line.startswith("old: "):
            old = line[5:]
        elif line.startswith("new:"):
            items.append(Pair(path, old, line[4:].removeprefix(" ")))
            old = None
        else:
            if line.startswith("file: "):
                path = line[6:].strip()
            items.append(line)
    return items


def written(items):
    return "\n".join(f"old: {i.old}\nnew: {i.new}" if isinstance(i, Pair) else i for i in items)


def same_line(was, line, now):
    """Where today's file has the line, whatever its margin: the lines that read so."""
    return [l for l in now.split("\n") if flat(l) == flat(line)]


def turn_pair(pair, was, now, names):
    """The pair in today's spelling, or why it could not be turned."""
    if was.count(pair.old) != 1:
        return None, f"the old text stands {was.count(pair.old)} times in the landed file"
    here = set(words_of(now))
    turn = (lambda t: turned_antt(t, names, here)) if pair.path.endswith(".antt") else (lambda t: t)
    old, new = turn(pair.old), turn(pair.new)
    if now.count(old) == 1 and old != new:
        # the same line?
        start, end = line_of(was, was.index(pair.old))
        s, e = line_of(now, now.index(old))
        if flat(turn(was[start:end])) == flat(now[s:e]):
            return Pair(pair.path, old, new), None
        if flat(was[start:end]).split(" ")[:1] == flat(now[s:e]).split(" ")[:1] and pair.path.endswith(".rt"):
            return Pair(pair.path, old, new), None
    start, end = line_of(was, was.index(pair.old))
    whole = was[start:end]
    changed = whole.replace(pair.old, pair.new)
    lines = same_line(whole, turn(whole), now)
    if len(lines) == 1:
        margin = re.match(r"\s*", lines[0])[0]
        text = margin + turn(changed).strip()
        if now.count(lines[0]) == 1 and lines[0] != text:
            return Pair(pair.path, lines[0], text), None
    return None, f"its line is not in today's file {'twice' if len(lines) > 1 else ''}\n      was: {whole}\n      turned: {turn(whole)}"


def turn_file(f, commit, names, say):
    crate = f"{os.path.dirname(os.path.dirname(f))}"
    items, well = parse(landed(commit, f) or read(f)), True
    was, now, out = {}, {}, []
    for it in items:
        if not isinstance(it, Pair):
            out.append(it)
            continue
        if it.path not in was:
            was[it.path] = landed(commit, f"{crate}/{it.path}")
            now[it.path] = read(f"{crate}/{it.path}")
        got, why = turn_pair(it, was[it.path], now[it.path], names)
        if was[it.path].count(it.old) == 1:
            was[it.path] = was[it.path].replace(it.old, it.new)
        if got is None:
            say(f"{f}: {why}\n      old: {it.old}\n      new: {it.new}")
            well = False
            out.append(it)
            continue
        now[it.path] = now[it.path].replace(got.old, got.new)
        out.append(got)
    return out, well


def check():
    names, bad, pairs = Names(), 0, 0
    old_names = (set(names.own) - set(names.own.values())) | set(LIBRARY)
    for f in sorted(glob.glob("crates/*/must-fail/*.edit")):
        crate, now = os.path.dirname(os.path.dirname(f)), {}
        for it in parse(read(f)):
            if not isinstance(it, Pair):
                continue
            pairs += 1
            if it.path not in now:
                now[it.path] = read(f"{crate}/{it.path}")
            n = now[it.path].count(it.old)
            if n != 1:
                print(f"{f}: stands {n} times: {it.old}")
                bad += 1
            if it.old == it.new:
                print(f"{f}: changes nothing: {it.old}")
                bad += 1
            now[it.path] = now[it.path].replace(it.old, it.new)
            spelled = [w for w in words_of(it.new) if w in old_names]
            spelled += re.findall(r"⌜|⌝|\bnow \(|\(now |\.exit\b|Rattle·|\w \.\w", it.new)
            if spelled:
                print(f"{f}: older spelling {' '.join(spelled)}: {it.new}")
                bad += 1
    print(f"{pairs} pairs, {bad} wrong")
    return 1 if bad else 0


def main(argv):
    if argv[:1] == ["--check"]:
        return check()
    names, count = Names(), collections.Counter()
    for f in sorted(glob.glob("crates/*/must-fail/*.edit")):
        out, well = turn_file(f, argv[0], names, print)
        text = written(out)
        kind = "left" if not well else "same" if text == read(f) else "turned"
        count[kind] += 1
        if "--write" in argv and well and kind == "turned":
            with open(f, "w", encoding="utf-8") as it:
                it.write(text)
    print(dict(count))
    return 0


if __name__ == "__main__":
    raise SystemExit(main(sys.argv[1:]))
