#!/usr/bin/env python3
"""tools/join.py FILE NAME VAR..: in an answers file, turns the first `⊎_elim (λ w. A) (λ w. B) c.if-NAME.branch` into an `elim`, with w.1, w.2, .. the variables VAR.."""
import re
import sys

path, name, names = sys.argv[1], sys.argv[2], sys.argv[3:]
s = open(path, encoding="utf-8").read()


def closing(t, i):
    deep = 0
    for k in range(i, len(t)):
        deep += (t[k] in "([{") - (t[k] in ")]}")
        if not deep:
            return k
    raise SystemExit("no end")


end = re.search(r"c\.if-" + re.escape(name) + r"\.branch", s)
i = s.rfind("⊎_elim", 0, end.start())
a = s.index("(", i)
b = closing(s, a)
c = s.index("(", b)
d = closing(s, c)
assert not s[d + 1 : end.start()].strip(), s[d + 1 : end.start()]


def turn(arm):
    m = re.match(r"\(λ (\S+)\. (.*)\)\Z", arm, re.S)
    w, body = m[1], m[2]
    body = re.sub(rf"\b{w}\.0\.(taken|true)", f"{w}.if-{name}.true", body)
    body = re.sub(rf"\b{w}\.0\.(left|false)", f"{w}.if-{name}.false", body)
    for k, v in enumerate(names, 1):
        body = re.sub(rf"\b{w}\.{k}(?!\d)", f"{w}.{v}-is", body)
    return f"{w} ↦ {body}"


new = f"elim c.if-{name}.branch [\n      then-{name} {turn(s[a : b + 1])}\n    | else-{name} {turn(s[c : d + 1])}\n    ]"
s = s[:i] + new + s[end.end() :]
g = re.search(r"(?m)^use (Rattle\.\S+\.Goals) as goal$", s)
if f"{g[1]}.{{" not in s:
    s = s.replace(g[0], f"{g[0]}\nuse {g[1]}.{{then-{name}, else-{name}}}")
else:
    s = re.sub(re.escape(g[1]) + r"\.\{([^}]*)\}", lambda m: f"{g[1]}.{{{m[1]}, then-{name}, else-{name}}}", s)
open(path, "w", encoding="utf-8").write(s)
