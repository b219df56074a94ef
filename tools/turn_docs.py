#!/usr/bin/env python3
"""Brings names in `code` in the documents to the spelling of the definitions: those that scripts/names misses and tools/spelling.json has.

usage: tools/turn_docs.py     at the top; prints what it turned, and which missing names it could not
"""
import json
import re
import subprocess
import sys
import tempfile

with open("tools/spelling.json", encoding="utf-8") as file:
    SPELLING = json.load(file)


def missed(*documents):
    """the documents with the names in them that are not there"""
    said = subprocess.run(["scripts/names", *documents], stdout=subprocess.PIPE, text=True).stdout
    return re.findall(r"(?m)^(\S+): `(.+)` is not there$", said)


def snake(name):
    return re.sub(r"(?<=[a-z0-9])([A-Z])", lambda m: "_" + m[1].lower(), name).replace("-", "_")


def candidates(name):
    """how a name may be spelled now: by the map, and names that were turned before there was one by its rules"""
    of, dot, last = name.rpartition(".")
    mapped = ".".join(SPELLING.get(part, part) for part in name.split("."))
    found = [mapped, of + dot + snake(last), f"{of}{dot}{snake(last)}_lem", f"{of}{dot}{snake(last)}_holds"]
    found += [".".join(SPELLING.get(part, part) for part in of.split(".")) + dot + snake(last)] if of else []
    return [it for it in dict.fromkeys(found) if it != name]


def main():
    missing, left, found = {}, [], missed()
    tried = {it for _, name in found for it in candidates(name)}
    with tempfile.NamedTemporaryFile("w", suffix=".md") as page:
        page.write("\n".join(f"`{it}`" for it in sorted(tried)))
        page.flush()
        there = tried - {name for _, name in missed(page.name)}
    turned = {name: next((it for it in candidates(name) if it in there), None) for _, name in found}
    for document, name in found:
        if turned[name]:
            missing.setdefault(document, set()).add(name)
        else:
            left.append(f"{document}: `{name}`")
    count = 0
    for document, names in missing.items():
        with open(document, encoding="utf-8") as file:
            parts = re.split(r"(?s)(```.*?```)", file.read())
        for at in range(0, len(parts), 2):
            for name in names:
                count += parts[at].count(f"`{name}`")
                parts[at] = parts[at].replace(f"`{name}`", f"`{turned[name]}`")
        with open(document, "w", encoding="utf-8") as file:
            file.write("".join(parts))
    print("\n".join([f"not turned: {it}" for it in left] + [f"{count} names turned, {len(left)} left"]))
    return 0


if __name__ == "__main__":
    sys.exit(main())
