#!/usr/bin/env python3
"""Brings this repository's own definitions and lemmas to today's spelling: words in snake case.

usage: python3 tools/respell.py      at the top, once, right after port.py

A name in camel case (`floorDiv`) becomes snake case (`floor_div`). A dash stays only where it joins two names, as in
`length-put`; elsewhere it becomes `_`. Where the new name is another name of
the proofs already, `_of` is added to a definition and `_lem` to a lemma. A definition may share the name of its function.
Types, facts (capital letter), functions of src/ and what the toolchain generates keep their names.
Every replacement is printed, and is kept in tools/respelled.tsv.
"""
import os
import re

TOKEN = re.compile(r"[^\s(){}\[\];,.λ◌`\"]+")
DECL = re.compile(
    r"^\s*(?:(?:unfoldable|abbrev|pub|record|data)\s+)*([^\s(){}\[\];,.◌λ:]+)((?:\s+(?:\([^()]*(?:\([^()]*\)[^()]*)*\)|\{[^{}]*\}))*)\s+:\s")
JOINED = set("""length take drop append set sets get_or map reverse add sub mul div mod pow abs neg floor le lt eq nil cons
min max cond not and or true false zero suc one two""".split())


def files(*ends):
    for folder, dirs, names in os.walk("crates"):
        dirs[:] = sorted(d for d in dirs if d != "out")
        for n in sorted(names):
            if n.endswith(ends):
                yield os.path.join(folder, n)


def read(path):
    with open(path, encoding="utf-8") as f:
        return f.read()


def snake(word):
    return re.sub(r"(?<=[a-z0-9₀-₉])([A-Z])", lambda m: "_" + m.group(1).lower(), word)


def declared():
    """The names that specs/ and proofs/*.antt declare: definitions, lemmas, fields. A function's own proof is left alone."""
    found = set()
    for p in files(".antt"):
        parts = p.split(os.sep)
        inner = parts[2] == "proofs" and len(parts) > 4
        for line in read(p).splitlines():
            m = DECL.match(line)
            if m and not line.lstrip().startswith("--") and not inner:
                found.add(m.group(1))
    return found


def functions():
    found = set()
    for p in files(".rt"):
        found |= set(re.findall(r"\bfn (\w+)", read(p)))
    return found


def main():
    own, fns = declared(), functions()
    used = set()
    for p in files(".antt"):
        parts = p.split(os.sep)
        if parts[2] == "specs" or len(parts) == 4:
            used |= set(TOKEN.findall(read(p)))
    for p in files(".rt"):
        used |= set(re.findall(r"\w+", read(p))) - fns
    parts_known = JOINED | fns | {snake(n) for n in own if "-" not in n} | {re.sub("_of$", "", snake(n)) for n in own if "-" not in n}
    table = {}
    for old in sorted(own, key=lambda n: ("-" in n, n)):
        if not re.match(r"[a-zA-Z]", old) or (re.match(r"[A-Z]", old) and "-" not in old):
            continue
        words = [snake(w) if re.match(r"[a-z]", w) else w for w in old.split("-")]
        new = words[0]
        for i, w in enumerate(words[1:]):
            joins = i == 0 and words[0] in parts_known and w in parts_known
            new += ("-" if joins else "_") + w
        if new == old:
            continue
        while new in used or new in table.values():
            new += "_of" if "-" not in old else "_lem"
        table[old] = new
    with open("tools/respelled.tsv", "w", encoding="utf-8") as f:
        for a, b in sorted(table.items()):
            f.write(f"{a}\t{b}\n")
    for p in files(".antt", ".rt"):
        text = read(p)
        lines = []
        for line in text.split("\n"):
            head = line.lstrip()
            if head.startswith(("-- ", "// ", "/// ", "//! ")):
                line = re.sub(r"`([^`]+)`", lambda m: "`" + table.get(m.group(1), m.group(1)) + "`", line)
            else:
                line = TOKEN.sub(lambda m: table.get(m.group(0), m.group(0)), line)
            lines.append(line)
        new = "\n".join(lines)
        if new != text:
            with open(p, "w", encoding="utf-8") as f:
                f.write(new)
    print(f"respell: {len(table)} names; tools/respelled.tsv has them")


if __name__ == "__main__":
    main()
