#!/usr/bin/env python3
"""Brings the repository's own definitions and lemmas to the spelling of today's Rattle: words in snake case, types and
modules in camel case. Run once, after port.py, at the top: python3 tools/respell.py [--list | --dry] [FOLDER].

What is renamed stands in tools/respelt.txt, old name and new name a line. That list was read off the files of specs/
and proofs/ as they stood after port.py: each name that is declared there, fields, constructors, parameters and local
names too. Names of Rattle's library and names that come from src/ (functions, fields, parameters) keep their spelling.
"""

import glob
import os
import re
import sys

TOKEN = re.compile(r"[^\s(){},;.:@`\"⟨⟩\[\]]+")
OPERATOR = re.compile(r"[^\w'+-]|^[-+]$|◌")


def snake(word):
    """camelCase to snake_case; a capital that begins a name is a type's and stays."""
    if not re.match(r"^[a-z]", word) or not re.search(r"[A-Z]", word):
        return word
    word = re.sub(r"([a-z0-9])([A-Z])", lambda m: m.group(1) + "_" + m.group(2), word)
    word = re.sub(r"([A-Z])([A-Z][a-z])", lambda m: m.group(1) + "_" + m.group(2), word)
    return word.lower()


def respelt(name):
    """The new spelling of a name of the repository's own."""
    if "◌" in name:
        return name
    parts = name.split("-")
    out = ""
    for i, part in enumerate(parts):
        # a dash joins two names where one is a type or an operator; a plain word is added with an underscore
        joined = i > 0 and (re.match(r"^[A-Z≤<≈]", part))
        out += ("-" if joined else "_" if i else "") + snake(part)
    return out


def files(root):
    for pattern in ("crates/*/specs/**/*.antt", "crates/*/proofs/**/*.antt"):
        yield from sorted(glob.glob(os.path.join(root, pattern), recursive=True))


DECLARED = re.compile(r"^\s*(?:(?:pub|unfoldable|abbrev|ghost)\s+)*([^\s:(){},]+(?:\s+[^\s:(){},]+)*)\s+:\s")
BINDER = re.compile(r"[({]([^(){}:]+?)\s+:\s")
LET = re.compile(r"\blet\s+([^\s:=(){}]+)\s*[=:]")


def own(root):
    names = set()
    for path in files(root):
        for line in open(path, encoding="utf-8"):
            if line.lstrip().startswith("--"):
                continue
            m = DECLARED.match(line)
            if m:
                words = m.group(1).split()
                if not words[0] in ("record", "data", "module", "infix", "infixl", "infixr", "use", "let", "in", "rw"):
                    names.update(words)
            m = re.match(r"^\s*(?:pub\s+)?(?:module|record|data)\s+([^\s:(){}]+)", line)
            if m:
                names.add(m.group(1))
            for m in BINDER.finditer(line):
                names.update(m.group(1).split())
            for m in LET.finditer(line):
                names.add(m.group(1))
            m = re.search(r" as ([^\s,;}]+)", line)
            for m in re.finditer(r" as ([^\s,;}]+)", line):
                names.add(m.group(1))
    return names


def plan(root):
    names = own(root)
    table = {n: respelt(n) for n in names if re.match(r"^[^\W\d_]|^[≤<≈]", n)}
    table = {n: m for n, m in table.items() if n != m}
    # where a lemma falls together with a definition, the lemma is told apart by its ending
    taken = {m for n, m in table.items() if "-" not in n} | names
    table = {n: m + "_lem" if "-" in n and m in taken else m for n, m in table.items()}
    # the lemma on the constructor atEvery
    table["at_every"] = "at_every_lem"
    return table


def parts(line, mark):
    """The code and the comment of a line."""
    at = line.find(mark)
    while at > 0 and line[at - 1] != " ":
        at = line.find(mark, at + 1)
    return (line, "") if at < 0 else (line[:at], line[at:])


def respell(text, table, mark, dashes=True):
    def word(m):
        return table.get(m.group(0), m.group(0))

    def plain(m):
        return m.group(0) if "-" in m.group(0) else word(m)

    out = []
    for line in text.split("\n"):
        code, comment = parts(line, mark)
        out.append(TOKEN.sub(word if dashes else plain, code) + TOKEN.sub(plain, comment))
    return "\n".join(out)


def clauses(text, table):
    """Of a .rt file: ghost use lines, clauses and ghost members; code keeps its names."""
    out = []
    depth = 0
    for line in text.split("\n"):
        code, comment = parts(line, "//")
        ghost = depth > 0 or re.match(r"^\s*(pub )?(ghost\b|requires\b|ensures\b)", code)
        if ghost:
            code = TOKEN.sub(lambda m: table.get(m.group(0), m.group(0)), code)
            depth += code.count("{") - code.count("}")
        out.append(code + TOKEN.sub(lambda m: m.group(0) if "-" in m.group(0) else table.get(m.group(0), m.group(0)), comment))
    return "\n".join(out)


def fall_together(root, table):
    """Places where a new name stands already."""
    new = {}
    for n, m in table.items():
        new.setdefault(m, set()).add(n)
    for path in files(root):
        text = open(path, encoding="utf-8").read()
        code = "\n".join(parts(l, "--")[0] for l in text.split("\n"))
        tokens = set(TOKEN.findall(code))
        bare = {m.group(0) for m in TOKEN.finditer(code) if code[max(0, m.start() - 1) : m.start()] != "."}
        for m, olds in new.items():
            here = {o for o in olds if o in tokens} | ({m} if m in bare else set())
            if len(here) > 1:
                print("falls together:", path, m, sorted(here))


def main():
    args = [a for a in sys.argv[1:] if not a.startswith("--")]
    root = args[0] if args else "."
    listed = os.path.join(os.path.dirname(os.path.realpath(__file__)), "respelt.txt")
    if os.path.exists(listed):
        table = dict(line.split() for line in open(listed, encoding="utf-8"))
    else:
        table = plan(root)
    if "--list" in sys.argv:
        for n in sorted(table):
            print(n, table[n])
        return
    fall_together(root, table)
    if "--dry" in sys.argv:
        return
    for path in list(files(root)):
        text = open(path, encoding="utf-8").read()
        new = respell(text, table, "--")
        if new != text:
            open(path, "w", encoding="utf-8").write(new)
    for path in sorted(glob.glob(os.path.join(root, "crates/*/src/**/*.rt"), recursive=True)):
        text = open(path, encoding="utf-8").read()
        new = clauses(text, table)
        if new != text:
            open(path, "w", encoding="utf-8").write(new)


if __name__ == "__main__":
    main()
