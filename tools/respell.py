#!/usr/bin/env python3
"""Brings the names of the repository's own definitions and lemmas to snake case: 'taskAt' to 'task_at', 'larger-accept' to 'larger_accept'.

usage: python3 tools/respell.py [--list]        at the top, once, after the port's own script

A name turns if it is declared, or is a record's field, in crates/*/specs/*.antt or right in crates/*/proofs/*.antt. Where two names
fall together the definition takes the plain one, and the lemma '_lem' after its own.
Where a name turns: specs, proofs, clauses and comments of the code, the texts of must-fail edits, and code in pages. What turned is
listed in tools/respelled.tsv; checks and tools that cite a name are turned by hand.
"""

import os
import re
import sys

WORD = re.compile(r"[^\s(){}.;,@\"«»`\[\]|/:\\]+")
MODS = r"^\s*(?:(?:abbrev|unfoldable)\s+)?(?:pub\s+)?"
NAMES = re.compile(MODS + r"([^\n:(){}.=,→|\[\]↦∙λ]+?)\s*:(?:\s|$)")
ALONE = re.compile(r"^(?:\s*(?:(?:abbrev|unfoldable)\s+)?pub\s+|(?:abbrev|unfoldable)\s+)([^\s:(){}.=,]+)\s*(?:$|[({])")
WORDS = {"where", "mutual", "let", "in", "do", "use", "data", "record", "pub", "abbrev", "unfoldable", "unfolding", "elim", "mod", "module"}
FIELD = re.compile(r"\b(s) \.([A-Za-z])")
PARTS = re.compile(r"^[a-z][A-Za-z0-9'_]*(?:-[A-Za-z0-9'_]+)*$")
# two kinds of thing of one name: a test by place, and a constructor that names a fault
OWN = {"noDigit": "is_no_digit"}
# names that lemma files bind otherwise: parameters and names of modules
BOUND = ("sentFlags", "isRows", "isEnd", "isSent", "isTested", "answerValues", "capLines")


def snake(name):
    name = re.sub(r"([a-z0-9'])([A-Z])", lambda m: m.group(1) + "_" + m.group(2), name)
    return name.replace("-", "_").lower() if not re.search(r"[A-Z]{2}", name) else name.replace("-", "_")


def files(top, ends):
    for folder, dirs, names in os.walk(top):
        dirs[:] = sorted(d for d in dirs if d not in ("out", ".git", "target", "__pycache__"))
        for n in sorted(names):
            if n.endswith(ends):
                yield os.path.join(folder, n)


def declared():
    """Each name that is declared in specs/ or in a lemma file, with the files."""
    found = {}
    for p in files("crates", (".antt",)):
        parts = p.split("/")
        if len(parts) != 4 or parts[2] not in ("specs", "proofs"):
            continue
        for line in open(p, encoding="utf-8"):
            hit = None if line.lstrip().startswith("--") else NAMES.match(line) or ALONE.match(line)
            for name in hit.group(1).split() if hit else ():
                if PARTS.match(name) and name not in WORDS:
                    found.setdefault(name, set()).add(p)
    return found


def of_code():
    """Fields, parameters, constants and locals of the code."""
    words = {}
    for p in files("crates", (".rt",)):
        for m in re.finditer(r"\b([a-z_][a-z0-9_]*)\s*:(?!:)", open(p, encoding="utf-8").read()):
            words.setdefault(m.group(1), set()).add(p)
    return words


def apart(found, table):
    """Gives '_lem' to all but one of those that fall together."""
    same = {}
    for n in found:
        same.setdefault(table.get(n, n), []).append(n)
    for new, olds in same.items():
        if len(olds) == 1:
            continue
        first = [o for o in olds if "-" not in o and o != new] or [o for o in olds if o == new]
        for o in olds:
            if o != first[0]:
                assert new + "_lem" not in same, new
                table[o] = new + "_lem"
                print("apart:", o, new + "_lem")


def turned(text, table, kind):
    """Names that a file takes from the library stay as the library spells them."""
    own = set(os.listdir("crates"))
    for mod, items in re.findall(r"use ([\w.]+)\.\{([^}]*)\}", text):
        parts = mod.split(".")
        if not (parts[0] == "Rattle" and len(parts) > 1 and parts[1] in own) and kind == "antt":
            table = {n: t for n, t in table.items() if n not in [i.strip() for i in items.split(",")]}

    def one(m):
        w = m.group(0)
        return table.get(w, w)

    if kind == "antt":
        return WORD.sub(one, text)
    if kind == "edit":
        return "".join(WORD.sub(one, t) if t.startswith(("old:", "new:")) else t for t in text.splitlines(True))
    if kind == "md":
        return re.sub(r"`[^`\n]+`|```.*?```", lambda m: WORD.sub(one, m.group(0)), text, flags=re.S)
    out = []
    for part in re.split(r'("(?:[^"\\\n]|\\.)*")', text):
        out.append(part if part.startswith('"') else WORD.sub(one, part))
    return "".join(out)


def main():
    found = declared()
    table = {n: OWN.get(n, snake(n)) for n in found if snake(n) != n}
    table.update({n: snake(n) for n in BOUND})
    apart(found, table)
    taken = {}
    for n in found:
        taken.setdefault(table.get(n, n), set()).add(n)
    code = of_code()
    bad = [(new, sorted(olds)) for new, olds in sorted(taken.items()) if len(olds) > 1]
    near = [(old, new) for old, new in sorted(table.items()) if new in code]
    for new, olds in bad:
        print("fall together:", new, olds, [sorted(found[o]) for o in olds])
    for old, new in near:
        print("a name of the code:", old, new, sorted(code[new])[:3])
    print(f"{len(table)} names")
    if "--list" in sys.argv or bad:
        return
    count = 0
    with open("tools/respelled.tsv", "w", encoding="utf-8") as f:
        f.writelines(f"{old}\t{new}\n" for old, new in sorted(table.items()))
    tops = [("crates", (".antt", ".rt", ".edit")), ("docs", (".md",))]
    paths = [p for top, ends in tops for p in files(top, ends)] + ["README.md", "CHANGELOG.md"]
    for p in paths:
        with open(p, encoding="utf-8") as f:
            was = f.read()
        new = turned(was, table, p.rsplit(".", 1)[1])
        if p.endswith(".antt"):
            new = re.sub(r"(?m)^(\s*--.*)$", lambda m: FIELD.sub(r"\1.\2", m.group(1)), new)
        if new != was:
            count += 1
            with open(p, "w", encoding="utf-8") as f:
                f.write(new)
    print(f"{count} files")


main()
