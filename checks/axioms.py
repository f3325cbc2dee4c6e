#!/usr/bin/env python3
"""axioms.py: what each crate assumes.

A library crate of this repository assumes nothing: it names no library of the kit (crates.txt), its code
names nothing of std that reaches the system, and where its check was made in this checkout, the last line of
that check has no axiom. The archive's check says of every library below it, Rattle's own too, that it reaches
no function whose contract is assumed. A program assumes the contracts of the C functions that it reaches.
Prints a line for each crate, and exits with 1 where a library crate assumes something, a check that was made
did not prove its crate, a product is there and what its check said is not, or docs/TRUST.md has no row, or
another figure, for a crate.
"""
import pathlib
import re
import sys

ROOT = pathlib.Path(__file__).resolve().parent.parent
# what tools/build.sh puts into target/, and its crate
PRODUCTS = {"plan_printer": "bin/plan_printer", "desk": "bin/desk", "eskihrum": "staticlib/libeskihrum.a"}
# std's ways to the system, and a block of C functions
REACHES = re.compile(
    r"\bstd::(?:\{|\w*io\b|fs|net|env|time|process|thread|os)|\bHostRuntime\b|extern \"C\" *\{"
)


def crates():
    """(name, the crates that it names), from crates.txt."""
    for line in (ROOT / "crates.txt").read_text(encoding="utf-8").splitlines():
        name, _, rest = line.split("#")[0].partition(":")
        if name.strip():
            yield name.split()[0], rest.split()


def check(name):
    """What the crate's last check here said, as tools/build.sh has kept it."""
    log = ROOT / "target" / "log" / name
    return log.read_text(encoding="utf-8") if log.is_file() else ""


def told():
    """(functions, axioms) of each crate in the table of docs/TRUST.md."""
    text = (ROOT / "docs" / "TRUST.md").read_text(encoding="utf-8")
    return {row[0]: row[1:] for row in re.findall(r"^\| (\w+) \| (\d+) \| (axioms=\d+) \|$", text, re.M)}


def assumed(name, below, every):
    """What a library crate assumes, or might, by crates.txt, its code and its check."""
    for other in below:
        if other not in every:
            yield f"it names {other}, a library of the kit"
    for path in sorted((ROOT / "crates" / name / "src").rglob("*.rt")):
        code = re.sub(r"//.*", "", path.read_text(encoding="utf-8"))
        for found in REACHES.findall(code):
            yield f"{path.relative_to(ROOT)} has {found}"
    said = check(name)
    yield from re.findall(r"\b(?:axioms|foreign)=\S+", said)
    yield from re.findall(r"^axioms \w+: (?!none reached).*$", said, re.M)


def main():
    wrong, rows, every = 0, told(), dict(crates())
    for name, below in every.items():
        said = check(name)
        last = (re.findall(r"^logic=\S.*$", said, re.M) or [""])[-1]
        axioms = re.findall(r"\b(?:axioms|foreign)=\S+", last)
        program = (ROOT / "crates" / name / "src" / "main.rt").is_file()
        functions = re.search(r"functions=(\d+)", last)
        found = "not checked here"
        if functions:
            found = f"{functions.group(1)} functions, {' '.join(axioms) or 'axioms=0'}"
        print(f"{name}: {'program' if program else 'library'}, {found}")
        shown = (functions.group(1), axioms[0] if axioms else "axioms=0") if functions else rows.get(name, ())
        if rows.get(name, ()) != shown or not shown:
            wrong += 1
            row = " ".join(rows.get(name, ("no row",)))
            print(f"{name}: docs/TRUST.md has {row}, the check {' '.join(shown)}")
        if last and not last.startswith("logic=proved"):
            wrong += 1
            print(f"{name}: not proved: {last}")
        product = ROOT / "target" / PRODUCTS.get(name, "none")
        if product.is_file() and not re.search(r"^axioms \w+: ", said, re.M):
            wrong += 1
            print(f"{name}: {product.relative_to(ROOT)} is there, and what its check said is not: remove it")
        for what in [] if program else assumed(name, below, every):
            wrong += 1
            print(f"{name}: a library crate assumes something: {what}")
    if wrong:
        sys.exit(f"axioms: {wrong} crates to mend")


if __name__ == "__main__":
    main()
