#!/usr/bin/env python3
"""layers.py: what a reader may rely on in every Rattle file of this repository.

Crates import downward only: a crate's code, definitions and laws name no crate that crates.txt does not put
below it, and definitions (specs/) name no law (proofs/). Every file opens with a comment, has at most 300
lines (110 characters each), no hole is left, and no import is idle. A public definition or law is used
somewhere, or docs/CLAIMS.md names it.
Prints what is wrong, a line each, and exits with 1; prints one line and exits with 0 where all is well.
"""
import collections
import pathlib
import re
import sys

ROOT = pathlib.Path(__file__).resolve().parent.parent
LONGEST_LINE, LONGEST_FILE = 110, 300
# what Rattle itself looks for in the files of a function's proof is public, and no other file names it
READ_BY_RATTLE = {"Proof.antt", "Invariants.antt", "Answers.antt"}
COMMENT = re.compile(r"--.*|//.*")
# an attribute that names laws and definitions by their paths
TACTIC = re.compile(r"#\[tactic\([^\]]*\]")
# `use PATH.{a, b as c}`, `use PATH as name`, `use PATH`; group 1 is set where it hands names on
USE = re.compile(r"^(pub )?(?:ghost )?use ([^\s{;]+?)(?:\.\{([^}]*)\})?(?: as ([^\s;]+))?;?$", re.M)
PUBLIC = re.compile(r"(\s*)(?:unfoldable |abbrev )?pub (?:record |data |ruleset )?([^\s:]+)")


def crates():
    """The crates with the crates that each names, from crates.txt."""
    names = {}
    for line in (ROOT / "crates.txt").read_text(encoding="utf-8").splitlines():
        line = line.split("#")[0].strip()
        if line:
            name, _, rest = line.partition(":")
            names[name.split()[0]] = rest.split()
    return names


def below(names, crate):
    """Every crate that stands under `crate`."""
    seen, waiting = set(), list(names.get(crate, []))
    while waiting:
        one = waiting.pop()
        if one not in seen:
            seen.add(one)
            waiting += names.get(one, [])
    return seen


def named(text, is_code):
    """The crates that a file names: Rattle.NAME in definitions and laws, NAME:: in code."""
    found = set(re.findall(r"\bRattle\.(\w+)\.", text))
    if is_code:
        found |= set(re.findall(r"\b([a-z_0-9]+)::", COMMENT.sub("", text)))
    return found


def words(text):
    """The words of a text without its comments, with and without what is attached by a dot."""
    text = TACTIC.sub(lambda found: found.group().replace("::", " "), COMMENT.sub("", text))
    return re.findall(r"[^\s(){},;.]+", text)


def idle(text, is_code):
    """The names that a file imports and does not use."""
    body = COMMENT.sub("", USE.sub("", text))
    used = set(words(body)) | set(re.findall(r"\w+", body))
    for hands_on, path, group, alias in USE.findall(text):
        if hands_on:
            continue
        if not group:
            name = alias or re.split(r"[.:]+", path)[-1]
            call = rf"\b{re.escape(name)}\b" if is_code else rf"(?<![\w.-]){re.escape(name)}\."
            if not re.search(call, body):
                yield name
            continue
        for one in filter(None, (part.strip() for part in group.split(","))):
            name = one.split(" as ")[-1].strip()
            # an operator's name has ◌ in the places of its operands, and may stand whole
            if name not in used and not all(part in used for part in name.split("◌") if part):
                yield name


def declared(text):
    """(indent, name) of each public name of an antt file, but for fields of records and constructors."""
    inside = None
    for line in text.splitlines():
        indent = len(line) - len(line.lstrip())
        if inside is not None and line.strip() and indent <= inside:
            inside = None
        found = PUBLIC.match(line)
        if found and inside is None and not line.strip().startswith(("pub mod", "pub use")):
            yield found.group(1), found.group(2)
        if inside is None and re.match(r"\s*(pub )?(record|data) ", line):
            inside = indent


def dead(files):
    """(path, name) of each public name that no file uses and docs/CLAIMS.md does not name."""
    claimed = set(re.findall(r"`([^`]+)`", (ROOT / "docs" / "CLAIMS.md").read_text(encoding="utf-8")))
    counts = {path: collections.Counter(words(text)) for path, text in files.items()}
    everywhere = sum(counts.values(), collections.Counter())
    for path, text in files.items():
        if path.suffix != ".antt" or path.name in READ_BY_RATTLE:
            continue
        plain = COMMENT.sub("", text)
        for indent, name in declared(text):
            # its declaration and the clauses that define it, which stand as far in as it does
            start = r"(?:(?:unfoldable |abbrev )?pub (?:record |data |ruleset )?)?"
            own = rf"^{indent}{start}{re.escape(name)}(?=[\s:])"
            if everywhere[name] <= len(re.findall(own, plain, re.M)) and name not in claimed:
                yield path, name


def faults():
    names, files = crates(), {}
    for crate in names:
        allowed = below(names, crate) | {crate}
        base = ROOT / "crates" / crate
        for path in sorted(base.rglob("*")):
            # out/ is what Rattle made
            if path.suffix not in (".rt", ".antt") or path.is_relative_to(base / "out"):
                continue
            is_code = path.suffix == ".rt"
            where, text = path.relative_to(ROOT), path.read_text(encoding="utf-8")
            files[path] = text
            lines = text.splitlines()
            for other in sorted(named(text, is_code) & set(names) - allowed):
                yield f"{where}: names the crate {other}, which crates.txt does not put below {crate}"
            is_spec = path.parent == base / "specs"
            if is_spec and re.search(r"\bRattle\.\w+\.proofs\.", COMMENT.sub("", text)):
                yield f"{where}: a definition names a law: move what it needs into specs/"
            for name in idle(text, is_code):
                yield f"{where}: imports {name} and does not use it"
            if len(lines) > LONGEST_FILE:
                yield f"{where}: {len(lines)} lines, more than {LONGEST_FILE}: split it by topic"
            for number, line in enumerate(lines, 1):
                if len(line) > LONGEST_LINE:
                    yield f"{where}:{number}: {len(line)} characters, more than {LONGEST_LINE}: wrap the line"
            if path.name != "Lib.antt" and not (lines and lines[0].startswith(("--", "//"))):
                yield f"{where}: no header: say what the file shows"
            if re.search(r"(=|\(| )\?( |\)|$)", COMMENT.sub("", text), re.M):
                yield f"{where}: a hole is left"
    for path, name in dead(files):
        yield f"{path.relative_to(ROOT)}: nothing uses the public {name}, and docs/CLAIMS.md does not name it"


def main():
    wrong = list(faults())
    for line in wrong:
        print(line)
    if wrong:
        sys.exit(f"layers: {len(wrong)} to mend")
    print(f"layers: {len(crates())} crates, each above what it names; no idle import, no public name unused")


if __name__ == "__main__":
    main()
