#!/usr/bin/env python3
"""edits.py: every wrong program on purpose still fits what it is an edit of.

A must-fail edit of a crate (crates/NAME/must-fail) and a wrong program (checks/wrong) name texts that stand
in a file exactly once. A source that moves on leaves such an edit without its text; this says so in a second,
long before the edit's turn comes. Prints what does not fit, a line each, and exits with 1.
"""
import pathlib
import sys

ROOT = pathlib.Path(__file__).resolve().parent.parent


def pairs(path):
    """(file, old text, new text) of each pair of an edit."""
    file, old, is_ours = "", "", path.parent.name == "wrong"
    for line in path.read_text(encoding="utf-8").splitlines():
        key, _, value = line.partition(": ")
        # in the edit of a crate, which the toolchain reads, a text is a part of one line
        value = value.replace("<NL>", "\n") if is_ours else value
        if key == "file":
            file = value
        elif key == "old":
            old = value
        elif key.rstrip(":") == "new":
            yield file, old, value
            old = ""


def faults(path, root):
    """What keeps an edit from being made: each pair is an edit of what those before it made."""
    texts, changed = {}, False
    for file, old, new in pairs(path):
        if path.parent.name != "wrong" and not file.startswith(("src/", "specs/", "proofs/")):
            yield f"{file or 'no file'} is no file of the crate's src/, specs/ or proofs/"
        if file not in texts:
            source = root / file
            texts[file] = source.read_text(encoding="utf-8") if source.is_file() else ""
        count = texts[file].count(old) if old else 0
        if count != 1:
            yield f"{file} has its text {count} times, not once: {old.strip()[:60]}"
        elif new != old:
            texts[file] = texts[file].replace(old, new)
            changed = True
    if not texts:
        yield "names no text"
    elif not changed:
        yield "changes nothing"


def main():
    tried, wrong = 0, 0
    for folder, root in [(ROOT / "checks" / "wrong", ROOT)] + [
        (crate / "must-fail", crate) for crate in sorted((ROOT / "crates").iterdir())
    ]:
        for path in sorted(folder.glob("*.edit")) if folder.is_dir() else []:
            tried += 1
            for fault in faults(path, root):
                wrong += 1
                print(f"{path.relative_to(ROOT)}: {fault}")
    if wrong:
        sys.exit(f"edits: {wrong} to mend")
    print(f"edits: {tried} wrong programs fit what they are edits of")


if __name__ == "__main__":
    main()
