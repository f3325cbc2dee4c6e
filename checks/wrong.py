#!/usr/bin/env python3
"""wrong.py [--all] [NAME..]: programs that are wrong on purpose, and the tests that have to notice.

What is not proved (scripts, the printer's reading and writing, headers, wrappers) is only as good as its
tests. Each checks/wrong/NAME.edit is one wrong program: an edit of this repository and a test that has to
fail then.

    # what is wrong, in words
    build: COMMAND         optional: run after the edit; it has to succeed
    test: COMMAND          run after that; it has to fail with status 1
    says: TEXT             optional: what the failing test has to write, so that it fails for the right reason
    slow: WHY              optional: left out unless --all or its name is given
    file: PATH             a file of the repository; what follows is an edit of it
    old: TEXT              a text that it has exactly once
    new: TEXT              what stands there instead

`old:` and `new:` may come several times, `file:` too; in a text of several lines each line end is written
<NL>. The edit is made in a copy of the work tree, with the products in target/. First each test has to pass
in a copy without any edit. Exits with 1 where an edit does not fit, a wrong program is not noticed, or the
number of them is another in docs/TRUST.md. No edit may do harm outside of its copy: the tests write to
temporary folders of their own and to no device.
"""
import os
import pathlib
import shutil
import subprocess
import sys
import tempfile
import time
from concurrent import futures

ROOT = pathlib.Path(__file__).resolve().parent.parent
EDITS = ROOT / "checks" / "wrong"
JOBS = min(os.cpu_count() or 1, 4)


class Edit:
    """One wrong program, as its file has it."""

    def __init__(self, path):
        self.name, self.path = path.stem, path
        self.fields = {"build": "", "test": "", "says": "", "slow": ""}
        self.pairs = []
        file, old = "", None
        for line in path.read_text(encoding="utf-8").splitlines():
            key, _, value = line.partition(": ")
            key, value = key.rstrip(":"), value.replace("<NL>", "\n")
            if key in self.fields:
                self.fields[key] = value
            elif key == "file":
                file = value
            elif key == "old":
                old = value
            elif key == "new":
                self.pairs.append((file, old, value))

    def apply(self, tree):
        """Makes the edit in a copy; says what does not fit."""
        if not self.pairs or not self.fields["test"]:
            return "it has no 'old:' and 'new:' pair, or no 'test:'"
        for file, old, new in self.pairs:
            path = tree / file
            text = path.read_text(encoding="utf-8") if path.is_file() else ""
            if not old or text.count(old) != 1:
                return f"{file} has the text '{old}' {text.count(old) if old else 0} times, not once"
            path.write_text(text.replace(old, new), encoding="utf-8")
        return ""


def copy_tree(to, builds):
    """A copy of the work tree and of what was built; where something is built anew, the libraries that rt has
    made in the crates' out/ come along."""
    def left_out(folder, names):
        if os.path.basename(folder) == "out":
            return [name for name in names if name != "rlib"]
        return [name for name in names if name in (".git", "target") or name == "out" and not builds]

    shutil.copytree(ROOT, to, symlinks=True, ignore=left_out)
    for part in ("bin", "staticlib"):
        if (ROOT / "target" / part).is_dir():
            shutil.copytree(ROOT / "target" / part, to / "target" / part, symlinks=True)


def run(command, tree):
    got = subprocess.run(command, shell=True, cwd=tree, stdin=subprocess.DEVNULL, stdout=subprocess.PIPE,
                         stderr=subprocess.STDOUT, text=True, errors="replace", check=False)
    return got.returncode, got.stdout


def fault(edit, room):
    """What is wrong with the tests, or nothing where the wrong program was noticed."""
    tree = pathlib.Path(room) / edit.name
    copy_tree(tree, bool(edit.fields["build"]))
    unfit = edit.apply(tree)
    if unfit:
        return f"BAD EDIT: {unfit}"
    if edit.fields["build"]:
        status, said = run(edit.fields["build"], tree)
        if status:
            return f"BAD EDIT: '{edit.fields['build']}' ended with {status}:\n{said[-1500:]}"
    status, said = run(edit.fields["test"], tree)
    shutil.rmtree(tree)
    if status == 0:
        return f"NOT NOTICED: '{edit.fields['test']}' passes"
    if status != 1 or edit.fields["says"] not in said:
        return f"NOTICED OTHERWISE: status {status}, expected 1 and '{edit.fields['says']}':\n{said[-1500:]}"
    return ""


def timed(edit, room):
    began = time.monotonic()
    told = fault(edit, room)
    return told, time.monotonic() - began


def main():
    words = sys.argv[1:]
    named = [word for word in words if not word.startswith("--")]
    edits = [Edit(path) for path in sorted(EDITS.glob("*.edit"))]
    chosen = [edit for edit in edits if edit.name in named] if named else \
        [edit for edit in edits if "--all" in words or not edit.fields["slow"]]
    if not chosen or len(named) > len(chosen):
        sys.exit(f"wrong: no such edit below {EDITS.relative_to(ROOT)}: {' '.join(named)}")
    wrong = 0
    with tempfile.TemporaryDirectory() as room:
        plain = pathlib.Path(room) / "plain"
        copy_tree(plain, False)
        for test in sorted({edit.fields["test"] for edit in chosen}):
            status, said = run(test, plain)
            if status:
                sys.exit(f"wrong: '{test}' fails without any edit:\n{said[-1500:]}")
        with futures.ThreadPoolExecutor(JOBS) as pool:
            for edit, (told, took) in zip(chosen, pool.map(lambda edit: timed(edit, room), chosen)):
                wrong += bool(told)
                print(f"wrong {edit.name}: {told or 'noticed, as it must be'} ({took:.0f} s)", flush=True)
    told = f"{len(edits)} wrong programs"
    if told not in (ROOT / "docs" / "TRUST.md").read_text(encoding="utf-8"):
        sys.exit(f"wrong: docs/TRUST.md has another figure than '{told}'")
    if wrong:
        sys.exit(f"wrong: {wrong} of {len(chosen)} wrong programs were not noticed")
    print(f"wrong: {len(chosen)} of {len(edits)} wrong programs were tried, and each was noticed")


if __name__ == "__main__":
    main()
