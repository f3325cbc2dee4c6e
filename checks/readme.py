#!/usr/bin/env python3
"""readme.py: what README.md and the docs show is what happens.

In each block that opens with ```console, a line "$ COMMAND" is run by sh at the root of the repository, and
what follows it, up to the next "$" or the end of the block, has to be what a person would see: what it writes
and what it says on standard error. A command has to end with status 0, unless "$ echo $?" comes next and
shows another. Commands that take too long for a check are not run, and each has its reason below. A command
in any other kind of block is a fault: nobody would notice that it no longer works.
"""
import pathlib
import re
import subprocess
import sys

ROOT = pathlib.Path(__file__).resolve().parent.parent
STATUS = "echo $?"
NOT_RUN = {
    ".ci/run": "the gate itself, of which this is a part",
    "cd bench && cargo run --offline --release": "the benchmark takes minutes, and its figures differ",
    "cd bench && cargo run --offline --release -- all": "the same with the slowest plan",
    "cd bench && cargo run --offline --release -- some edge_fp": "a part of it",
    "cd bench && cargo run --offline --release -- cores": "a row for each workload, which the paper adds up",
    "cd bench && cargo run --offline --release -- compare 3000": "a part of it, without figures",
    "cd bench && cargo run --offline --release -- hunt 300": "takes minutes, and what it finds differs",
    "cd bench && cargo run --offline --release -- growth ../docs/growth.svg": "writes a paper's picture",
    "cd bench && cargo run --offline --release -- rounds": "a part of it",
    "cd bench && cargo run --offline --release -- make": "writes plans anew",
    "tools/build.sh archive": "the archive has a check of its own",
}
COMMAND = re.compile(r"(?:\$ |    )(?:\./plan|plan|make|rt|cargo|cd|tools/|checks/|\.ci/|sha256sum)\b")


def papers():
    yield from [ROOT / "README.md", *sorted((ROOT / "docs").glob("*.md"))]
    yield from [ROOT / "examples" / "README.md", ROOT / "corpus" / "README.md"]


def shown(text):
    """(command, output, status) of each command that a paper shows."""
    for block in re.findall(r"^```console\n(.*?)^```", text, re.M | re.S):
        parts = [part.partition("\n") for part in re.split(r"^\$ ", block, flags=re.M)[1:]]
        for (command, _, output), after in zip(parts, [*parts[1:], ("", "", "")]):
            if command != STATUS:
                yield command, output, int(after[2]) if after[0] == STATUS else 0


def elsewhere(text):
    """Lines that look like commands and stand in no console block."""
    inside = False
    for number, line in enumerate(text.splitlines(), 1):
        inside = line.startswith("```console") or (inside and not line.startswith("```"))
        if not inside and COMMAND.match(line):
            yield number, line.strip()


def faults(paper):
    """What is wrong in a paper, and how many of its commands were run."""
    text, wrong, ran = paper.read_text(encoding="utf-8"), [], 0
    where = paper.relative_to(ROOT)
    for number, line in elsewhere(text):
        wrong.append(f"{where}:{number}: a command outside of a console block: {line}")
    for command, output, status in shown(text):
        if command in NOT_RUN:
            continue
        ran += 1
        got = subprocess.run(command, shell=True, cwd=ROOT, stdout=subprocess.PIPE, stderr=subprocess.STDOUT,
                             stdin=subprocess.DEVNULL, text=True, check=False)
        if got.stdout != output:
            wrong.append(f"{where}: $ {command}\nshown:\n{output}written:\n{got.stdout}")
        if got.returncode != status:
            wrong.append(f"{where}: $ {command}\nstatus {got.returncode}, and {status} is shown")
    return wrong, ran


def main():
    ran, wrong = 0, []
    for paper in papers():
        more, count = faults(paper)
        wrong += more
        ran += count
    first = next(shown((ROOT / "README.md").read_text(encoding="utf-8")), ("", "", 0))
    if not first[0].startswith("./plan"):
        wrong.append("README.md: its first command has to print a listing")
    for line in wrong:
        print(line)
    if wrong:
        sys.exit(f"readme: {len(wrong)} to mend in {ran} commands")
    print(f"readme: {ran} commands write what is shown and end as it is shown")


if __name__ == "__main__":
    main()
