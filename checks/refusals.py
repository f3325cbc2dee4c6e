#!/usr/bin/env python3
"""refusals.py: every refusal has a row in docs/REFUSALS.md, an example that gets it, an edit that shows it.

The example is a plan whose listing beside it starts with the number, or, for 13 and 15 to 18, which no
listing beside a plan has, a program that calls the planner. The edit is a must-fail edit of a crate. The last
cell says what a place is, in a word that `plan` knows. `./plan explain N` prints the row.
"""
import pathlib
import re
import subprocess
import sys

ROOT = pathlib.Path(__file__).resolve().parent.parent
NUMBERS = range(1, 19)
PLACES = {"line", "head", "task line", "end", "none", "task", "buffer", "list task"}


def rows():
    found = {}
    for line in (ROOT / "docs" / "REFUSALS.md").read_text(encoding="utf-8").splitlines():
        cells = [cell.strip() for cell in line.strip("|").split("|")]
        if line.startswith("|") and cells[0].isdigit():
            found[int(cells[0])] = cells
    return found


def faults():
    table = rows()
    for number in NUMBERS:
        cells = table.get(number)
        if cells is None or len(cells) != 7 or not all(cells) or cells[6] not in PLACES:
            yield f"docs/REFUSALS.md: refusal {number} has no whole row"
            continue
        example, edit = (ROOT / cell.strip("`") for cell in cells[4:6])
        if not example.is_file():
            yield f"refusal {number}: there is no {cells[4]}"
        elif example.suffix == ".plan":
            listing = example.with_suffix(".listing").read_text(encoding="utf-8")
            if not re.match(rf"refused {number} ", listing):
                yield f"refusal {number}: {cells[4]} gets '{listing.strip()}'"
        if not edit.is_file() or edit.suffix != ".edit":
            yield f"refusal {number}: there is no {cells[5]}"
        asked = [ROOT / "plan", "explain", str(number)]
        told = subprocess.run(asked, capture_output=True, text=True, check=False)
        row = f"refusal {number}: {cells[1]} Whose fault: {cells[2]} What to do: {cells[3]}\n"
        if told.returncode != 0 or told.stdout != row:
            yield f"refusal {number}: plan explain does not print its row"


def main():
    wrong = list(faults())
    for number in sorted(set(rows()) - set(NUMBERS)):
        wrong.append(f"docs/REFUSALS.md: no refusal has the number {number}")
    for line in wrong:
        print(line)
    if wrong:
        sys.exit(f"refusals: {len(wrong)} to mend")
    print(f"refusals: {len(NUMBERS)} numbers, each with a row, an example and an edit")


if __name__ == "__main__":
    main()
