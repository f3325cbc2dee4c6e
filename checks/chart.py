#!/usr/bin/env python3
"""chart.py: the pictures of `plan chart` show the numbers of the plan and of its listing.

For plans of 1 to 32 tasks: the picture is XML; it has the file's name and the plan's sha256; each row has a
frame of one width, a dark part of C / D of it and, where the listing has one, a bound of bound / D of it;
forced tasks are hatched; under refusal 14 the row of the place is marked, and the bounds are those of
`plan test`. Expected numbers are taken from the plan's bytes and the listings here, not from the script that
draws. Exits with 1 where a picture differs.
"""
import hashlib
import pathlib
import re
import shutil
import subprocess
import sys
import tempfile
import xml.etree.ElementTree as tree

ROOT = pathlib.Path(__file__).resolve().parent.parent
LEAST = 1.5  # the width that a very small part is given, so that it is seen


def picture(path, status):
    """The picture's parts: words, and (class, width) of its bars, row by row."""
    got = subprocess.run([ROOT / "plan", "chart", path], capture_output=True, text=True, check=False)
    if got.returncode != status:
        raise ValueError(f"status {got.returncode}, expected {status}: {got.stderr}")
    top = tree.fromstring(got.stdout)
    rows = {}
    for bar in top.iter("{http://www.w3.org/2000/svg}rect"):
        if "class" in bar.attrib:
            rows.setdefault(int(bar.get("y")), []).append((bar.get("class"), float(bar.get("width"))))
    words = [text.text for text in top.iter("{http://www.w3.org/2000/svg}text")]
    return words, [dict(rows[y]) for y in sorted(rows)]


def tasks(plan):
    """(T, C, D) of each task line."""
    frames = [bytes.fromhex(line) for line in plan.read_text(encoding="ascii").split()[1:]]
    return [tuple(int.from_bytes(frame[at:at + 4], "big") for at in (2, 6, 10)) for frame in frames]


def near(width, part, frame):
    return abs(width - max(frame * part, LEAST)) < 0.6


def faults(plan):
    listing = plan.with_suffix(".listing").read_text(encoding="ascii")
    place = re.match(r"refused 14 place (\d+)", listing)
    bounds = re.findall(r"^task \d+ \w (\w+) bound (\d+)", listing, re.M)
    if place:
        got = subprocess.run([ROOT / "plan", "test", plan], capture_output=True, text=True, check=False)
        bounds = re.findall(r"^task \d+ (\w) (?:bound )?(\d+|none) ", got.stdout, re.M)
    words, rows = picture(plan, 1 if place else 0)
    total = hashlib.sha256(plan.read_bytes()).hexdigest()
    if str(plan) not in words or f"sha256 {total}" not in words:
        yield "no name or no sha256"
    if len(rows) != len(tasks(plan)):
        yield f"{len(rows)} rows for {len(tasks(plan))} tasks"
    for k, (row, (_, cost, deadline)) in enumerate(zip(rows, tasks(plan)), 1):
        missed = bool(place) and int(place.group(1)) == k
        frame = row.get("missed" if missed else "deadline")
        if frame != rows[0].get("deadline", rows[0].get("missed")):
            yield f"task {k}: its frame is {frame}"
            continue
        if not near(row["cost"], cost / deadline, frame):
            yield f"task {k}: C is {row['cost']} of {frame}"
        given, bound = bounds[k - 1]
        kind = "forced" if given == "forced" else "bound"
        if bound == "none":
            if "bound" in row or "forced" in row:
                yield f"task {k}: a bound where the test finds none"
        elif kind not in row or not near(row[kind], int(bound) / deadline, frame):
            yield f"task {k}: no {kind} of {bound}"
    if place and listing.strip() not in words[0]:
        yield "the refusal's line is not in the picture"


def main():
    wrong, count = 0, 0
    with tempfile.TemporaryDirectory() as room:
        odd = pathlib.Path(room) / "a <b> & \"c\" größer.plan"
        shutil.copy(ROOT / "examples" / "b.plan", odd)
        shutil.copy(ROOT / "examples" / "b.listing", odd.with_suffix(".listing"))
        for plan in [odd, *sorted(ROOT.glob("examples/*.plan")), *sorted(ROOT.glob("corpus/*/*.plan"))]:
            if not re.match("plan |refused 14 ", plan.with_suffix(".listing").read_text(encoding="ascii")):
                continue
            count += 1
            for fault in faults(plan):
                wrong += 1
                print(f"{plan.name}: {fault}")
    if wrong:
        sys.exit(f"chart: {wrong} faults")
    print(f"chart: {count} pictures show what their plans and listings say")


if __name__ == "__main__":
    main()
