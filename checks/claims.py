#!/usr/bin/env python3
"""claims.py: docs/CLAIMS.md says what is proved, and the sources say the same.

A theorem or a function is named by a link, [`name`](../path#L12): the file declares that name, publicly, in
that line. A row that names one has its sentence. Every specs file that the front pages reach is listed,
every theorem of the front pages and every word of their own specs stands in the paper as the source has it,
every public function has a row with its promise and one with the edits that show wrong answers, two or more,
or one where a `requires` says that only the crates above call it; and every edit and file that a paper names
is there. Prints what is wrong, a line each, and exits with 1. With the word `lines` it first
sets the line numbers right.
"""
import pathlib
import re
import sys

ROOT = pathlib.Path(__file__).resolve().parent.parent
PAPER = ROOT / "docs" / "CLAIMS.md"
FRONT_CRATES = ("claims", "claims_writing", "claims_rounds", "claims_cores", "claims_word", "claims_levels")
FRONTS = [ROOT / "crates" / crate / "proofs" / "FrontPage.antt" for crate in FRONT_CRATES]
FOLDERS = "docs|crates|checks|examples|corpus|second|rust|bench|include|tools"
LINK = re.compile(r"\[`([^`]+)`\]\(\.\./([\w/.+-]+)#L(\d+)\)")
NAMES_IN_SPECS = re.compile(
    r"^(?:unfoldable )?(?:pub )?use Rattle\.(\w+)\.specs\.((?:(?:declared|contracts)\.)?\w+)", re.M
)


def declares(line, name):
    """Whether a line of a source declares the public name; a function may be written CRATE::NAME."""
    name = re.escape(name.split("::")[-1])
    law = rf"\s*(?:unfoldable |abbrev )?pub (?:record |data )?{name}(?=[\s:]|$)"
    return bool(re.match(law, line) or re.match(rf"\s*pub (?:extern \"C\" )?fn {name}[(<]", line))


def links(fix):
    """Each link's name is declared in its line; with `fix`, lines are set right first."""
    text = PAPER.read_text(encoding="utf-8")

    def right(found):
        name, path, _ = found.groups()
        lines = (ROOT / path).read_text(encoding="utf-8").splitlines() if (ROOT / path).is_file() else []
        at = [number for number, line in enumerate(lines, 1) if declares(line, name)]
        return f"[`{name}`](../{path}#L{at[0]})" if at else found.group(0)

    if fix:
        text = LINK.sub(right, text)
        PAPER.write_text(text, encoding="utf-8")
    for number, line in enumerate(text.splitlines(), 1):
        for name, path, at in LINK.findall(line):
            file = ROOT / path
            if not file.is_file():
                yield f"docs/CLAIMS.md:{number}: there is no file {path}"
                continue
            lines = file.read_text(encoding="utf-8").splitlines()
            if not (0 < int(at) <= len(lines) and declares(lines[int(at) - 1], name)):
                yield f"docs/CLAIMS.md:{number}: line {at} of {path} does not declare {name}"


def rows():
    """(line number, header, cells) of each row of each table."""
    header = None
    for number, line in enumerate(PAPER.read_text(encoding="utf-8").splitlines(), 1):
        if not line.startswith("|"):
            header = None
            continue
        cells = [cell.strip() for cell in line.strip().strip("|").split("|")]
        if header is None:
            header = cells
        elif not all(re.fullmatch(r":?-+:?", cell) for cell in cells):
            yield number, header, cells


def sentences():
    """A row that names a theorem says in words what it says."""
    for number, header, cells in rows():
        if len(cells) != len(header):
            yield f"docs/CLAIMS.md:{number}: {len(cells)} cells under {len(header)} headings"
        row = dict(zip(header, cells))
        if "Theorem" in row:
            if len(re.findall(r"\w+", LINK.sub("", row.get("Sentence", "")))) < 3:
                yield f"docs/CLAIMS.md:{number}: a row without a sentence"
            if not LINK.search(row["Theorem"]):
                yield f"docs/CLAIMS.md:{number}: a row without a theorem"


def reached():
    """The files with the definitions that the front pages' statements are made of."""
    seen, waiting = set(), [*FRONTS]
    while waiting:
        for crate, name in NAMES_IN_SPECS.findall(waiting.pop().read_text(encoding="utf-8")):
            base = ROOT / "crates" / crate
            if not base.is_dir():
                continue  # a library of Rattle's own
            file = base / "src" / "lib.rt" if "." in name else base / "specs" / f"{name}.antt"
            if file not in seen:
                seen.add(file)
                waiting += [file] if file.suffix == ".antt" else []
    return sorted(seen)


def listed():
    text = PAPER.read_text(encoding="utf-8")
    for file in reached():
        path = file.relative_to(ROOT)
        if not file.is_file():
            yield f"{path}: the front page needs it, and it is not there"
        elif f"`{path}`" not in text:
            yield f"docs/CLAIMS.md: the front page needs {path}, which is not listed"


def plain(text):
    """A piece of a source or of the paper without comments, with single spaces."""
    return " ".join(re.sub(r"--.*", "", text).split())


def pieces(text):
    """A text cut before each line that is not set in; a closing brace belongs to what it closes."""
    return re.split(r"\n(?=[^\s}])", text)


def declarations(text, with_bodies):
    """The public declarations of an antt file: name, text; of a law without its proof."""
    for piece in pieces(re.sub(r"--.*", "", text)):
        found = re.match(r"(?:unfoldable |abbrev )?pub (?:record |data )?([^\s:]+)", piece)
        if piece.startswith(("use ", "pub mod ")) or not piece.strip():
            continue
        if found or with_bodies:
            yield found.group(1) if found else piece.split()[0], piece


def statements():
    """The front pages and the words of the first one, held to the blocks of the paper that repeat them."""
    blocks = re.findall(r"^```antt\n(.*?)^```$", PAPER.read_text(encoding="utf-8"), re.M | re.S)
    said = {plain(piece) for block in blocks for piece in pieces(block)} - {""}
    meant = {}
    for front in FRONTS:
        for name, piece in declarations(front.read_text(encoding="utf-8"), False):
            meant[plain(piece)] = f"{name} of {front.relative_to(ROOT)}"
    for file in sorted((ROOT / "crates" / "claims" / "specs").glob("*.antt")):
        for name, piece in declarations(file.read_text(encoding="utf-8"), True):
            meant[plain(piece)] = f"{name} of {file.relative_to(ROOT)}"
    for text in sorted(set(meant) - said):
        yield f"docs/CLAIMS.md: {meant[text]} does not stand there as it is"
    for text in sorted(said - set(meant)):
        yield f"docs/CLAIMS.md: no source says: {text[:90]}"


def functions():
    """Every public function of a library has its promise, and edits that show two wrong answers, or one where
    it has a `requires`: no caller from outside reaches it."""
    promised, wrong = set(), {}
    for _, header, cells in rows():
        row = dict(zip(header, cells))
        names = [f"{path.split('/')[1]}::{name.split('::')[-1]}" for name, path, _ in
                 LINK.findall(row.get("Function", ""))]
        if "Promise" in row:
            promised |= set(names)
        for name in names if "Edit" in row else []:
            wrong[name] = len(re.findall(r"`[a-z0-9_]+/[a-z0-9_]+`", row["Edit"]))
    for source in sorted((ROOT / "crates").glob("*/src/lib.rt")):
        crate = source.parts[-3]
        base = ROOT / "crates" / crate
        if not (base / "proofs").is_dir() or (base / "stdout").is_file():
            continue
        text = source.read_text(encoding="utf-8")
        # a method stands as deep as its impl; its body opens where it began
        declared = re.findall(r"^( *)pub (?:extern \"C\" )?fn (\w+)[(<](.*?)^\1\{", text, re.M | re.S)
        for _, name, contract in declared:
            if f"{crate}::{name}" not in promised:
                yield f"docs/CLAIMS.md: no row has the promise of {crate}::{name}"
            due = 1 if re.search(r"^\s*requires (?:\w+ )?\{", contract, re.M) else 2
            if wrong.get(f"{crate}::{name}", 0) < due:
                yield f"docs/CLAIMS.md: {crate}::{name} has fewer than {due} edits that show a wrong answer"


def edits():
    """Must-fail edits, written CRATE/LABEL in backquotes."""
    for crate, label in re.findall(r"`([a-z0-9_]+)/([a-z0-9_]+)`", PAPER.read_text(encoding="utf-8")):
        if not (ROOT / "crates" / crate / "must-fail" / f"{label}.edit").is_file():
            yield f"docs/CLAIMS.md: there is no edit {crate}/{label}"


def linked():
    """Paths in backquotes or links of the papers, where they look like files of this repository."""
    for paper in [ROOT / "README.md", *sorted((ROOT / "docs").glob("*.md"))]:
        for number, line in enumerate(paper.read_text(encoding="utf-8").splitlines(), 1):
            for path in re.findall(rf"[`(]((?:{FOLDERS})/[\w/.+-]+)[`)]", line):
                if not (ROOT / path).exists():
                    yield f"{paper.relative_to(ROOT)}:{number}: there is no {path}"


def main():
    fix = sys.argv[1:] == ["lines"]
    wrong = [*links(fix), *sentences(), *listed(), *statements(), *functions(), *edits(), *linked()]
    for line in wrong:
        print(line)
    if wrong:
        sys.exit(f"claims: {len(wrong)} to mend")
    print(f"claims: {len(reached())} files to read; every theorem, statement, function and file is as told")


if __name__ == "__main__":
    main()
