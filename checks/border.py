#!/usr/bin/env python3
"""border.py: the header and the Rust wrapper say what the archive's source says.

    python3 checks/border.py             compare, and print what differs
    python3 checks/border.py --archive   also look at target/staticlib/libeskihrum.a with nm
    python3 checks/border.py --write     write the words of docs/REFUSALS.md into the header and the wrapper

Compared are the exported functions of crates/eskihrum with the declarations in C and Rust, parameter by
parameter; the order of an answer's numbers; the numbers of the version; the words of each refusal.
"""
import pathlib
import re
import subprocess
import sys

ROOT = pathlib.Path(__file__).resolve().parent.parent
SOURCE = ROOT / "crates" / "eskihrum" / "src"
TOLD = ROOT / "crates" / "told" / "specs" / "Told.antt"
# A definition that puts one number more into a place of such an answer: `set (told_of ..) PLACE NAME`, or
# `.. PLACE f.NAME`.
ADDED = [
    ROOT / "crates" / "edition_jobs" / "specs" / "Jobs.antt",
    ROOT / "crates" / "fewest_jobs" / "specs" / "FewestTold.antt",
]
ABI = ROOT / "crates" / "eskihrum" / "specs" / "Abi.antt"
HEADER = ROOT / "include" / "eskihrum.h"
FLAT = ROOT / "rust" / "src" / "flat.rs"
TEXTS = ROOT / "rust" / "src" / "texts.rs"
REFUSALS = ROOT / "docs" / "REFUSALS.md"
ARCHIVE = ROOT / "target" / "staticlib" / "libeskihrum.a"
NEEDED = {"memcpy", "memset"}
LONGEST_LINE = 110

# What a parameter of the source is in C and in Rust: {} stands for its name.
IN_C = {
    "u32": ["uint32_t {}"],
    "usize": ["size_t {}"],
    "&[u8]": ["const uint8_t *{}", "size_t {}_len"],
    "&mut [u8]": ["uint8_t *{}", "size_t {}_len"],
    "&[u32]": ["const uint32_t *{}", "size_t {}_len"],
    "&mut [u32]": ["uint32_t *{}", "size_t {}_len"],
}
IN_RUST = {
    "u32": ["{}: u32"],
    "usize": ["{}: usize"],
    "&[u8]": ["{}: *const u8", "{}_len: usize"],
    "&mut [u8]": ["{}: *mut u8", "{}_len: usize"],
    "&[u32]": ["{}: *const u32", "{}_len: usize"],
    "&mut [u32]": ["{}: *mut u32", "{}_len: usize"],
}
# What the definition's numbers are called in C and Rust; every other one is 0.
FIELD = {name: name for name in ("number", "place", "forced", "passes", "records", "word")} | {
    "passing": "yes",
    "end % 4294967296": "end_low",
    "end / 4294967296": "end_high",
}
RESULT_IN_C = {"": "void", "u32": "uint32_t", "u64": "uint64_t", "usize": "size_t"}


def one_line(text):
    return re.sub(r"\s+", " ", text).strip().rstrip(",").strip()


def exports():
    """name: ([(parameter, type)], result) of each exported function of the source."""
    found = {}
    mark = r'#\[unsafe\(no_mangle\)\]\s*pub extern "C" fn (\w+)\(([^)]*)\)\s*(?:->\s*(\w+))?'
    for path in sorted(SOURCE.rglob("*.rt")):
        for name, inside, result in re.findall(mark, path.read_text(encoding="utf-8")):
            pairs = [part.split(":", 1) for part in one_line(inside).split(",") if part]
            found[name] = ([(one.strip(), kind.strip()) for one, kind in pairs], result)
    return found


def said(parameters, words):
    return ", ".join(part.format(name) for name, kind in parameters for part in words[kind])


def wanted_in_c(name, parameters, result):
    return f"{RESULT_IN_C[result]} {name}({said(parameters, IN_C) or 'void'});"


def wanted_in_rust(name, parameters, result):
    return f"fn {name}({said(parameters, IN_RUST)})" + (f" -> {result};" if result else ";")


def declared_in_c(text):
    """Each function that the header declares and does not define."""
    bare = re.sub(r"/\*.*?\*/", "", text, flags=re.S)
    return {found[1]: one_line(found[0]) for found in re.findall(r"^(\w+ (\w+)\([^{}();]*\);)", bare, re.M)}


def declared_in_rust(text):
    block = re.search(r'^extern "C" \{\n(.*?)^\}', text, re.M | re.S)
    lines = re.findall(r"fn \w+\([^)]*\)[^;]*;", block.group(1) if block else "")
    tidy = [re.sub(r"\( ", "(", re.sub(r",? \)", ")", one_line(line))) for line in lines]
    return {re.match(r"fn (\w+)", line).group(1): line for line in tidy}


def declarations():
    source = exports()
    if not source:
        yield f"{SOURCE.relative_to(ROOT)}: no function is exported"
    for path, found, wanted in (
        (HEADER, declared_in_c(HEADER.read_text(encoding="utf-8")), wanted_in_c),
        (FLAT, declared_in_rust(FLAT.read_text(encoding="utf-8")), wanted_in_rust),
    ):
        where = path.relative_to(ROOT)
        for name, (parameters, result) in source.items():
            line = wanted(name, parameters, result)
            if name not in found:
                yield f"{where}: does not declare {name}: add\n    {line}"
            elif found[name] != line:
                yield f"{where}: declares\n    {found[name]}\n  where the source has\n    {line}"
        for name in sorted(set(found) - set(source)):
            yield f"{where}: declares {name}, which crates/eskihrum does not export"


def fields():
    """The order of an answer's numbers: the definition's, the header's struct, the wrapper's, docs/C.md's."""
    header = HEADER.read_text(encoding="utf-8")
    told = re.search(r"^fields [\w ]+ =\n(.*?)\n\n", TOLD.read_text(encoding="utf-8"), re.M | re.S).group(1)
    entries = enumerate(re.split(r"\s*∷\s*", told.strip()))
    order = {FIELD[entry]: place for place, entry in entries if entry in FIELD}
    for path in ADDED:
        text = path.read_text(encoding="utf-8")
        more = re.findall(r"= set \(told_of .*\) (\d+) (?:\w+\.)?(\w+)$", text, re.M)
        order |= {name: int(place) for place, name in more}
    body = re.search(r"typedef struct eskihrum_answer \{(.*?)\}", header, re.S).group(1)
    in_c, place = {}, 0
    for name, many in re.findall(r"uint32_t (\w+)(?:\[(\d+)\])?;", body):
        if not name.startswith("reserved"):
            in_c[name] = place
        place += int(many or 1)
    if in_c != order:
        yield f"include/eskihrum.h: an eskihrum_answer has {in_c}, the definition {order}"
    shown = re.findall(r"^\| (\d+) \| `(\w+)` \|", (ROOT / "docs" / "C.md").read_text(encoding="utf-8"), re.M)
    if {name: int(place) for place, name in shown} != order:
        yield f"docs/C.md: the answer's table has {shown}, the definition {order}"
    places = re.findall(r"^pub const ([A-Z_]+): usize = (\d+);", FLAT.read_text(encoding="utf-8"), re.M)
    in_rust = {name.lower(): int(place) for name, place in places if name != "FIELDS"}
    if in_rust != order:
        yield f"rust/src/flat.rs: the places are {in_rust}, the definition has {order}"


def numbers():
    """The version and what the archive knows, wherever they are written."""
    header, flat = HEADER.read_text(encoding="utf-8"), FLAT.read_text(encoding="utf-8")
    version = re.search(r'^#define ESKIHRUM_VERSION "(.*)"$', header, re.M).group(1)
    cargo = re.search(r'^version = "(.*)"$', (ROOT / "rust" / "Cargo.toml").read_text(encoding="utf-8"), re.M)
    named = ROOT / "VERSION"
    for where, other in (
        ("rust/Cargo.toml", cargo.group(1)),
        ("VERSION", named.read_text(encoding="utf-8").strip() if named.is_file() else version),
    ):
        if other != version:
            yield f"include/eskihrum.h: ESKIHRUM_VERSION is {version}, and {where} has {other}"
    abi = re.search(r"^abi = (\d+)$", ABI.read_text(encoding="utf-8"), re.M).group(1)
    for where, pattern, text in (
        ("include/eskihrum.h", r"^#define ESKIHRUM_ABI (\d+)$", header),
        ("rust/src/flat.rs", r"^pub const ABI: u32 = (\d+);$", flat),
    ):
        other = re.search(pattern, text, re.M).group(1)
        if other != abi:
            yield f"{where}: the ABI is {other}, and crates/eskihrum has {abi}"


def rows():
    """(number, what is wrong, what to do) of each refusal."""
    for line in REFUSALS.read_text(encoding="utf-8").splitlines():
        cells = [cell.strip() for cell in line.strip("|").split("|")]
        if line.startswith("|") and cells[0].isdigit():
            yield int(cells[0]), cells[1], cells[3]


def quoted(words):
    return '"' + words.replace("\\", "\\\\").replace('"', '\\"') + '"'


def cut(words, room):
    """The words in parts that have at most `room` characters as a string; a part ends after a space."""
    parts = [""]
    for word in re.split(r"(?<= )", words):
        if len(quoted(parts[-1] + word)) > room:
            parts.append("")
        parts[-1] += word
    return parts


def in_c(number, words):
    """One case of a switch."""
    start = f"    case {number}: return "
    parts = cut(words, LONGEST_LINE - len(start) - len(";"))
    return start + ("\n" + " " * len(start)).join(quoted(part) for part in parts) + ";\n"


def in_rust(number, words):
    """One arm of a match, laid out as rustfmt does."""
    start = f"        {number} => "
    if len(start + quoted(words) + ",") <= LONGEST_LINE:
        return start + quoted(words) + ",\n"
    parts = cut(words, LONGEST_LINE - len(" " * 13))
    body = quoted("\0".join(parts)).replace("\0", "\\\n" + " " * 13)
    return start + "{\n" + " " * 12 + body + "\n        }\n"


def written(path, opened, closed, shape):
    """The file with the words of docs/REFUSALS.md between its marks."""
    text = path.read_text(encoding="utf-8")
    for mark, cell in (("texts", 1), ("advice", 2)):
        lines = "".join(shape(row[0], row[cell]) for row in rows())
        begin, end = f"{opened}{mark}: begin{closed}\n", f"{opened}{mark}: end{closed}"
        before, rest = text.split(begin)
        indent = before[before.rindex("\n") + 1:]
        text = before + begin + lines + indent + end + rest.split(end)[1]
    return text


WORDED = ((HEADER, "/* ", " */", in_c), (TEXTS, "// ", "", in_rust))


def words():
    for path, *shape in WORDED:
        if written(path, *shape) != path.read_text(encoding="utf-8"):
            where = path.relative_to(ROOT)
            yield f"{where}: not the words of docs/REFUSALS.md: run python3 checks/border.py --write"


def archive():
    """Exported are the functions of the source, needed are memcpy and memset, and nothing is kept."""
    listed = subprocess.run(["nm", str(ARCHIVE)], capture_output=True, text=True, check=False)
    if listed.returncode != 0:
        yield f"nm {ARCHIVE.relative_to(ROOT)}: {listed.stderr.strip()}"
        return
    kinds = {}
    for line in listed.stdout.splitlines():
        found = re.match(r"[0-9a-f ]{16} (\w) (.*)", line)
        if found:
            kinds.setdefault(found.group(1), set()).add(found.group(2))
    if kinds.get("T", set()) != set(exports()):
        yield f"the archive exports {sorted(kinds.get('T', set()))}, the source {sorted(exports())}"
    if kinds.get("U", set()) - NEEDED:
        yield f"the archive needs {sorted(kinds['U'])}, the header says {sorted(NEEDED)}"
    for kind in "bBdDsSgGC":
        if kind in kinds:
            yield f"the archive has variables: {sorted(kinds[kind])}"


def main():
    if sys.argv[1:] == ["--write"]:
        for path, *shape in WORDED:
            path.write_text(written(path, *shape), encoding="utf-8")
        return
    wrong = [*declarations(), *fields(), *numbers(), *words()]
    if sys.argv[1:] == ["--archive"]:
        wrong += archive()
    elif sys.argv[1:]:
        sys.exit(__doc__)
    for line in wrong:
        print(line)
    if wrong:
        sys.exit(f"border: {len(wrong)} to mend")
    print(f"border: {len(exports())} exported functions are declared alike in Rattle, C and Rust")


if __name__ == "__main__":
    main()
