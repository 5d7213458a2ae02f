#!/usr/bin/env python3
"""Checks docs/TRACE.md, from the repository's root:

    python3 tools/trace.py                     every name and path in it is there, a function in the module that its
                                               path names; every wrong program, every public function of a library
                                               crate and every program stands in it; and every wrong program stands
                                               once in the table of docs/EVIDENCE.md
    python3 tools/trace.py PATH                PATH is document 01: every sentence of it has a row as well
    python3 tools/trace.py --sentences PATH    prints document 01's sentences with their numbers

It prints what is missing and ends with status 1, or prints what it counted and ends with 0."""
import re
import sys
from functools import lru_cache
from pathlib import Path

CRATES = Path("crates")
# In these columns every name is checked; in a column of programs a name without a crate is a crate's; what is asked is prose; in the others
# names without a crate are checked after one with a crate.
NAMES, PROGRAMS, PROSE = {"Definition", "Shown", "Code", "Where"}, {"Test"}, {"01", "Demand", "What", "What is asked", "Form", "Question", "Form of the Rust"}


def rows(text):
    """The rows of the tables, as (line number, column, cell)."""
    columns = None
    for number, line in enumerate(text.split("\n"), 1):
        if not line.startswith("|"):
            columns = None
            continue
        cells = [cell.strip() for cell in line.split("|")[1:-1]]
        if columns is None:
            columns = cells
        elif set(line) - set("|-: "):
            if len(cells) != len(columns):
                sys.exit(f"docs/TRACE.md:{number}: {len(cells)} cells under {len(columns)} columns")
            for column, cell in zip(columns, cells):
                yield number, column, cell


@lru_cache(None)
def defined(crate, file):
    """The names that an .antt file of a crate's specs or proofs defines, fields of records among them; None where there is no such file."""
    found = [path for part in ("specs", "proofs") for path in [CRATES / crate / part / f"{file}.antt"] if path.is_file()]
    if not found:
        return None
    words = r"(?:unfoldable|abbrev|pub|record|data|ruleset|instance)\s+"
    return {name for path in found for name in re.findall(rf"^\s*(?:{words})*([^\s:(){{}}]+)\s*(?:[:({{]|$)", path.read_text(), re.M)}


@lru_cache(None)
def modules(crate):
    """The modules that a crate's root file makes public."""
    root = CRATES / crate / "src/lib.rt"
    return re.findall(r"^pub mod (\w+);", root.read_text(), re.M) if root.is_file() else []


@lru_cache(None)
def source(crate, module=None):
    """A module's source, or what a crate has outside its public modules."""
    folder = CRATES / crate / "src"
    own = [folder / f"{module}.rt", *(folder / module).rglob("*.rt")] if module else folder.rglob("*.rt")
    left_out = [] if module else [folder / f"{name}.rt" for name in modules(crate)]
    return "\n".join(path.read_text() for path in sorted(own) if path.is_file() and path not in left_out)


def placed(crate, name):
    """The module that a name such as `place::Word::at` begins with, or None; and the name after it."""
    module, _, rest = name.partition("::")
    there = (CRATES / crate / "src" / f"{module}.rt").is_file() and (rest or not in_source(crate, None, module))
    return (module, rest) if there else (None, name)


def in_source(crate, module, name):
    """Whether a source declares the last part of a name such as `Ptr::new`. A module named alone is there with its file."""
    return not name or re.search(rf"\b(?:fn|struct|enum|trait|const|static)\s+{re.escape(name.split('::')[-1])}\b", source(crate, module)) is not None


def missing(column, token, last):
    """Why a token of a cell is not there, or None; and what a name without a crate after it belongs to: ("file", crate, file) or ("source", crate, module)."""
    crate, _, name = token.partition("/")
    if name and (Path(token).exists() or (CRATES / crate / "must-fail" / f"{name}.edit").is_file()):
        return None, last
    if name:
        file, _, name = name.partition(".")
        names = defined(crate, file)
        if names is None:
            return "no path, no wrong program, no file of specs or proofs", last
        return (None if not name or name in names else f"{file}.antt of {crate} has no {name}"), ("file", crate, file)
    crate, _, name = token.partition("::")
    if name:
        module, rest = placed(crate, name)
        where = f"module {module} of {crate}" if module else f"the source of {crate} beside its modules"
        return (None if in_source(crate, module, rest) else f"no {rest} in {where}"), ("source", crate, module) if rest else last
    if column in PROGRAMS:
        return (None if (CRATES / token).is_dir() else "no such program"), last
    if column in NAMES and last:
        kind, *where = last
        there = token in defined(*where) if kind == "file" else in_source(*where, token)
        return (None if there else f"no {token} in {kind} {where[1] or ''} of {where[0]}"), last
    return (None if column not in NAMES or (CRATES / token).is_dir() else "no such crate"), last


def sentences(path):
    """Document 01's sentences with their numbers: section and sentence. A list's item begins a sentence; the listing is none."""
    section, count, listing = -1, 0, False
    for line in Path(path).read_text().split("\n"):
        if line.startswith("```"):
            listing = not listing
        elif line.startswith("#"):
            section, count = section + 1, 0
        elif line.strip() and not listing:
            for sentence in re.split(r'(?<=[.?])\s+(?=[A-Z*`"])', re.sub(r"^(- |\d+\. )", "", line)):
                count += 1
                yield f"{section}.{count}", sentence


def public_functions():
    """The public functions of library crates, as (crate, module or None, name)."""
    for lib in sorted(CRATES.glob("*/src/lib.rt")):
        crate = lib.parts[1]
        for module in [None, *modules(crate)]:
            for name in re.findall(r'^\s*pub (?:extern "C" )?fn (\w+)', source(crate, module), re.M):
                yield crate, module, name


def main(arguments):
    if arguments[:1] == ["--sentences"]:
        for number, sentence in sentences(arguments[1]):
            print(number, sentence)
        return []
    text = Path("docs/TRACE.md").read_text()
    wrong, tokens, numbers, functions = [], set(), set(), set()
    for line, column, cell in rows(text):
        if column == "01":
            numbers.update(cell.split(", "))
        if column in PROSE:
            continue
        last = None
        for token in re.findall(r"`([^`]*)`", cell) + re.findall(r"\b(docs/\w+\.md)", cell):
            tokens.add(token)
            why, last = missing(column, token, last)
            if why:
                wrong.append(f"docs/TRACE.md:{line}: `{token}`: {why}")
            if last and last[0] == "source" and "/" not in token:
                name = token.split("::")[-1]
                functions.update([(*last[1:], name), (last[1], None, name)])
    edits = [f"{path.parts[1]}/{path.stem}" for path in sorted(CRATES.glob("*/must-fail/*.edit"))]
    programs = [path.parts[1] for path in sorted(CRATES.glob("*/src/main.rt"))]
    public = list(public_functions())
    wrong += [f"in no row: the wrong program `{edit}`" for edit in edits if edit not in tokens]
    held = re.findall(r"^\| `(\w+/\w+)`", Path("docs/EVIDENCE.md").read_text(), re.M)
    wrong += [f"docs/EVIDENCE.md holds no wrong program `{edit}`, or twice" for edit in edits if held.count(edit) != 1]
    wrong += [f"docs/EVIDENCE.md: no wrong program `{label}`" for label in held if label not in edits]
    wrong += [f"in no row: the public function `{'::'.join(filter(None, found))}`" for found in public if found not in functions]
    wrong += [f"in no row: the program `{program}`" for program in programs if program not in tokens]
    counted = f"{len(tokens)} names and paths, all there; in a row each: {len(edits)} wrong programs, {len(public)} public functions, {len(programs)} programs"
    if arguments:
        asked = [number for number, _ in sentences(arguments[0])]
        wrong += [f"in no row: sentence {number} of document 01" for number in asked if number not in numbers]
        wrong += [f"docs/TRACE.md: document 01 has no sentence {number}" for number in sorted(numbers - set(asked))]
        counted += f", {len(asked)} sentences of document 01"
    if not wrong:
        print(counted)
    return wrong


if __name__ == "__main__":
    found = main(sys.argv[1:])
    print("\n".join(found), end="\n" if found else "")
    sys.exit(1 if found else 0)
