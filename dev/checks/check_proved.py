#!/usr/bin/env python3
"""Checks that what the pages of docs/proofs/ cite of the proofs exists.

A section `## CRATE` may have tables whose first column is headed "what holds": what holds, what proves it, and where
its words are defined. What proves it is groups with `; ` between: calls, a colon, and clauses, of which every call of
the group has every one as an `ensures` or a `requires` in the crate's src/ ("its clause" is an `ensures` without a
name; of `Type::output` it is the text that `Display` promises for the type, and of `Type::from_gives` the promise of a
`From`); or `type` and names of types. A definition is a file of the crate's specs/, or CRATE/specs/FILE of another one,
with names in parentheses that it defines. A crate has one section in all pages.

The table of docs/proofs/wrong-bodies.md has a row for each of the named wrong bodies, whose second column names edits,
as CRATE/must-fail/NAME.edit or CRATE/wrong/NAME.edit, or tests: a file of a crate of tests with the test's name in
parentheses, or `cases` with that of a case. Each has to be there; and every edit of every crate changes files of its
src/ alone, since one of a definition or a proof shows nothing.

Prints a line for each fault, and ends with status 1 if there is one.
"""
import pathlib
import re
import sys

sys.dont_write_bytecode = True
sys.path.insert(0, str(pathlib.Path(__file__).resolve().parents[1]))

from repository import TOP  # noqa: E402: after the folder that it stands in

PROOFS = TOP / "docs/proofs"
HELD = "what holds"
NAMES = re.compile(r"`([^`]+)`")
UNNAMED = "its clause"
# A call's first line: whether it is public, whether C calls it, and its name.
CALL = re.compile(r'\s*(pub )?(?:const )?(extern "C" )?fn (\w+)')
DEFINES = "(?:abbrev|record|data|pub|inductive|opaque|unfoldable)"
WRONG_BODIES = (
    "Switch without release", "Death leaves the switch pending", "Wait that only polls", "Write that forgets the rest",
    "Caps lock as shift", "Release looked up again", "Journal sorted by caller", "Two readers, same bytes",
    "Lenient journal reader: a leading zero", "Lenient journal reader: two blanks", "Lost write",
    "Release with nothing pending", "Constant answer: Usage", "Constant answer: ReadFault",
    "Constant answer: WriteFault", "Constant answer: TooLong", "Constant answer: Refused", "Constant answer: JournalFull",
    "Constant answer: Illegal",
    "Deaf worker: each act", "Deaf worker: it ends", "Race played on one thread", "Always out of memory",
    "Display behind the lock", "A dump that writes one line with a single symbol",
)  # fmt: skip


def owners(line):
    """Gives the names under which the functions of an `impl` or a `trait` are cited."""
    found = re.match(r"(?:pub )?(?:impl|trait)\b(.*)", line)
    if not found:
        return None
    rest = re.sub(r"^<[^>]*>", "", found[1].strip())
    if " for " in rest:
        rest = rest.split(" for ", 1)[1]
    return re.findall(r"(?:\w+::)*(\w+)", rest)[:1]


def calls_of(crate):
    """Gives each function of a crate's src/, as `name` or `Type::name`, with the names of its clauses."""
    found = {}
    for file in sorted((TOP / "crates" / crate / "src").rglob("*.rt")):
        owner, clauses = [], None
        for line in file.read_text(encoding="utf-8").splitlines():
            if line.startswith("}"):
                owner = []
            owner = owners(line) or owner
            ghost = re.match(r"\s*ghost (output|from_gives) = \{", line)
            if ghost and owner:
                found.setdefault(f"{owner[0]}::{ghost[1]}", set()).add(UNNAMED)
            call = CALL.match(line)
            if call:
                name = f"{owner[0]}::{call[3]}" if owner else call[3]
                clauses = found.setdefault(name, set())
            clause = re.match(r"\s*(ensures|requires)\*? *(\w*) *\{", line)
            if clause and clauses is not None and (clause[2] or clause[1] == "ensures"):
                clauses.add(clause[2] or UNNAMED)
    return found


def types_of(crate):
    """Gives the names of the types and traits of a crate's src/."""
    texts = [it.read_text(encoding="utf-8") for it in (TOP / "crates" / crate / "src").rglob("*.rt")]
    return set(re.findall(r"^\s*(?:pub )?(?:struct|enum|trait) (\w+)", "\n".join(texts), re.M))


def carrier_faults(crate, cell):
    calls = calls_of(crate)
    for group in filter(None, cell.split("; ")):
        if group.startswith("type "):
            yield from (f"no type {name}" for name in NAMES.findall(group) if name not in types_of(crate))
            continue
        cited, _, clauses = group.partition(": ")
        wanted = NAMES.findall(clauses) + [UNNAMED] * (UNNAMED in clauses)
        if not NAMES.findall(cited) or not wanted:
            yield f"no calls with clauses: {group}"
        for name in NAMES.findall(cited):
            if name not in calls:
                yield f"no call {name}"
            else:
                yield from (f"{name} has no clause {it}" for it in wanted if it not in calls[name])


def definition_faults(crate, cell):
    for file, names in re.findall(r"`([^`]+\.antt)`(?: \(([^)]*)\))?", cell):
        path = TOP / "crates" / file if "/specs/" in file else TOP / "crates" / crate / "specs" / file
        if not path.exists():
            yield f"no file {file}"
            continue
        text = path.read_text(encoding="utf-8")
        for name in NAMES.findall(names):
            if not re.search(rf"^\s*(?:{DEFINES} +)+{re.escape(name)}\b", text, re.M):
                yield f"{file} defines no {name}"


def tables_of(page):
    """Gives each row of a page's tables: the line's number, the section, the table's first heading, and the cells."""
    section, heading = "", None
    for number, line in enumerate(page.read_text(encoding="utf-8").splitlines(), 1):
        if line.startswith("#"):
            section, heading = line.lstrip("#").strip(), None
        elif not line.startswith("|"):
            heading = None
        else:
            cells = [it.strip() for it in line.strip().removeprefix("|").removesuffix("|").split(" | ")]
            if heading is None:
                heading = cells[0]
            elif not set(line) <= set("|- :"):
                yield number, section, heading, cells


def page_faults(page):
    """Goes through a page's tables of what holds, under the sections that name their crates."""
    for number, crate, heading, cells in tables_of(page):
        if heading != HELD:
            continue
        place = f"{page.name}:{number}: {crate}"
        if not (TOP / "crates" / crate / "src").is_dir():
            yield f"{place}: no crate"
        elif len(cells) != 3:
            yield f"{place}: a row of three columns is wanted"
        else:
            faults = [*carrier_faults(crate, cells[1]), *definition_faults(crate, cells[2])]
            yield from (f"{place}: {fault}" for fault in faults)


def section_faults(pages):
    """Gives a fault for each crate that has sections on several places."""
    places = {}
    for page in pages:
        for name in re.findall(r"^## (\w+)$", page.read_text(encoding="utf-8"), re.M):
            places.setdefault(name, []).append(page.name)
    return [f"{name} has sections in {', '.join(found)}" for name, found in places.items() if len(found) > 1]


def refusal_faults(cell):
    """What is wrong with the edits and tests that a row of wrong bodies names."""
    edits = re.findall(r"`(\w+/(?:must-fail|wrong)/\w+\.edit)`", cell)
    tests = re.findall(r"`(\w+(?:/src/[\w/]+\.rt)?)` \(`([^`]+)`\)", cell)
    if not edits and not tests:
        yield f"no edit and no test: {cell}"
    yield from (f"no edit {edit}" for edit in edits if not (TOP / "crates" / edit).exists())
    for place, name in tests:
        path = TOP / "crates" / (place if "/" in place else f"{place}/stdin")
        wanted = rf"#\[test\]\nfn {name}\(" if "/" in place else rf"^case {re.escape(name)}$"
        if not path.exists() or not re.search(wanted, path.read_text(encoding="utf-8"), re.M):
            yield f"{place} has no {name}"


def wrong_body_faults(page):
    """Goes through the table of wrong bodies: each named one has a row, and what a row names is there."""
    rows = []
    for number, _, heading, cells in tables_of(page):
        if heading == "wrong body":
            rows.append(cells[0])
            faults = refusal_faults(cells[1]) if len(cells) == 3 else ["a row of three columns is wanted"]
            yield from (f"{page.name}:{number}: {fault}" for fault in faults)
    for name in WRONG_BODIES:
        if not any(row.startswith(name) for row in rows):
            yield f"{page.name}: no row of the wrong body: {name}"


def edit_faults():
    """Each edit that changes something else than code."""
    for edit in sorted([*(TOP / "crates").glob("*/must-fail/*.edit"), *(TOP / "crates").glob("*/wrong/*.edit")]):
        for number, line in enumerate(edit.read_text(encoding="utf-8").splitlines(), 1):
            if line.startswith("file: ") and not line.startswith("file: src/"):
                yield f"{edit.relative_to(TOP)}:{number}: it changes {line[6:]}, which is no code"


def main():
    pages = sorted(PROOFS.glob("*.md"))
    faults = [*(fault for page in pages for fault in page_faults(page)), *section_faults(pages)]
    faults += [*wrong_body_faults(PROOFS / "wrong-bodies.md"), *edit_faults()]
    for fault in faults:
        print(fault)
    return 1 if faults else 0


if __name__ == "__main__":
    sys.exit(main())
