#!/usr/bin/env python3
"""Checks docs/proofs/ against the public calls of the libraries that crates.txt lists.

usage: dev/checks/check_promises.py [--write]

A public call is a `pub fn` that a user of the crate can name, a `pub extern "C" fn`, one of a public trait of this
repository, or such a trait's at a public type. A section `## CRATE` has a line `Laws: ..`, a table whose first column is headed "call", or
both, and each call is once in them. A law returns nothing and changes nothing. A row has five cells:

- calls;
- whether they may wait: `no` exactly if the signature, with the head of its `impl`, has neither `Wait` nor `Threads`;
- whether they take memory: `no` exactly if it has no allocator and no `Seat`, which has one;
- the other answers, by clauses that every call of the row has ("its clause" has no name), or `none`, which no call that
  returns an Option, a Result or a bool has;
- what is lent, which is `nothing lent` exactly if nothing is lent to be changed.

NoMemory has no clause; any other answer without one is "no clause". Every call of a cell with "no clause", and every
call without an `ensures`, is named as `CRATE::CALL` in docs/proofs/unproved.md under "What no clause states".
docs/proofs/README.md has one sentence "N calls may wait for ever: ..", up to a semicolon, with the calls whose rows
have that they may.
Prints a line for each fault, and ends with status 1 if there is one. `--write` first writes the two columns that follow
from signatures, whether calls wait and whether they take memory, where a cell has the opposite.
"""
import pathlib
import re
import sys

sys.dont_write_bytecode = True
sys.path.insert(0, str(pathlib.Path(__file__).resolve().parents[1]))

import repository  # noqa: E402,F401: it has the folders of the modules below
from check_proved import CALL, NAMES, PROOFS, TOP, UNNAMED, owners, tables_of  # noqa: E402

HOLES_PAGE = PROOFS / "unproved.md"
HOLES = "## What no clause states"
CALLED = "call"
MISSING = "no clause"
LENT_NOTHING = "nothing lent"
ALLOCATOR = re.compile(r"alloc: |\bSeat<")
WAITING = re.compile(r"\b(?:Wait|Threads)\b")
MAY_WAIT = "may"
WAIT_PAGE = PROOFS / "README.md"
WAIT_LIST = re.compile(r"(\w+)\s+calls\s+may\s+wait\s+for\s+ever:([^;]*);")
COUNTS = ("No", "One", "Two", "Three", "Four", "Five", "Six", "Seven", "Eight", "Nine", "Ten", "Eleven", "Twelve")


def libraries():
    """Gives the libraries of crates.txt that have public calls of their own."""
    names = re.findall(r"^(\w+)[^:#\n]*:", (TOP / "crates.txt").read_text(encoding="utf-8"), re.M)
    return [name for name in names if (TOP / "crates" / name / "src" / "lib.rt").exists()]


def exports_of(file):
    """Gives the names that a root file, and the public modules under it, make public."""
    text = file.read_text(encoding="utf-8")
    names = set(re.findall(r"^pub (?:const )?(?:fn|struct|enum|trait) (\w+)", text, re.M))
    for path in re.findall(r"^pub use ([^;]+);", text, re.M):
        last = path[path.index("{"):] if "{" in path else path.rsplit("::", 1)[-1]
        names.update(it.split(" as ")[-1].strip() for it in last.strip("{}").split(","))
    for name in re.findall(r"^pub mod (\w+);", text, re.M):
        folder = file.parent if file.stem == "lib" else file.with_suffix("")
        names |= exports_of(folder / f"{name}.rt")
    return names


def traits():
    """Gives the names of the public traits of this repository."""
    files = [file for crate in libraries() for file in (TOP / "crates" / crate / "src").rglob("*.rt")]
    return {name for file in files for name in re.findall(r"^pub trait (\w+)", file.read_text(encoding="utf-8"), re.M)}


def signature_at(lines):
    """Gives the lines of a signature, up to its contract or its body, as one."""
    taken = []
    for line in lines:
        if re.match(r"\s*(requires|ensures|where|\{)", line):
            break
        taken.append(line.strip())
        if re.search(r"[{;}]$", line):
            break
    return " ".join(taken)


def promised_at(lines):
    """Gives the names of the `ensures` of the contract that stands in the lines after a signature."""
    names = set()
    for line in lines:
        if re.match(r"\s*(\{\}?)?$", line):
            break
        clause = re.match(r"\s*ensures\*? *(\w*) *\{", line)
        if clause:
            names.add(clause[1] or UNNAMED)
    return names


def public_calls(crate, known):
    """Gives the signature, with the head of its `impl`, and the promises of each public call, by its name."""
    source = TOP / "crates" / crate / "src"
    exports, found = exports_of(source / "lib.rt"), {}
    for file in sorted(source.rglob("*.rt")):
        lines = file.read_text(encoding="utf-8").split("\nmod tests {")[0].splitlines()
        owner, head, is_open = [], "", False
        for number, line in enumerate(lines):
            if line.startswith("}"):
                owner, head, is_open = [], "", False
            if owners(line):
                owner, head = owners(line), line
                of_trait = re.search(r"(\w+)(?:<.*>)? for ", line)
                is_open = line.startswith("pub trait") or bool(of_trait and of_trait[1] in known)
            call = CALL.match(line)
            shown = call and ((owner[0] if owner else call[3]) in exports or call[2])
            if shown and (call[1] or is_open):
                name = f"{owner[0]}::{call[3]}" if owner else call[3]
                found[name] = (f"{head} {signature_at(lines[number:])}", promised_at(lines[number:]))
    return found


def clause_faults(name, cell, clauses):
    wanted = NAMES.findall(cell) + [UNNAMED] * (UNNAMED in cell)
    yield from (f"{name} has no clause {it}" for it in wanted if it not in clauses)


def may_wait(signature):
    return bool(WAITING.search(signature))


def takes_memory(signature):
    return bool(ALLOCATOR.search(signature.rpartition("->")[0] or signature))


def row_faults(name, signature, cells, clauses):
    waits, memory, answers, lent = cells
    result = signature.rpartition("->")[2] if "->" in signature else ""
    if (waits == "no") == may_wait(signature):
        yield f"{name}: whether it may wait"
    if (memory == "no") == takes_memory(signature):
        yield f"{name}: whether it takes memory"
    if answers == "none":
        if re.match(r" (Option|Result|bool)\b", result):
            yield f"{name} has another answer"
        if lent:
            yield f"{name}: it has no other answer to leave anything"
        return
    for group in answers.split("; "):
        if group != "NoMemory" and MISSING not in group and not NAMES.findall(group) and UNNAMED not in group:
            yield f"{name}: no clause for {group}"
    if re.search(r"NoMemory|Error", result) and memory != "no" and "NoMemory" not in answers:
        yield f"{name} may answer NoMemory"
    if (lent == LENT_NOTHING) == ("&mut" in (signature.rpartition("->")[0] or signature)):
        yield f"{name}: what is lent"
    if lent != LENT_NOTHING and MISSING not in lent and not NAMES.findall(lent) and UNNAMED not in lent:
        yield f"{name}: no clause for what is lent"
    yield from clause_faults(name, answers, clauses)
    yield from clause_faults(name, lent, clauses)


def with_columns(page, calls):
    """The text of a page with the cells that follow from signatures."""
    lines = page.read_text(encoding="utf-8").split("\n")
    for number, crate, heading, cells in tables_of(page):
        found = [calls.get(crate, {}).get(name) for name in NAMES.findall(cells[0])]
        if heading != CALLED or len(cells) != 5 or None in found:
            continue
        for column, of, word in ((1, may_wait, MAY_WAIT), (2, takes_memory, "takes")):
            if all(of(signature) == (cells[column] == "no") for signature, _ in found):
                cells[column] = word if cells[column] == "no" else "no"
                lines[number - 1] = f"| {' | '.join(cells)} |"
    return "\n".join(lines)


def law_faults(name, signature):
    if "->" in signature or "&mut" in signature:
        yield f"{name} is no law"


def wait_list_faults(waiting):
    """Compares the page's sentence on the calls that may wait with those of the rows."""
    found = WAIT_LIST.findall(WAIT_PAGE.read_text(encoding="utf-8"))
    if len(found) != 1:
        yield f"{WAIT_PAGE.name}: {len(found)} sentences \"N calls may wait for ever: ..;\", one is wanted"
        return
    count, listed = found[0][0], NAMES.findall(found[0][1])
    yield from (f"{name} may wait, and isn't in the list of {WAIT_PAGE.name}" for name in sorted(waiting - set(listed)))
    yield from (f"{name} is in the list of {WAIT_PAGE.name}, and its row has that it doesn't wait"
                for name in sorted(set(listed) - waiting))
    if listed != list(dict.fromkeys(listed)) or count != dict(enumerate(COUNTS)).get(len(listed)):
        yield f"{WAIT_PAGE.name}: the list of the calls that may wait has {len(listed)}, and the page counts {count}"


def listed_rows(page):
    """Gives each law as its section and name, and each row of a table of calls as its section and cells."""
    text = page.read_text(encoding="utf-8")
    laws = []
    for name, body in re.findall(r"^## (\w+)$([\s\S]*?)(?=^## |\Z)", text, re.M):
        for paragraph in re.findall(r"^Laws: (?:.+\n)+", body, re.M):
            laws += [(name, law) for law in NAMES.findall(paragraph)]
    rows = [(section, cells) for _, section, heading, cells in tables_of(page) if heading == CALLED]
    return laws, rows


def crate_faults(crate, laws, rows, calls, holes):
    """Goes through the laws and the rows of a crate."""
    listed = list(laws)
    for law in laws:
        if law not in calls:
            yield f"{crate}: no call {law}"
        else:
            yield from (f"{crate}: {fault}" for fault in law_faults(law, calls[law][0]))
    for cells in rows:
        if len(cells) != 5:
            yield f"{crate}: no row of five cells: {' | '.join(cells)}"
            continue
        for name in NAMES.findall(cells[0]):
            listed.append(name)
            if name not in calls:
                yield f"{crate}: no call {name}"
                continue
            signature, clauses = calls[name]
            yield from (f"{crate}: {fault}" for fault in row_faults(name, signature, cells[1:], clauses))
            if any(MISSING in cell for cell in cells) and f"{crate}::{name}" not in holes:
                yield f"{crate}: {name} isn't named under \"{HOLES[3:]}\""
    yield from (f"{crate}: no row of {name}" for name in calls if name not in listed)
    yield from (f"{crate}: two rows of {name}" for name in sorted(set(listed)) if listed.count(name) > 1)
    for name, (_, clauses) in calls.items():
        if not clauses and f"{crate}::{name}" not in holes:
            yield f"{crate}: {name} has no clause, and isn't named under \"{HOLES[3:]}\""


def main():
    known = traits()
    calls = {crate: public_calls(crate, known) for crate in libraries()}
    if sys.argv[1:] == ["--write"]:
        for page in sorted(PROOFS.glob("*.md")):
            page.write_text(with_columns(page, calls), encoding="utf-8")
    laws, rows = {}, {}
    for page in sorted(PROOFS.glob("*.md")):
        laws_of_page, rows_of_page = listed_rows(page)
        for crate, name in laws_of_page:
            laws.setdefault(crate, []).append(name)
        for crate, cells in rows_of_page:
            rows.setdefault(crate, []).append(cells)
    _, _, holes = HOLES_PAGE.read_text(encoding="utf-8").partition(f"\n{HOLES}\n")
    named, faults = set(re.findall(r"`(\w+::[\w:]+)`", holes.partition("\n## ")[0])), []
    for crate, names in calls.items():
        faults += crate_faults(crate, laws.pop(crate, []), rows.get(crate, []), names, named)
    faults += [f"no library {crate}" for crate in {*laws, *rows} - set(calls)]
    waiting = {name for cells in sum(rows.values(), []) if len(cells) > 1 and cells[1] == MAY_WAIT
               for name in NAMES.findall(cells[0])}
    faults += wait_list_faults(waiting)
    every = {f"{crate}::{name}" for crate, names in calls.items() for name in names}
    faults += [f"{HOLES_PAGE.name}: no call {name}" for name in sorted(named - every)]
    for fault in faults:
        print(fault)
    return 1 if faults else 0


if __name__ == "__main__":
    sys.exit(main())
