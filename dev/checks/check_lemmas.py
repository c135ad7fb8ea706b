#!/usr/bin/env python3
"""Checks the list of lemmas that proofs cite across crates.

usage: dev/checks/check_lemmas.py [--write]

A proof of one crate names a module of another crate's proofs by a line `use Rattle.CRATE.proofs.MODULE`, and a function
by `CRATE::proofs::MODULE::LEMMA` in its `tactic`. The list is the table under "Lemmas that are cited across crates" in
docs/contributing/architecture.md: a row has the crate that cites, the crate that is cited, and the modules of its
proofs. The modules of std aren't listed, nor is `Stated`, which has a crate's laws for other crates. Prints a line for
each row that is missing, for each that no file needs, and for each that isn't of this form; then the status is 1.
`--write` writes the rows as they have to be.
"""
import pathlib
import re
import sys

sys.dont_write_bytecode = True
sys.path.insert(0, str(pathlib.Path(__file__).resolve().parents[1]))

from repository import TOP  # noqa: E402: after the folder that it stands in

PAGE = TOP / "docs/contributing/architecture.md"
HEADING = "## Lemmas that are cited across crates"
CITED = re.compile(r"(?:\bRattle\.|(?<!\w))(\w+)(?:\.|::)proofs((?:(?:\.|::)\w+)+)")
ROW = re.compile(r"\| `(\w+)` \| `(\w+)` \| (`[\w.]+`(?:, `[\w.]+`)*) \|")


def module_of(crate, names):
    """Gives the module among the names after `proofs`: those that stand before the name of a lemma."""
    parts = names.replace("::", ".").strip(".").split(".")
    folder = TOP / "crates" / crate / "proofs"
    for length in range(len(parts), 0, -1):
        if (folder.joinpath(*parts[:length])).with_suffix(".antt").exists():
            return ".".join(parts[:length])
    # The crates of the kit are not in this tree. Names of modules begin with a capital letter, those of lemmas don't.
    capitals = [part for part in parts if part[0].isupper()]
    return ".".join(capitals) or parts[0]


def cited():
    """Gives the rows that the files need, each with one file that needs it."""
    found = {}
    for folder in sorted((TOP / "crates").iterdir()):
        for kind in ("proofs", "specs", "src"):
            for file in sorted((folder / kind).rglob("*")):
                if file.suffix not in (".antt", ".rt"):
                    continue
                for crate, names in CITED.findall(file.read_text(encoding="utf-8")):
                    if crate not in (folder.name, "crate", "std"):
                        row = (folder.name, crate, module_of(crate, names))
                        if row[2] != "Stated":
                            found.setdefault(row, file.relative_to(TOP))
    return found


def listed():
    """Gives the rows of the page, and the lines of the table that have another form."""
    rows, faults, is_there = {}, [], False
    for number, line in enumerate(PAGE.read_text(encoding="utf-8").splitlines(), 1):
        is_there = line == HEADING or is_there and not line.startswith("## ")
        if not is_there or not line.startswith("| `"):
            continue
        row = ROW.fullmatch(line)
        if row is None:
            faults.append(f"{PAGE.name}:{number}: not a row of three columns: {line}")
            continue
        for module in re.findall(r"`([\w.]+)`", row[3]):
            rows[row[1], row[2], module] = number
    return rows, faults


def write_rows(rows):
    """Writes the rows into the page's table."""
    modules = {}
    for citing, crate, module in sorted(rows):
        modules.setdefault((citing, crate), []).append(f"`{module}`")
    lines = [f"| `{citing}` | `{crate}` | {', '.join(names)} |\n" for (citing, crate), names in modules.items()]
    before, heading, after = PAGE.read_text(encoding="utf-8").partition(f"{HEADING}\n")
    table = re.sub(r"(\|---\|---\|---\|\n)(?:\|.*\n)*", lambda head: head[1] + "".join(lines), after, count=1)
    PAGE.write_text(before + heading + table, encoding="utf-8")


def main():
    if not PAGE.exists():
        print(f"no page {PAGE.relative_to(TOP)}")
        return 1
    needed = cited()
    if "--write" in sys.argv[1:]:
        write_rows(needed)
        return 0
    rows, faults = listed()
    faults += [
        f"{PAGE.name}: no row of `{row[0]}` that cites `{row[2]}` of `{row[1]}` ({file})"
        for row, file in sorted(needed.items())
        if row not in rows
    ]
    faults += [
        f"{PAGE.name}:{number}: no file of `{row[0]}` cites `{row[2]}` of `{row[1]}`"
        for row, number in sorted(rows.items())
        if row not in needed
    ]
    for fault in faults:
        print(fault)
    return 1 if faults else 0


if __name__ == "__main__":
    sys.exit(main())
