#!/usr/bin/env python3
"""Checks the code on the pages for users of the crates.

usage: dev/checks/check_snippets.py [--no-run]

On the pages of PAGES each indented block without a `$` follows a paragraph that names a file in backquotes, as its
last one, and ends with a colon:

- A file of crates/: the block's lines stand in that file, one after another, apart from their indentation; a line `..`
  stands for any lines.
- Any other path: the block is that file, in an empty folder in which the page's commands are run, with `~/vt` for this
  repository. An indented line `$ COMMAND` is run there, and the lines after it are what it prints on standard output.
- A block after a paragraph without a file is for the reader alone. It may have no line of Rattle.

Prints a line for each difference, and ends with status 1 if there is one. The commands need `rt`; without it, and with
`--no-run`, none is run.
"""
import os
import pathlib
import re
import shutil
import subprocess
import sys
import tempfile

sys.dont_write_bytecode = True
sys.path.insert(0, str(pathlib.Path(__file__).resolve().parents[1]))

import repository  # noqa: E402,F401: it has the folders of the modules below
from check_pages import TOP, fits  # noqa: E402

GUIDE = TOP / "docs/guide/embed-a-crate.md"
PAGES = [TOP / "docs/library/hub.md", TOP / "docs/library/key-crates.md", TOP / "docs/reference/redraw.md", GUIDE]
SECONDS = 900
FILE = re.compile(r"`([\w/.-]+\.(?:rt|antt))`")
IS_RATTLE = re.compile(r"^\s*(?:let |fn |pub |use |impl |ghost |match |abbrev )", re.M)


def blocks(text):
    """Gives each indented block with the file that the paragraph before it names last, if that ends with a colon."""
    before, block = [], []
    for line in [*text.splitlines(), "end"]:
        if line.startswith("    ") or (block and not line.strip()):
            block.append(line[4:])
            continue
        if block:
            names = FILE.findall(" ".join(before)) if before[-1:] and before[-1].endswith(":") else []
            yield names[-1] if names else None, "\n".join(block).rstrip("\n") + "\n"
            before, block = [], []
        if line.strip():
            before.append(line.rstrip())
        elif before:
            before = before if before[-1].endswith(":") else []


def stands_in(block, file):
    """Whether the block's lines stand in the file, apart from their indentation."""
    wanted = [line.strip() for line in block.splitlines() if line.strip()]
    given = "".join(line.strip() + "\n" for line in file.read_text(encoding="utf-8").splitlines() if line.strip())
    pattern = "".join("(?:.*\n)*?" if line == ".." else re.escape(line) + "\n" for line in wanted)
    return re.search("^" + pattern, given, re.M) is not None


def quote_faults(page):
    place = page.relative_to(TOP)
    for named, block in blocks(page.read_text(encoding="utf-8")):
        if block.startswith("$ "):
            continue
        if named and named.startswith("crates/"):
            if not (TOP / named).exists():
                yield f"{place}: {named}: no such file"
            elif not stands_in(block, TOP / named):
                yield f"{place}: these lines don't stand in {named}:\n{block}"
        elif not named and IS_RATTLE.search(block):
            yield f"{place}: no file is named for\n{block}"


def commands(block):
    """Gives each command of a block with the lines after it."""
    for part in re.split(r"^\$ ", block, flags=re.M)[1:]:
        command, *lines = part.splitlines()
        yield command, lines


def run_faults(page, home):
    """Runs the commands of a page in an empty folder, with the files that the page shows."""
    (home / "vt").symlink_to(TOP)
    folder = home / "empty"
    folder.mkdir()
    for named, block in blocks(page.read_text(encoding="utf-8")):
        if named and not named.startswith("crates/"):
            file = folder / named
            file.parent.mkdir(parents=True, exist_ok=True)
            file.write_text(block, encoding="utf-8")
        for command, lines in commands(block):
            run = {"cwd": folder, "env": {**os.environ, "HOME": str(home)}, "stdin": subprocess.DEVNULL}
            try:
                ran = subprocess.run(["bash", "-c", command], timeout=SECONDS, capture_output=True, check=False, **run)
            except subprocess.TimeoutExpired:
                yield f"{page.name}: `{command}` runs for over {SECONDS} seconds"
                return
            printed = ran.stdout.decode("utf-8", "replace").splitlines()
            if not fits(lines, printed):
                said = ran.stderr.decode("utf-8", "replace")[-2000:]
                yield f"{page.name}: `{command}` prints something else:\n" + "\n".join([*printed[:12], said])


def main():
    faults = [fault for page in PAGES for fault in quote_faults(page)]
    if shutil.which("rt") and "--no-run" not in sys.argv[1:]:
        with tempfile.TemporaryDirectory() as home:
            faults += run_faults(GUIDE, pathlib.Path(home))
    for fault in faults:
        print(fault)
    return 1 if faults else 0


if __name__ == "__main__":
    sys.exit(main())
