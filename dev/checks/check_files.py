#!/usr/bin/env python3
"""Checks the files of the repository: the line of handles, the length of files, and the form of the manual pages.

usage: dev/checks/check_files.py

HANDLES is its one line. No file of a crate has more than 400 lines. mandoc has nothing to say of man/, except of pages
of other packages that aren't installed; without mandoc a line says that this is skipped. Prints a line for each fault,
and ends with status 1 if there is one.
"""
import pathlib
import shutil
import subprocess
import sys

sys.dont_write_bytecode = True
sys.path.insert(0, str(pathlib.Path(__file__).resolve().parents[1]))

from repository import TOP  # noqa: E402: after the folder that it stands in

HANDLES = "Handles allowed: Threads, Wait.\n"
MOST_LINES = 400


def faults():
    file = TOP / "HANDLES"
    if not file.is_file() or file.read_text(encoding="utf-8", errors="replace") != HANDLES:
        yield "HANDLES isn't its one line"
    for crate in sorted((TOP / "crates").iterdir()):
        for part in ("src", "specs", "proofs"):
            for file in sorted((crate / part).rglob("*")):
                if file.suffix in (".rt", ".antt"):
                    lines = file.read_text(encoding="utf-8").count("\n")
                    if lines > MOST_LINES:
                        yield f"{file.relative_to(TOP)}: {lines} lines, and a file has at most {MOST_LINES}"
    if shutil.which("mandoc") is None:
        print("skipped: the form of the manual pages: mandoc isn't installed")
        return
    pages = sorted(map(str, (TOP / "man").iterdir()))
    ran = subprocess.run(["mandoc", "-T", "lint", "-W", "style", *pages], capture_output=True, text=True, check=False)
    yield from (it for it in ran.stdout.splitlines() if "referenced manual not found" not in it)


def main():
    found = list(faults())
    for it in found:
        print(it)
    return 1 if found else 0


if __name__ == "__main__":
    sys.exit(main())
