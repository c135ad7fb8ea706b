#!/usr/bin/env python3
"""Checks that the names of code on the pages exist.

usage: dev/checks/check_names.py

Of each code span of a page, these have to be there: a file with the ending `.rt`, `.antt` or `.edit`, by the end of its
path, if no part of it is a word in capitals, as NAME, and it isn't in a reader's own folder, my-..; in `Type::name`
both names, and in `crate::name` the crate; and `name()`, or a name in small letters with a `_`, as a name of the code,
of a crate, of the toolchain's crates in crates.txt, or of a script. Blocks of code aren't read, nor CHANGELOG.md, the
pages of docs/library/api/ (which dev/gen/api.py writes), and the words of KNOWN. Prints a line for each name that is
nowhere, and ends with status 1 if there is one.
"""
import pathlib
import re
import subprocess
import sys

sys.dont_write_bytecode = True
sys.path.insert(0, str(pathlib.Path(__file__).resolve().parents[1]))

from repository import TOP  # noqa: E402: after the folder that it stands in
from check_links import pages  # noqa: E402

LEFT_OUT = ("CHANGELOG.md", "docs/library/api/")
CODE = (".rt", ".antt", ".c", ".h", ".py", ".sh", ".rs", ".toml", ".pml", ".edit")
FILE = re.compile(r"[\w./-]+\.(?:rt|antt|edit)")
EXAMPLE = re.compile(r"\b[A-Z]{4,}\b|^my-")
CALL = re.compile(r"(?:(\w+)::)?(\w+)(\(\))?")
WORD = re.compile(r"[A-Za-z_]\w*")
# Names of other programs.
KNOWN = {"contents_formatted", "reset_vc"}


def kept_files():
    """The files that git keeps."""
    listed = subprocess.run(["git", "ls-files", "-z"], cwd=TOP, capture_output=True, text=True, check=True).stdout
    return [name for name in listed.split("\0") if name and (TOP / name).is_file()]


class Names:
    """All names that stand in the code, and the ends of the paths of its files."""

    def __init__(self):
        files = kept_files()
        self.words = set(WORD.findall((TOP / "crates.txt").read_text(encoding="utf-8")))
        for name in files:
            if name.endswith(CODE):
                self.words.update(WORD.findall((TOP / name).read_bytes().decode("utf-8", "replace")))
        self.words.update(part.partition(".")[0] for name in files for part in name.split("/"))
        self.ends = {"/".join(name.split("/")[i:]) for name in files for i in range(name.count("/") + 1)}

    def has(self, span):
        """Whether the names of a code span are there; spans of another form count as there."""
        if FILE.fullmatch(span):
            return span in self.ends or bool(EXAMPLE.search(span))
        found = CALL.fullmatch(span)
        if not found or not (found[1] or found[3] or re.fullmatch(r"[a-z0-9]+(?:_[a-z0-9]+)+", span)):
            return True
        return all(it in self.words or it in KNOWN for it in (found[1], found[2]) if it)


def faults():
    """A line for each name that is nowhere."""
    names = Names()
    for page in pages():
        place = str(page.relative_to(TOP))
        if place.startswith(LEFT_OUT):
            continue
        for number, line in enumerate(page.read_text(encoding="utf-8").splitlines(), 1):
            if not line.startswith("    "):
                yield from (f"{place}:{number}: no `{it}`" for it in re.findall(r"`([^`]+)`", line) if not names.has(it))


def main():
    found = list(faults())
    for it in found:
        print(it)
    return 1 if found else 0


if __name__ == "__main__":
    sys.exit(main())
