#!/usr/bin/env python3
"""Copies crates of this repository, with all that they need, into a repository of yours.

usage: tools/copy_crates.py NAME.. TO

TO is the folder of your repository, which may be empty or new. Each crate goes to TO/crates/NAME without its `out`
folder, and its line of crates.txt to the end of TO/crates.txt. If a crate may wait or start threads, TO/HANDLES is
written too. Prints a line for each crate. Nothing is copied if a crate or its line is there already and differs, or if
a name is unknown: the message names it, and the status is 1. A crate that is there and is the same stays.
"""
import filecmp
import pathlib
import re
import shutil
import sys

from programs import TOP
from tool_files import run

HANDLES = TOP / "HANDLES"
LEFT_OUT = ("out",)


class Refusal(Exception):
    """A copy that isn't made, with the reason."""


def lines_of(file):
    """Gives the line of each crate of a crates.txt, by its name."""
    if not file.exists():
        return {}
    found = (re.match(r"(\w+)[^:#]*:", line) for line in file.read_text(encoding="utf-8").splitlines())
    return {it[1]: it.string for it in found if it}


def needs(line):
    """Gives the names after the colon."""
    return line.split("#")[0].split(":", 1)[1].split()


def with_all_below(names, lines):
    """Gives the crates and those that they need, in the order of crates.txt."""
    left, found = list(names), set()
    while left:
        name = left.pop()
        if name not in lines:
            raise Refusal(f"{name}: crates.txt has no such crate")
        if name not in found:
            found.add(name)
            left += [it for it in needs(lines[name]) if it in lines]
    return [name for name in lines if name in found]


def is_same(one, other):
    """Whether two folders have the same files, built ones left out."""
    both = filecmp.dircmp(one, other, ignore=list(LEFT_OUT))
    if both.left_only or both.right_only or both.funny_files:
        return False
    _, different, failed = filecmp.cmpfiles(one, other, both.common_files, shallow=False)
    return not different and not failed and all(is_same(one / it, other / it) for it in both.common_dirs)


def copied(names, to):
    """Copies the crates, and gives a line for each."""
    lines = lines_of(TOP / "crates.txt")
    taken = with_all_below(names, lines)
    list_file, there = to / "crates.txt", lines_of(to / "crates.txt")
    for name in taken:
        folder = to / "crates" / name
        if folder.exists() and not is_same(TOP / "crates" / name, folder):
            raise Refusal(f"{folder}: is there, and differs; move it away first")
        if there.get(name, lines[name]) != lines[name]:
            raise Refusal(f"{list_file}: has another line for {name}")
    may_wait = any("may_wait" in lines[name] for name in taken)
    handles = to / "HANDLES"
    if may_wait and handles.exists() and handles.read_text(encoding="utf-8") != HANDLES.read_text(encoding="utf-8"):
        raise Refusal(f"{handles}: has to be `{HANDLES.read_text(encoding='utf-8').strip()}` for these crates")
    (to / "crates").mkdir(parents=True, exist_ok=True)
    for name in taken:
        if (to / "crates" / name).exists():
            yield f"{name}: is there"
        else:
            shutil.copytree(TOP / "crates" / name, to / "crates" / name, ignore=shutil.ignore_patterns(*LEFT_OUT))
            yield f"{name}: copied"
    text = list_file.read_text(encoding="utf-8") if list_file.exists() else ""
    if text and not text.endswith("\n"):
        text += "\n"
    list_file.write_text(text + "".join(lines[name] + "\n" for name in taken if name not in there), encoding="utf-8")
    if may_wait and not handles.exists():
        shutil.copy(HANDLES, handles)
        yield "HANDLES: copied"


def main():
    words = sys.argv[1:]
    if len(words) < 2 or any(word.startswith("-") for word in words):
        print(__doc__.split("\n\n")[1], file=sys.stderr)
        return 1
    try:
        for line in copied(words[:-1], pathlib.Path(words[-1])):
            print(line)
    except Refusal as refusal:
        print(refusal, file=sys.stderr)
        return 1
    except (OSError, UnicodeDecodeError, shutil.Error) as fault:
        print(f"{words[-1]}: {fault}", file=sys.stderr)
        return 1
    return 0


if __name__ == "__main__":
    sys.exit(run(main))
