#!/usr/bin/env python3
"""Checks the links of every Markdown page: files and headings are there, and links from README.md lead to every page.

A link is `[text](target)` outside code. Its target is a path from the page's folder, a heading as `#words-of-it`, or
both; an address with a scheme, as https:, is not looked up. A path from the top of the repository, in any file that git
keeps (a crate's comment, a tool, a manual page), has to lead to a file; that of the installed header is no such path.
Prints a line for each link or path that leads nowhere and for each page that no link leads to, and ends with status 1
if there is one.
"""
import pathlib
import re
import subprocess
import sys

sys.dont_write_bytecode = True
sys.path.insert(0, str(pathlib.Path(__file__).resolve().parents[1]))

from repository import TOP  # noqa: E402: after the folder that it stands in

LINK = re.compile(r"(?<!!)\[(?:[^\]\[`]|`[^`]*`)*\]\(([^()\s]+)\)")
IS_ADDRESS = re.compile(r"[a-z]+:")
# A path from the top of the repository, to a file of one of these kinds.
PATH = re.compile(
    r"(?<![\w/.$-])(?:docs|dev|libvt|tools|examples|man|bench|models|bindings|include)/"
    r"[\w/.-]+\.(?:md|py|sh|c|h|rs|pml|toml|[135])\b(?![\w/-]|\.\w)"
)
# Where the header is in an installed library.
INSTALLED = "include/vt.h"
# Files that have paths of others: recordings, and what changed.
NOT_READ = re.compile(r"CHANGELOG\.md|examples/(?:pictures|recordings|tests)/.*|.*\.svg")
LEFT_OUT = ("out", ".git", "node_modules")


def pages():
    """Gives every Markdown page of the repository, except those of built folders."""
    for page in sorted(TOP.rglob("*.md")):
        if not any(part in LEFT_OUT for part in page.relative_to(TOP).parts):
            yield page


def prose(text):
    """Gives the text with each line of code empty, so that a link may go over the end of a line."""
    is_code, lines = False, []
    for line in text.splitlines():
        is_fence = line.startswith("```")
        is_code ^= is_fence
        lines.append("" if is_fence or is_code or line.startswith("    ") else line)
    return "\n".join(lines)


def slug(heading):
    """Gives the name by which a link reaches a heading."""
    return re.sub(r"[^\w\- ]", "", heading.strip().lower()).replace(" ", "-")


def headings(page):
    return {slug(it) for it in re.findall(r"^#+ (.*)", prose(page.read_text(encoding="utf-8")), re.M)}


def faults(page):
    text = prose(page.read_text(encoding="utf-8"))
    for link in LINK.finditer(text):
        if IS_ADDRESS.match(link[1]):
            continue
        path, _, heading = link[1].partition("#")
        file = (page.parent / path).resolve() if path else page
        place = f"{page.relative_to(TOP)}:{text.count(chr(10), 0, link.start()) + 1}"
        if not file.exists():
            yield f"{place}: {link[1]}: no such file"
        elif heading and (file.suffix != ".md" or heading not in headings(file)):
            yield f"{place}: {link[1]}: no such heading"


def path_faults():
    """Gives a fault for each path, in any file that git keeps, at which no file is."""
    listed = subprocess.run(["git", "ls-files", "-z"], cwd=TOP, capture_output=True, text=True, check=True).stdout
    for name in filter(None, listed.split("\0")):
        file = TOP / name
        is_read = file.is_file() and not NOT_READ.fullmatch(name)
        text = file.read_bytes().decode("utf-8", "replace") if is_read else ""
        for number, line in enumerate(text.splitlines(), 1):
            paths = (it for it in PATH.findall(line) if it != INSTALLED and not (TOP / it).exists())
            yield from (f"{name}:{number}: no file {it}" for it in paths)


def reached():
    """Gives the pages that links lead to from README.md."""
    found, left = set(), [TOP / "README.md"]
    while left:
        page = left.pop()
        if page in found or page.suffix != ".md" or not page.exists():
            continue
        found.add(page)
        links = (it[1].partition("#")[0] for it in LINK.finditer(prose(page.read_text(encoding="utf-8"))))
        left += [(page.parent / path).resolve() for path in links if path and not IS_ADDRESS.match(path)]
    return found


def main():
    found = [*(fault for page in pages() for fault in faults(page)), *path_faults()]
    found += [f"{page.relative_to(TOP)}: no link from README.md leads there" for page in set(pages()) - reached()]
    for fault in found:
        print(fault)
    return 1 if found else 0


if __name__ == "__main__":
    sys.exit(main())
