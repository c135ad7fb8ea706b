#!/usr/bin/env python3
"""Counts forms of words that make the pages hard to read, and fails above a limit for each page.

usage: dev/checks/check_words.py [--counts]

The forms are those of PATTERNS: things that tell or say, "what" as a noun, "but" for except, "where" for if, a page
named without a link, and lines of over 120 characters. Code, headings and text in backquotes don't count, nor does the
length of a row of a table. LIMITS has how often a page may have each form, in the order of PATTERNS; this includes the
pages that dev/gen/api.py writes. The rows of crates/FILES.md are first lines of sources, and aren't counted. `--counts`
prints the counts of each page. Status 1 means that a page is over a limit, or that README.md has over 100 lines.
"""
import pathlib
import re
import sys

sys.dont_write_bytecode = True
sys.path.insert(0, str(pathlib.Path(__file__).resolve().parents[1]))

import repository  # noqa: E402,F401: it has the folders of the modules below
from check_links import TOP, pages  # noqa: E402

LONGEST = 120
README_LINES = 100
PATTERNS = {
    "a thing that tells": re.compile(r"\b(?:tell|tells|told|telling)\b", re.I),
    "a thing that says": re.compile(r"\b(?:say|says|said|saying)\b", re.I),
    "what as a noun": re.compile(
        r"(?:^|[.;:] )(?:- )?What [a-z' ]+\b(?:is|are|isn't|has|have|does|do|comes|stands|was|were)\b(?!.*\?)"
    ),
    "but for except": re.compile(
        r"\bbut for\b|\b(?:all|any|anything|each|every|everything|nobody|none|nothing|no)\b(?: \w+)? but\b"
        r"|\bof other \w+ but\b|\band all but\b",
        re.I,
    ),
    "where for if": re.compile(
        r"\bexactly where\b|(?:^|[.;:] )Where\b|, where (?:it|there|that|they|he|she|nobody|no)\b"
    ),
    "who as a noun": re.compile(
        r"\b(?:whoever|by who|to who|for who|of who)\b|(?:^|[.;:] )Who [a-z]+s\b(?!.*\?)", re.I
    ),
    "scope by denial": re.compile(
        r"\bspoken of\b|\bsays nothing of\b|\bnothing is said of\b|\byields to\b|\bspeaks? of\b", re.I
    ),
    "a page without a link": re.compile(r"(?<![(\w/])docs/[\w/-]+\.md\b"),
    "a long line": None,
}
# How often a page may have each form, in the order of PATTERNS.
LIMITS = (0, 1, 0, 0, 1, 0, 0, 0, 0)
# Pages whose tables are made of the first lines of sources.
OF_SOURCES = {TOP / "crates/FILES.md"}


def lines_of(text):
    """Gives the lines outside code and headings, each as it is and without what stands in backquotes."""
    is_code = False
    for line in text.splitlines():
        if line.startswith("```"):
            is_code = not is_code
        elif not is_code and not line.startswith(("    ", "#")):
            yield line, re.sub(r"`[^`]*`", "``", line)


def counts(page):
    """Gives how often the page has each form."""
    lines = list(lines_of(page.read_text(encoding="utf-8")))
    if page in OF_SOURCES:
        lines = [(line, bare) for line, bare in lines if not line.startswith("|")]
    found = [sum(len(form.findall(bare)) for _, bare in lines) for form in PATTERNS.values() if form]
    return [*found, sum(len(line) > LONGEST and not line.startswith("|") for line, _ in lines)]


def main():
    over = []
    for page in pages():
        name = str(page.relative_to(TOP))
        found = counts(page)
        if "--counts" in sys.argv[1:]:
            print(f"{name}: " + ", ".join(map(str, found)))
        for form, number, limit in zip(PATTERNS, found, LIMITS):
            if number > limit:
                over.append(f"{name}: {form}: {number}, at most {limit}")
    lines = len((TOP / "README.md").read_text(encoding="utf-8").splitlines())
    if lines > README_LINES:
        over.append(f"README.md: lines: {lines}, at most {README_LINES}")
    if "--counts" in sys.argv[1:]:
        return 0
    for line in over:
        print(line)
    return 1 if over else 0


if __name__ == "__main__":
    sys.exit(main())
