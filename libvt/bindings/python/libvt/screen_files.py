"""Files of a whole screen, in the form of the test files of libvt.expect:

    SIZE 6 40
    ?screen
    |6                                       |
    ..
    ?cursor = 5,25
    ?mode visible = off
    ?attr 5,0-24 = black white

Without a line ?mode the cursor is shown. Cells without a line ?attr are white on black. Masked cells are U+2591,
white on black.
"""
from __future__ import annotations

import os
import re
from os import PathLike
from typing import NamedTuple

from .shown import Shown

PLAIN = "white black"
LINE = re.compile(
    r"SIZE (?P<size>[0-9]{1,3} [0-9]{1,3})|(?P<screen>\?screen)|\|(?P<row>.*)\|"
    r"|\?cursor = (?P<cursor>[0-9]{1,3},[0-9]{1,3})|(?P<hidden>\?mode visible = off)"
    r"|\?attr (?P<cells>[0-9]{1,3},[0-9]{1,3}(?:-[0-9]{1,3})?) = (?P<words>[a-z ]+)")
FORMS = "wanted SIZE, ?screen, a row between bars, ?cursor, ?mode visible = off or ?attr"


class Wanted(NamedTuple):
    """The contents of a file: the size, the rows, the cursor, and the colours of cells by row and column."""

    size: tuple[int, int]
    rows: list[str]
    cursor: str
    colours: dict[tuple[int, int], str]


def write_text(path: str | PathLike[str], text: str) -> None:
    """Writes a file whole, or leaves it unchanged."""
    name = f"{os.fspath(path)}.{os.getpid()}.new"
    os.makedirs(os.path.dirname(os.path.abspath(name)), exist_ok=True)
    with open(name, "w", encoding="utf-8") as file:
        file.write(text)
    os.replace(name, path)


def saved(shown: Shown) -> str:
    """The file of a screen."""
    rows, columns = shown.size
    lines = [f"SIZE {rows} {columns}", "?screen", *(f"|{shown.line(row)}|" for row in range(rows))]
    lines.append(f"?cursor = {shown.cursor.row},{shown.cursor.column}")
    lines += ["?mode visible = off"] * (not shown.cursor.visible)
    for row, first, last, words in shown.colour_runs():
        lines.append(f"?attr {row},{first}{f'-{last}' if last > first else ''} = {words}")
    return "\n".join(lines) + "\n"


def read_screen(path: str | PathLike[str]) -> Wanted:
    """Reads a file. A ValueError names the line that isn't of the form; a FileNotFoundError says that there is none."""
    size, cursor, hidden = (0, 0), "", ""
    rows: list[str] = []
    colours: dict[tuple[int, int], str] = {}
    with open(path, encoding="utf-8") as file:
        lines = file.read().split("\n")
    for number, line in enumerate(lines, 1):
        match = LINE.fullmatch(line)
        if match is None:
            if line:
                raise ValueError(f"{os.fspath(path)}:{number}: {FORMS}, found {line!r}")
        elif match["size"]:
            first, last = match["size"].split()
            size = int(first), int(last)
        elif match["row"] is not None:
            rows.append(match["row"].rstrip(" "))
        elif match["cursor"]:
            cursor = match["cursor"]
        elif match["hidden"]:
            hidden = ", hidden"
        elif match["cells"]:
            row, _, span = match["cells"].partition(",")
            first, _, last = span.partition("-")
            colours.update({(int(row), column): match["words"] for column in range(int(first), int(last or first) + 1)})
    return Wanted(size, rows, cursor + hidden, colours)


def rows_that_differ(wanted: Wanted, shown: Shown) -> tuple[list[str], list[tuple[int, int, int]]]:
    """The differences of the rows, and their places."""
    faults: list[str] = []
    marks: list[tuple[int, int, int]] = []
    rows = wanted.rows + [""] * (shown.size[0] - len(wanted.rows))
    for row, (is_so, be) in enumerate(zip(shown.rows, rows)):
        if is_so != be:
            faults += [f"row {row}", f"  wanted |{be}|", f"  shown  |{is_so}|"]
            length = max(len(is_so), len(be))
            unlike = [i for i, (a, b) in enumerate(zip(is_so.ljust(length), be.ljust(length))) if a != b]
            marks.append((row, shown.column_of(row, unlike[0]), shown.column_of(row, unlike[-1])))
    return faults, marks


def colours_that_differ(wanted: Wanted, shown: Shown) -> tuple[list[str], list[tuple[int, int, int]]]:
    """The differences of the colours, and their places."""
    faults: list[str] = []
    marks: list[tuple[int, int, int]] = []
    for row in range(shown.size[0]):
        words = [shown.cell(row, column).words for column in range(shown.size[1])]
        be = [wanted.colours.get((row, column), PLAIN) for column in range(shown.size[1])]
        unlike = [column for column in range(shown.size[1]) if words[column] != be[column]]
        if unlike:
            first = unlike[0]
            count = f"{len(unlike)} cell{'s' * (len(unlike) > 1)} of row {row}"
            faults.append(f"cell {row},{first} is {words[first]}, wanted {be[first]} (differing: {count})")
            marks.append((row, first, unlike[-1]))
    return faults, marks


def compared(
    wanted: Wanted, shown: Shown, colours: bool, cursor: bool
) -> tuple[list[str], list[tuple[int, int, int]]]:
    """The differences between a file and a screen, and their places: row, first column, last column."""
    if shown.size != wanted.size:
        return [f"size {shown.size[0]} by {shown.size[1]}, wanted {wanted.size[0]} by {wanted.size[1]}"], []
    faults, marks = rows_that_differ(wanted, shown)
    if colours:
        more, places = colours_that_differ(wanted, shown)
        faults, marks = faults + more, marks + places
    place = f"{shown.cursor.row},{shown.cursor.column}" + ("" if shown.cursor.visible else ", hidden")
    if cursor and place != wanted.cursor:
        faults.append(f"cursor {place}, wanted {wanted.cursor}")
    return faults, marks
