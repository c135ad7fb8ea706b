"""Judges the assertions of test files: what is wrong with each of them, in lines for a person."""
from __future__ import annotations

import itertools
import re
import unicodedata
from typing import Callable, Iterator, NamedTuple

from .calls import HALF, Cell, Screen
from .escapes import escaped
from .expect_files import Check
from .expect_values import MODES, Attribute, Unknown
from .screen_files import compared, read_screen
from .shown import Place, Shown, letter

ON_OR_OFF = ("off", "on")


class Looked(NamedTuple):
    """What an assertion sees: the screen, the reports since the last ?output, the program's exit status, and whether
    the mode of a ?mode is on."""

    shown: Shown
    reports: bytes
    status: int | None
    is_on: bool


def two(wanted: object, shown: object) -> list[str]:
    """The wanted, and below it the shown."""
    return [f"wanted   {wanted}", f"shown    {shown}"]


def two_rows(wanted: str, shown: str, columns: int) -> list[str]:
    """The same of rows, between bars."""
    wide = sum(unicodedata.east_asian_width(character) in "WF" for character in wanted)
    return two(f"|{wanted:<{columns - wide}}|", f"|{shown}|")


def pointed(shown: Shown, row: int, column: int) -> list[str]:
    """A row, and below it a mark at one of its cells."""
    return [f"row {row:<3}  |{shown.line(row)}|", " " * (10 + column) + "^"]


def code_name(code: int) -> str:
    """A cell's code point in the form of ?cell."""
    return "half" if code == HALF else f"U+{code:04X}"


def attribute_byte(attribute: Attribute) -> int:
    """The attribute byte that a console gives a character with these colours and styles."""
    with Screen(1, 1) as screen:
        screen.write(f"\x1b[0;{';'.join(map(str, attribute.numbers))}mx".encode())
        return screen.cell(0, 0).attribute


def places(check: Check) -> list[tuple[int, int]]:
    """The cells of a ?cell or a ?attr."""
    row, first, *rest = (int(part) for part in check.at)
    return [(row, column) for column in range(first, (rest or [first])[0] + 1)]


def text_of(check: Check, shown: Shown) -> str:
    """The characters that a ?row or a ?chars sees."""
    if check.kind == "row":
        return shown.rows[int(check.at[0])]
    top, left, bottom, right = (int(part) for part in check.at)
    return "\n".join(shown.rectangle(top, left, bottom - top, right - left))


def place_in(check: Check, shown: Shown) -> str:
    """The place of the text of a ?text, in words."""
    place = shown.find(check.wanted[0])
    return f"{place.row},{place.column}" if isinstance(place, Place) else "none"


def without_ends(text: str) -> str:
    """A text without the blanks at the ends of its rows."""
    return "\n".join(row.rstrip(" ") for row in text.split("\n"))


def quoted(text: str) -> str:
    """A text in the form of a test file."""
    return f'"{escaped(text.encode("utf-8", "surrogatepass"))}"'


def judge_text(check: Check, it: Looked) -> Iterator[str]:
    """?row and ?chars."""
    text = text_of(check, it.shown)
    if check.sign == "~":
        if not check.wanted.search(text):
            yield from two(f"/{check.wanted.pattern}/", quoted(text))
    elif check.wanted is Unknown:
        yield from two("?", quoted(text))
    elif without_ends(check.wanted) == text:
        return
    elif check.kind == "row":
        yield from two_rows(check.wanted.rstrip(" "), it.shown.line(int(check.at[0])), it.shown.size[1])
    else:
        yield from two(quoted(check.wanted), quoted(text))


def judge_anywhere(check: Check, it: Looked) -> Iterator[str]:
    """?text."""
    what, place = check.wanted
    found = place_in(check, it.shown)
    if place is None and found != "none":
        return
    if place is Unknown:
        yield from two("?", found)
        return
    wanted = "anywhere" if place is None else place if isinstance(place, str) else f"{place[0]},{place[1]}"
    if found != wanted:
        yield from two(wanted, found)
        near = it.shown.nearest(what) if isinstance(what, str) and found == "none" else ""
        if near:
            yield f"near     {near}"


def row_fits(wanted: str, row: str) -> bool:
    """Whether a row is as one line of a ?screen wants it."""
    if wanted.startswith("~"):
        return re.search(wanted[1:].strip(), row) is not None
    return wanted[1:-1].rstrip(" ") == row


def rows_fit(wanted: list[str], rows: list[str]) -> bool:
    """Whether all rows are as the lines of a ?screen want them; rows behind the last line are blank."""
    reached = {0}  # the rows that the lines so far may end before
    for line in wanted:
        if line == "..":
            reached = set(range(min(reached, default=len(rows) + 1), len(rows) + 1))
        else:
            reached = {row + 1 for row in reached if row < len(rows) and row_fits(line, rows[row])}
    return any(not any(rows[row:]) for row in reached)


def judge_screen(check: Check, it: Looked) -> Iterator[str]:
    """?screen."""
    shown = it.shown
    if check.wanted is not None:
        try:
            yield from compared(read_screen(check.wanted), shown, True, True)[0]
        except FileNotFoundError:
            yield f"{check.wanted}: there is no such file; --accept writes it"
        return
    lines = [line for _, line in check.rows]
    if rows_fit(lines, shown.rows):
        return
    if not all(line.startswith("|") for line in lines):
        yield from ["wanted", *(f"  {line}" for line in lines), "shown", *shown.framed().split("\n")]
        return
    wanted = [line[1:-1].rstrip(" ") for line in lines] + [""] * shown.size[0]
    for row, (is_so, be) in enumerate(zip(shown.rows, wanted)):
        if is_so != be:
            yield f"row {row}"
            yield from two_rows(be, shown.line(row), shown.size[1])


def judge_cell(check: Check, it: Looked) -> Iterator[str]:
    """?cell."""
    row, column = places(check)[0]
    cell = it.shown.cell(row, column)
    if check.wanted is Unknown or cell.code != check.wanted:
        wanted = "?" if check.wanted is Unknown else code_and_character(check.wanted)
        yield from two(wanted, code_and_character(cell.code))
        yield from pointed(it.shown, row, column)


def code_and_character(code: int) -> str:
    """A code point in the form of ?cell, and the character."""
    character = "" if code == HALF else chr(code)
    return f"{code_name(code)} {letter(Cell(character, code, 0))}".rstrip()


def judge_attr(check: Check, it: Looked) -> Iterator[str]:
    """?attr: the first cell that has other colours."""
    if check.wanted is Unknown:
        yield "wanted   ?"
        yield from (f"shown    {line}" for line in attr_lines(check, it.shown))
        return
    byte = attribute_byte(check.wanted)
    for row, column in places(check):
        cell = it.shown.cell(row, column)
        if cell.attribute != byte:
            wanted = f"{check.wanted.words}, the attribute byte {byte:02X}"
            yield from two(wanted, f"{cell.words}, the attribute byte {cell.attribute:02X}")
            yield from pointed(it.shown, row, column)
            return


def attr_lines(check: Check, shown: Shown) -> list[str]:
    """Assertions that hold of the cells of a ?attr: one for each run of cells with the same colours."""
    lines: list[str] = []
    for words, cells in itertools.groupby(places(check), lambda place: shown.cell(*place).words):
        run = list(cells)
        last = f"-{run[-1][1]}" if len(run) > 1 else ""
        lines.append(f"?attr {run[0][0]},{run[0][1]}{last} = {words}")
    return lines


def judge_cursor(check: Check, it: Looked) -> Iterator[str]:
    """?cursor."""
    place = it.shown.cursor[:2]
    if place != check.wanted:
        wanted = "?" if check.wanted is Unknown else f"{check.wanted[0]},{check.wanted[1]}"
        yield from two(wanted, f"{place[0]},{place[1]}")
        yield from pointed(it.shown, *place)


def judge_output(check: Check, it: Looked) -> Iterator[str]:
    """?output."""
    if it.reports != check.wanted:
        wanted = "?" if check.wanted is Unknown else f'"{escaped(check.wanted)}"'
        yield from two(wanted, f'"{escaped(it.reports)}"')


def judge_bells(check: Check, it: Looked) -> Iterator[str]:
    """?bells."""
    if it.shown.bells != check.wanted:
        yield from two("?" if check.wanted is Unknown else check.wanted, it.shown.bells)


def judge_mode(check: Check, it: Looked) -> Iterator[str]:
    """?mode."""
    if it.is_on != check.wanted:
        wanted = "?" if check.wanted is Unknown else ON_OR_OFF[check.wanted]
        yield from two(wanted, f"{ON_OR_OFF[it.is_on]} ({MODES[str(check.at[0])]})")


def judge_exit(check: Check, it: Looked) -> Iterator[str]:
    """?exit."""
    if it.status is None or it.status != check.wanted:
        yield from two("?" if check.wanted is Unknown else check.wanted, "it runs" if it.status is None else it.status)


JUDGES: dict[str, Callable[[Check, Looked], Iterator[str]]] = {
    "row": judge_text, "chars": judge_text, "text": judge_anywhere, "screen": judge_screen, "cell": judge_cell,
    "attr": judge_attr, "cursor": judge_cursor, "output": judge_output, "bells": judge_bells, "mode": judge_mode,
    "exit": judge_exit,
}  # fmt: skip


def faults_of(check: Check, looked: Looked) -> list[str]:
    """What is wrong with an assertion: nothing if it holds."""
    return list(JUDGES[check.kind](check, looked))


def accepted_value(check: Check, it: Looked) -> str | None:
    """The value with which an assertion holds, in the form of a test file; None if only a person can write it."""
    shown = it.shown
    if check.kind == "text":
        return place_in(check, shown) if check.wanted[1] is not None else None
    if check.sign == "~":
        return None
    if check.kind in ("row", "chars"):
        return quoted(text_of(check, shown))
    if check.kind == "cell":
        return code_name(shown.cell(*places(check)[0]).code)
    if check.kind == "exit":
        return None if it.status is None else str(it.status)
    return {
        "cursor": f"{shown.cursor.row},{shown.cursor.column}", "output": f'"{escaped(it.reports)}"',
        "bells": str(shown.bells), "mode": ON_OR_OFF[it.is_on],
    }[check.kind]  # fmt: skip
