"""What a screen shows at one moment: its rows and cells, its cursor, and where a text is."""
from __future__ import annotations

import difflib
import re
from typing import Callable, NamedTuple, Pattern, Sequence, Union

from .calls import Cell, Cursor, Modes, NotDrawable, Screen, Settings

PLAIN, MASKED = 7, "\u2591"


class Place(NamedTuple):
    """Where a text or a match of a pattern begins."""

    row: int
    column: int
    text: str
    match: re.Match[str] | None = None


What = Union[str, "Pattern[str]", Callable[["Shown"], object]]
# Cells that don't count: a rectangle (first row, first column, rows, columns), or the matches of a pattern in each row.
Mask = Union["tuple[int, int, int, int]", str, "Pattern[str]"]


class Shown:
    """What a screen shows. It doesn't change. Rows and columns are counted from 0.

    `rows` are the rows as texts, without the blanks at their ends. `size` is (rows, columns). `bells` is how often the
    bell rang. `modes` are the modes that keys depend on, and `settings` the others. Colours are those that a console
    shows, so the colours of reversed characters, and of a reversed screen, are exchanged already.
    """

    def __init__(self, screen: Screen, bells: int = 0) -> None:
        self.size: tuple[int, int] = screen.size
        self.cursor: Cursor = screen.cursor
        self.modes: Modes = screen.modes
        self.bells = bells
        self.settings: Settings = screen.settings
        self._cells = [
            [cell._replace(attribute=exchanged(cell.attribute)) for cell in row]
            if self.settings.reverse else row
            for row in map(screen.cells, range(self.size[0]))
        ]
        self._lines = ["".join(map(letter, cells)) for cells in self._cells]
        self.rows: list[str] = [line.rstrip(" ") for line in self._lines]
        self._drawing, self._picture = b"", ""
        try:
            self._drawing = screen.redraw()
        except NotDrawable:
            self._picture = screen.picture()

    @property
    def text(self) -> str:
        """The rows as one text, with a line feed between two rows."""
        return "\n".join(self.rows)

    def cell(self, row: int, column: int) -> Cell:
        """One cell. Its `words` are its colours: `red black bold`."""
        rows, columns = self.size
        if not (0 <= row < rows and 0 <= column < columns):
            raise IndexError(f"row {row}, column {column}: the screen has {rows} rows and {columns} columns")
        return self._cells[row][column]

    def line(self, row: int) -> str:
        """A row with the blanks at its end."""
        return self._lines[row]

    def rectangle(self, row: int, column: int, rows: int, columns: int) -> list[str]:
        """The rows of a part of the screen, without the blanks at their ends."""
        if rows < 1 or columns < 1:
            raise IndexError(f"{rows} rows and {columns} columns: wanted one or more")
        self.cell(row, column), self.cell(row + rows - 1, column + columns - 1)
        part = (cells[column : column + columns] for cells in self._cells[row : row + rows])
        return ["".join(map(letter, cells)).rstrip(" ") for cells in part]

    def find(self, what: str | Pattern[str]) -> Place | None:
        """The first place of a text or of a pattern; None if there is none. A text is looked for in each row, with the
        blanks at its end. A pattern is looked for in `text`, so it may match several rows; it sees no blanks at the
        ends of rows, and with re.MULTILINE `^` and `$` are the ends of a row."""
        if isinstance(what, str):
            for row, line in enumerate(self._lines):
                if what in line:
                    return Place(row, self.column_of(row, line.index(what)), what)
            return None
        match = what.search(self.text)
        if match is None:
            return None
        row = self.text.count("\n", 0, match.start())
        start = self.text.rfind("\n", 0, match.start()) + 1
        return Place(row, self.column_of(row, match.start() - start), match[0], match)

    def column_of(self, row: int, index: int) -> int:
        """The column of a character of a row, by its index in the row's text."""
        columns = [column for column, cell in enumerate(self._cells[row]) if cell.character]
        return columns[index] if index < len(columns) else self.size[1] - 1

    def colour_runs(self) -> list[tuple[int, int, int, str]]:
        """The runs of cells that aren't white on black: row, first column, last column, and the colours in words."""
        runs: list[tuple[int, int, int, str]] = []
        for row, cells in enumerate(self._cells):
            first = 0
            for column in range(1, len(cells) + 1):
                if column == len(cells) or cells[column].attribute != cells[first].attribute:
                    if cells[first].attribute != PLAIN:
                        runs.append((row, first, column - 1, cells[first].words))
                    first = column
        return runs

    def masked(self, masks: Sequence[Mask]) -> Shown:
        """The same with U+2591, white on black, in the masked cells."""
        made = object.__new__(Shown)
        made.__dict__.update(self.__dict__)
        made._cells = [list(row) for row in self._cells]
        for mask in masks:
            if isinstance(mask, tuple):
                row, column, rows, columns = mask
                for cells in made._cells[row : row + rows]:
                    hide(cells, column, column + columns)
                continue
            for row, cells in enumerate(made._cells):
                for match in re.finditer(mask, self.rows[row]):
                    if match[0]:
                        hide(cells, self.column_of(row, match.start()), self._end(row, match.end()))
        made._lines = ["".join(map(letter, cells)) for cells in made._cells]
        made.rows = [line.rstrip(" ") for line in made._lines]
        return made

    def _end(self, row: int, index: int) -> int:
        """The column after the character before an index of a row: a wide character has two."""
        column = self.column_of(row, index - 1) + 1
        return column + (column < self.size[1] and not self._cells[row][column].character)

    def framed(self, marks: Sequence[tuple[int, int, int]] = ()) -> str:
        """The screen for a report: rows with their numbers in a frame, without the blank ones at the end. Below a row
        are its marks (row, first column, last column)."""
        rows, columns = self.size
        used = max([row + 1 for row, line in enumerate(self.rows) if line] + [self.cursor.row + 1])
        edge = "    +" + "-" * columns + "+"
        lines = [edge]
        for row in range(used):
            lines.append(f"{row:3} |{self._lines[row]}|")
            below = [" "] * columns
            for _, first, last in (mark for mark in marks if mark[0] == row):
                below[first : last + 1] = "^" * (last - first + 1)
            if "^" in below:
                lines.append("     " + "".join(below).rstrip())
        if used < rows:
            lines.append(f"    | {rows - used} blank row{'s' * (rows - used > 1)}")
        hidden = "" if self.cursor.visible else ", hidden"
        return "\n".join([*lines, edge, f"    cursor {self.cursor.row},{self.cursor.column}{hidden}"])

    def nearest(self, what: str) -> str:
        """The row with the longest part of a text, in words; empty if no row has half of it."""
        found, least = "", max(3, len(what) // 2)
        for row, line in enumerate(self.rows):
            match = difflib.SequenceMatcher(None, line, what, autojunk=False).find_longest_match()
            if match.size >= least:
                least = match.size + 1
                found = f'row {row} has "{line[match.a : match.a + match.size]}"'
        return found

    def picture(self) -> str:
        """The screen in SVG (Screen.picture); masks are not in it."""
        if not self._picture:
            with Screen(*self.size) as screen:
                screen.write(self._drawing)
                self._picture = screen.picture()
        return self._picture


def described(what: What) -> str:
    """What is looked for, in words."""
    if isinstance(what, str):
        return f'"{what}"'
    if isinstance(what, re.Pattern):
        return f"/{what.pattern}/"
    return getattr(what, "__name__", repr(what))


def exchanged(attribute: int) -> int:
    """An attribute byte with its two colours exchanged; the bits for bright and for blinking stay."""
    return attribute & 0x88 | attribute << 4 & 0x70 | attribute >> 4 & 7


def letter(cell: Cell) -> str:
    """A cell as `vt screen` prints it: `?` if it can't be shown, nothing for the right half of a wide character."""
    code = cell.code
    is_shown = 0x20 <= code <= 0x7E or 0xA0 <= code <= 0xD7FF or 0xE000 <= code
    return cell.character if not cell.character or is_shown else "?"


def hide(cells: list[Cell], first: int, end: int) -> None:
    """Masks the cells of a row from a column to another one, which stays."""
    end = min(end, len(cells))
    cells[first:end] = [Cell(MASKED, ord(MASKED), PLAIN)] * max(0, end - first)
