#!/usr/bin/env python3
"""Judges test files of expect.py by another engine, pyte: so nobody has to take what they want from `vt` itself.

usage: judge_by_pyte.py FILE.test ..

Modes aren't asked, since pyte keeps others. Prints a line for each assertion that pyte doesn't show, and last
'N agree, M differ, K not asked'. Statuses: 0 all agree; 1 one differs; 2 a file isn't of the form; 5 pyte isn't
installed.
"""
import pathlib
import sys

try:
    import pyte
except ImportError:
    pyte = None

sys.dont_write_bytecode = True
sys.path.insert(0, str(pathlib.Path(__file__).resolve().parents[1]))

import repository  # noqa: E402,F401: it has the folders of the modules below
import package  # noqa: E402

sys.path.insert(0, str(package.FOLDER))

from libvt import HALF  # noqa: E402: after its folder
from libvt.expect_files import Check, Fault, read_test  # noqa: E402

# pyte's names of the eight colours, by the last digit of SGR's numbers; its default colours are those of a console.
COLOURS = ("black", "red", "green", "brown", "blue", "magenta", "cyan", "white")


class Screen:
    """A screen of pyte's, with what it reports and rings."""

    def __init__(self, rows, cols):
        self.screen = pyte.Screen(cols, rows)
        self.stream = pyte.ByteStream(self.screen)
        self.reports, self.bells = [], 0
        self.screen.write_process_input = self.reports.append
        self.screen.bell = self.ring
        self.stream.attach(self.screen)

    def ring(self, *_):
        """The bell rings."""
        self.bells += 1

    def take(self, step):
        """Does one step of a test."""
        if isinstance(step, tuple):
            self.screen.resize(*step)
        else:
            self.stream.feed(step)

    def row(self, y):
        """The text of a row, without blanks at its end."""
        return self.screen.display[y].rstrip()

    def code(self, y, x):
        """A cell's code point; the right half of a wide character has no text."""
        data = self.screen.buffer[y][x].data
        return ord(data) if data else HALF

    def look(self, y, x):
        """A cell's two colours as they are shown, and whether it is bold and blinks."""
        cell = self.screen.buffer[y][x]
        colours = ["white" if cell.fg == "default" else cell.fg, "black" if cell.bg == "default" else cell.bg]
        return (*(reversed(colours) if cell.reverse else colours), cell.bold, getattr(cell, "blink", False))


def wanted_look(numbers):
    """The same of what a test wants, as the numbers of SGR."""
    colours = [COLOURS[numbers[0] - 30], COLOURS[numbers[1] - 40]]
    return (*(reversed(colours) if 7 in numbers[2:] else colours), 1 in numbers[2:], 5 in numbers[2:])


def has_rows(screen, lines):
    """Whether pyte shows these rows, and blank ones below; None if a line isn't a row."""
    if not all(line.startswith("|") for line in lines):
        return None
    count = screen.screen.lines
    rows = [line[1:-1].rstrip() for line in lines] + [""] * (count - len(lines))
    return [screen.row(y) for y in range(count)] == rows


def agrees(screen, check):
    """Whether pyte shows what an assertion wants; None if it can't be asked."""
    wanted = check.wanted
    if check.kind == "row" and check.sign == "=":
        return screen.row(check.at[0]) == wanted.rstrip()
    if check.kind == "screen" and wanted is None:
        return has_rows(screen, [line for _, line in check.rows])
    if check.kind == "cursor":
        return (screen.screen.cursor.y, min(screen.screen.cursor.x, screen.screen.columns - 1)) == wanted
    if check.kind == "cell":
        return screen.code(*check.at) == wanted
    if check.kind == "attr" and len(check.at) == 2 and not {2, 3, 4} & set(wanted.numbers[2:]):
        return screen.look(*check.at) == wanted_look(wanted.numbers)
    if check.kind == "output":
        given = "".join(screen.reports).encode()
        screen.reports.clear()
        return given == wanted
    if check.kind == "bells":
        return screen.bells == wanted
    return None


def judge(file):
    """Gives each assertion of a test file, with whether pyte agrees."""
    screen = Screen(*file.start)
    for part in file.parts:
        if isinstance(part, Check):
            yield part, agrees(screen, part)
        elif part.word in ("PUSH", "FILE", "RESIZE"):
            screen.take(part.value)


def main():
    if pyte is None:
        print("judge_by_pyte.py: pyte isn't installed (Debian: python3-pyte)", file=sys.stderr)
        return 5
    counts = {True: 0, False: 0, None: 0}
    try:
        for path in sys.argv[1:]:
            for check, held in judge(read_test(path)):
                counts[held] += 1
                if held is False:
                    print(f"{path}:{check.line}: {check.name()}")
    except Fault as fault:
        print(f"judge_by_pyte.py: {fault}", file=sys.stderr)
        return 2
    print(f"{counts[True]} agree, {counts[False]} differ, {counts[None]} not asked")
    return 1 if counts[False] else 0


if __name__ == "__main__":
    sys.exit(main())
