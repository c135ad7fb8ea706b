#!/usr/bin/python3
"""The adapter of pyte, in the protocol of lines that docs/guide/write-a-terminal.md describes."""
import json
import sys

import pyte
from pyte.graphics import FG_BG_256

NAMES = ("black", "red", "green", "brown", "blue", "magenta", "cyan", "white")
LETTERS = (("bold", "b"), ("italics", "i"), ("underscore", "u"), ("blink", "k"), ("reverse", "r"))


class Screen(pyte.Screen):
    """A screen that keeps its reports and counts its bells."""

    def __init__(self, columns, rows):
        self.reported, self.bells = "", 0
        super().__init__(columns, rows)

    def write_process_input(self, data):
        """A report."""
        self.reported += data.replace("\x9b", "\x1b[")

    def bell(self, *_args):
        """A bell."""
        self.bells += 1


def colour(name):
    """A colour by the protocol: its number of 256 where its own table has it."""
    if name == "default":
        return None
    if name in NAMES:
        return NAMES.index(name)
    if name in FG_BG_256:
        return FG_BG_256.index(name)
    if len(name) != 6:
        raise ValueError(f"its colour is {name}")
    return f"#{name}"


def pens_of(screen):
    """A run for each cell that isn't plain."""
    for y in range(screen.lines):
        for x in range(screen.columns):
            cell = screen.buffer[y][x]
            letters = "".join(letter for name, letter in LETTERS if getattr(cell, name, False))
            if (cell.fg, cell.bg, letters) != ("default", "default", ""):
                yield [y, x, 1, colour(cell.fg), colour(cell.bg), letters]


def answer(asked):
    """What stands after the text of one case."""
    screen = Screen(asked["columns"], asked["rows"])
    stream = pyte.ByteStream(screen)
    for piece in asked["pieces"]:
        stream.feed(piece.encode("latin-1"))
    if (screen.lines, screen.columns) != (asked["rows"], asked["columns"]):
        raise ValueError(f"its screen has {screen.lines} rows and {screen.columns} columns now")
    text = ["".join(screen.buffer[y][x].data for x in range(screen.columns)) for y in range(screen.lines)]
    cursor = [screen.cursor.y, min(screen.cursor.x, screen.columns - 1)]
    return {
        "case": asked["case"], "text": text, "cursor": cursor, "pens": list(pens_of(screen)),
        "reports": screen.reported, "bells": screen.bells,
    }  # fmt: skip


def main():
    """Answers each line."""
    for line in sys.stdin:
        asked = json.loads(line)
        try:
            told = answer(asked)
        except Exception as fault:  # whatever the engine raises is a fault of this case
            told = {"case": asked["case"], "fault": f"{type(fault).__name__}: {fault}"}
        print(json.dumps(told), flush=True)
    return 0


if __name__ == "__main__":
    sys.exit(main())
