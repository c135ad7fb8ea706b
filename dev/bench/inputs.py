#!/usr/bin/env python3
"""Writes what `vt screen 25 80` is measured with: ten kinds of text from a fixed seed.

usage: inputs.py FOLDER [MIB] [SEED]

The same numbers give the same bytes. Every file is made of whole lines or whole sequences, and only of sequences that
the engines of dev/engines/ know too, so that all of them should print the same rows.
"""
import pathlib
import random
import sys

ROWS, COLS = 25, 80
VISIBLE = [chr(n) for n in range(0x21, 0x7F)]
# Text has a blank in every twentieth place or so.
TEXT = VISIBLE + [" "] * 5
NARROW = "àâæçéèêëîïôœùûüÿñßøåäöÆØÅабвгдежзийклмнопрстуфхцчшщъыьэюяαβγδεζηθικλμνξοπρστυφχψω─│┌┐└┘├┤┬┴┼█▓▒░€→←↑↓≤≥≠∞"
WIDE = "日月火水木金土山川田人口車門一二三四五六七八九十百千"


class Writer:
    """Draws the pieces of every kind of text."""

    def __init__(self, kind, seed):
        self.draw = random.Random(f"{kind} {seed}")
        self.kind = kind

    def of(self, characters, count):
        return "".join(self.draw.choices(characters, k=count))

    def number(self, most, least=1):
        return self.draw.randint(least, most)

    def at(self):
        return f"\x1b[{self.number(ROWS)};{self.number(COLS)}H"

    def piece(self):
        return getattr(self, self.kind)()

    # a listing: lines that fit
    def ascii(self):
        return self.of(TEXT, self.number(COLS - 1, 0)) + "\r\n"

    # lines that wrap again and again
    def long(self):
        return self.of(TEXT, self.number(4000, 400)) + "\r\n"

    # line feeds, with hardly any text
    def scroll(self):
        return "\n" * self.number(40) + self.draw.choice(["", "", "x", "\r"])

    # colours: a new pen for each word
    def sgr(self):
        line = ""
        for _ in range(self.number(16, 8)):
            pen = self.draw.choice([
                "", "0", "1", "4", "7", f"3{self.number(7, 0)}", f"4{self.number(7, 0)}",
                f"1;3{self.number(7, 0)}", f"3{self.number(7, 0)};4{self.number(7, 0)}",
                f"38;5;{self.number(255, 0)}",
                f"38;2;{self.number(255, 0)};{self.number(255, 0)};{self.number(255, 0)}"])
            line += f"\x1b[{pen}m" + self.of(VISIBLE, self.number(8))
        return line + "\x1b[m\r\n"

    # motions, with at most two characters at each place
    def cursor(self):
        count = self.draw.choice(["", "2", "3", str(self.number(30))])
        move = self.draw.choice([self.at(), self.at(), f"\x1b[{count}{self.draw.choice('ABCD')}", "\x1b[H"])
        return move + self.of(VISIBLE, self.number(2, 0))

    # characters of two and three bytes that take one column
    def utf8(self):
        return self.of(NARROW, self.number(60, 0)) + self.of(TEXT, self.number(19, 0)) + "\r\n"

    # characters that take two columns
    def wide(self):
        return self.of(WIDE, self.number(39, 0)) + "\r\n"

    # an editor: text painted at a place, lines and characters that go in and out, a region, a line of status
    def edit(self):
        return self.draw.choice([
            lambda: f"\x1b[{self.number(ROWS)};1H\x1b[3{self.number(7, 0)}m{self.of(TEXT, self.number(70, 10))}\x1b[m\x1b[K",
            lambda: f"\x1b[{self.number(ROWS)};1H\x1b[{self.number(4)}{self.draw.choice('LM')}",
            lambda: f"{self.at()}\x1b[{self.number(9)}{self.draw.choice('@P')}{self.of(TEXT, self.number(6, 0))}",
            lambda: f"{self.at()}\x1b[{self.draw.choice(['', '1', '2'])}K",
            lambda: f"\x1b[1;{ROWS - 1}r\x1b[{ROWS - 1};1H\n\x1b[r{self.at()}",
            lambda: f"\x1b[{ROWS};1H\x1b[7m{self.of(TEXT, 20)}\x1b[0m{self.at()}",
        ])()

    # a whole screen of work for a few bytes
    def erase(self):
        return self.at() + self.draw.choice(["\x1b[2J", "\x1b[J", "\x1b[1J"]) + self.of(VISIBLE, 1)

    # lines that come in at the top
    def lines(self):
        return "\x1b[H" + self.draw.choice(["\x1bM", "\x1b[L", "\x1b[M"])


KINDS = ["ascii", "long", "scroll", "sgr", "cursor", "utf8", "wide", "edit", "erase", "lines"]
# What costs some engine a screen a byte is written in less.
PART = {"scroll": 8, "erase": 16, "lines": 16}


def make(kind, size, seed):
    """So many bytes and the rest of a piece; past 4 MiB the first 4 come again."""
    writer = Writer(kind, seed)
    pieces, count = [], 0
    while count < min(size, 4 << 20):
        pieces.append(writer.piece().encode())
        count += len(pieces[-1])
    text = b"".join(pieces)
    return text * -(-size // len(text))


def main():
    if not 2 <= len(sys.argv) <= 4:
        sys.exit(__doc__)
    folder = pathlib.Path(sys.argv[1])
    size = float(sys.argv[2]) if len(sys.argv) > 2 else 16
    seed = sys.argv[3] if len(sys.argv) > 3 else "1"
    folder.mkdir(parents=True, exist_ok=True)
    for kind in KINDS:
        (folder / kind).write_bytes(make(kind, int(size * (1 << 20)) // PART.get(kind, 1), seed))


if __name__ == "__main__":
    main()
