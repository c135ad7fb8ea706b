"""What a Linux console shows after a case, by the files of vcs(4): glyphs with attributes, and characters.

The file of the characters holds what was written, and not what a table made of it. If they differ, the glyph decides.
"""
import sys
import unicodedata

from .adapters import CaseFault
from .judge import runs_of

REPLACEMENT = 0xFFFD
# The first of the 256 characters that stand for a glyph by its number.
STRAIGHT = 0xF000
# Follows a wide character that takes one cell alone.
ALONE = "\ufffe"
# The glyphs of a PC's font from 20 on are the characters of this code page. Of those below, the VT100 graphics of Linux
# have the arrows.
FONT, ARROWS = "cp437", {0x2191: 0x18, 0x2193: 0x19, 0x2192: 0x1A, 0x2190: 0x1B}
FREE_GLYPHS = sorted(set(range(0x01, 0x20)) - set(ARROWS.values()))


def glyphs_of(cases):
    """A font map for these cases, the glyph of each character: that of a PC, with the others that stand on a screen."""
    glyphs = {ord(bytes([glyph]).decode(FONT)): glyph for glyph in range(0x20, 0x100)} | ARROWS
    wanted = {ord(c) for case in cases for row in case.after["text"] for c in row if 0xFF < ord(c) < STRAIGHT}
    return glyphs | dict(zip([REPLACEMENT, *sorted(wanted - set(glyphs))], FREE_GLYPHS, strict=False))


def character_of(code, glyph, wanted, glyphs):
    """The character that a cell shows, by the one that was written there and the glyph."""
    if wanted == STRAIGHT + glyph:
        return wanted
    if glyph == glyphs[code] if code in glyphs else glyph in (code, glyphs[REPLACEMENT]):
        return code
    return next((drawn for drawn, number in glyphs.items() if number == glyph), STRAIGHT + glyph)


def is_wide(character):
    """Whether a character takes two cells."""
    return unicodedata.east_asian_width(character) in "WF"


def cells_of(row, columns):
    """The numbers of the characters in a row's cells; the second cell of a wide character has a blank."""
    cells = []
    for character in row:
        cells += [ord(character), 32] if is_wide(character) else [ord(character)]
    return (cells + [32] * columns)[:columns]


def row_of(cells):
    """The characters of a row as a string, without the blank after a wide one and those at its end."""
    row, place = "", 0
    while place < len(cells):
        character = chr(cells[place])
        place += 1
        row += character
        if is_wide(character):
            has_two = place < len(cells) and cells[place] == 32
            row += "" if has_two else ALONE
            place += has_two
    return row.rstrip(" ")


def text_of(case, shown, codes, glyphs):
    """The rows: by the characters alone, or with a font map by the glyphs too."""
    cells = [int.from_bytes(codes[at : at + 4], "little") for at in range(0, len(codes), 4)]
    cells = [cell if cell <= sys.maxunicode else REPLACEMENT for cell in cells]
    if glyphs:
        wanted = [cell for row in case.after["text"] for cell in cells_of(row, case.columns)]
        cells = [character_of(*it, glyphs) for it in zip(cells, shown[4::2], wanted, strict=True)]
    return [row_of(cells[at : at + case.columns]) for at in range(0, len(cells), case.columns)]


def answer_of(case, shown, codes, reports, glyphs=None):
    """The answer to a case; `codes` is None if the console doesn't have its characters."""
    rows, columns, column, row = shown[:4]
    if (rows, columns) != (case.rows, case.columns):
        wanted = f"{case.rows} rows and {case.columns} columns were wanted"
        raise CaseFault(f"refuses: {wanted}, and there are {rows} and {columns}")
    answer = {
        "cursor": [row, column], "attributes": runs_of(shown[5::2], columns), "reports": reports.decode("latin-1"),
    }  # fmt: skip
    return answer if codes is None else {"text": text_of(case, shown, codes, glyphs), **answer}
