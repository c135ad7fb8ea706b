"""A case in words: its sequences by their names and the text between them, and what differs after it."""
import itertools
import re

from .judge import PLAIN as PLAIN_BYTE
from .sequences import NUMERIC, PLAIN

UNITS = re.compile(
    rb"\x1b\[\[.|(?:\x1b\[|\xc2\x9b)[\x20-\x3f]*[\x40-\x7e]|\x1b\]P[0-9a-fA-F]{7}|\x1b\]R"
    rb"|\x1b[\]PX^_][^\a\x18\x1a\x1b]*(?:\a|\x1b\\)?|\x1b[\x20-\x2f]*[\x30-\x7e]|[\0-\x1f\x7f]"
    rb"|(?:[^\0-\x1f\x7f\xc2]|\xc2(?!\x9b))+",
    re.S,
)
NAMES = {sequence.data: sequence.name for sequence in PLAIN}
FINALS = {
    **{row.final: row.name for row in NUMERIC},
    "m": "SGR", "h": "SM", "l": "RM", "n": "DSR", "q": "DECLL", "s": "SCOSC", "u": "SCORC",
}  # fmt: skip

# The colours of an attribute byte, in the order of a VGA.
COLOURS = ("black", "blue", "green", "cyan", "red", "magenta", "yellow", "white")


def spelled(data):
    """The bytes of a sequence: ESC by its name, other bytes that aren't printed in hexadecimal."""
    return "".join("ESC " if b == 27 else chr(b) if 32 <= b < 127 else f"\\x{b:02x}" for b in data).strip()


def word_of(unit):
    """One unit in words."""
    if unit in NAMES:
        return f"{NAMES[unit]} ({spelled(unit)})"
    if unit[:2] == b"\x1b[" and chr(unit[-1]) in FINALS:
        return f"{FINALS[chr(unit[-1])]} ({spelled(unit)})"
    if unit[:1] == b"\x1b" or unit[:2] == b"\xc2\x9b" or unit < b" ":
        return spelled(unit)
    text = unit.decode("utf-8", "backslashreplace")
    return '"' + "".join(c if c.isprintable() else f"\\u{ord(c):04x}" for c in text) + '"'


def in_words(case):
    """The text of a case, unit by unit; a bar where it is cut into writes and no unit ends."""
    told, at = [], 0
    for found in UNITS.finditer(case.data):
        if found.start() > at:
            told.append(spelled(case.data[at : found.start()]))
        inside = [cut for cut in case.cuts if found.start() < cut < found.end()]
        told.append(word_of(found[0]) + (f" cut in {len(inside) + 1}" if inside else ""))
        at = found.end()
    if at < len(case.data):
        told.append(spelled(case.data[at:]))
    return ", ".join(told)


def pen_in_words(byte):
    """An attribute byte in words."""
    styles = ["bold"] * (byte >> 3 & 1) + ["blink"] * (byte >> 7)
    return ", ".join([f"{COLOURS[byte & 7]} on {COLOURS[byte >> 4 & 7]}", *styles])


def bytes_of(runs, rows, columns):
    """The attribute byte of each cell, by the runs of a case or an answer."""
    found = [[PLAIN_BYTE] * columns for _ in range(rows)]
    for row, column, count, byte in runs:
        found[row][column : column + count] = [byte] * count
    return found


def place_in_words(row, first, last):
    """The cells of a row, counted from 0."""
    return f"row {row}, column {first}" if first == last else f"row {row}, columns {first} to {last}"


def pens_in_words(case, wanted, found):
    """Where the attributes of two screens differ: a line for each run of cells with the same two bytes."""
    pens = [bytes_of(runs, case.rows, case.columns) for runs in (wanted, found)]
    for row in range(case.rows):
        column = 0
        for pair, cells in itertools.groupby(zip(*(screen[row] for screen in pens), strict=True)):
            count = len(list(cells))
            if pair[0] != pair[1]:
                place = place_in_words(row, column, column + count - 1)
                yield f"attributes: {place}: wanted {pen_in_words(pair[0])}; there is {pen_in_words(pair[1])}"
            column += count


def part_in_words(case, part, wanted, found):
    """The lines of a part that differs."""
    if part == "attributes":
        return list(pens_in_words(case, wanted, found))
    if part == "text":
        rows = [row for row in range(case.rows) if wanted[row] != found[row]]
        return [f"text: row {row}: wanted {ascii(wanted[row])}; there is {ascii(found[row])}" for row in rows]
    if part == "cursor":
        wanted, found = (f"row {row}, column {column}" for row, column in (wanted, found))
    elif part == "reports":
        wanted, found = (spelled(it.encode("latin-1")) or "none" for it in (wanted, found))
    return [f"{part}: wanted {wanted}; there is {found}"]
