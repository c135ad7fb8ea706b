"""The attribute byte of an engine's pen, by the rules of docs/reference/screen.md ("Pens and colours").

An engine that has colours and attributes of its own answers `pens`: runs of a row, a column, a count, the colour of the
characters, that of the background, and letters for what is on: b bold, d half-bright, i italic, u underline, k blink,
r reverse. A colour is null for the default one, a number below 256, or a text of the form #rrggbb.
"""
import re

from .forms import Fault, is_number
from .judge import PLAIN, runs_of

LETTERS = "bdiukr"
UNDERLINE, HALF_BRIGHT, GREEN = 15, 8, 2
CUBE = [step * 255 // 6 for step in range(6)]


def parts_of(colour):
    """Red, green and blue of a colour of 256, or of a text #rrggbb."""
    if isinstance(colour, str):
        return tuple(int(colour[at : at + 2], 16) for at in (1, 3, 5))
    if colour < 16:
        low, high = (85, 255) if colour > 7 else (0, 170)
        return tuple(high if colour >> bit & 1 else low for bit in range(3))
    if colour < 232:
        cube = colour - 16
        return CUBE[cube // 36], CUBE[cube // 6 % 6], CUBE[cube % 6]
    return (8 + 10 * (colour - 232),) * 3


def folded(colour):
    """The hue of a character's colour, in the VGA's order of parts, and whether it is bold."""
    parts = parts_of(colour)
    most = max(parts)
    hue = sum(bit for bit, part in zip((4, 2, 1), parts, strict=True) if 2 * part > most)
    if hue == 7 and most <= 85:
        return 0, True
    return hue, most > 170


def byte_of(foreground, background, letters):
    """The attribute byte of a pen."""
    hue, bright = (7, False) if foreground is None else folded(foreground)
    ground = 0
    if background is not None:
        ground = sum(bit for bit, part in zip((4, 2, 1), parts_of(background), strict=True) if part >= 128)
    low = hue
    if "i" in letters:
        low = GREEN
    elif "u" in letters:
        low = UNDERLINE
    elif "d" in letters and not bright:
        low = HALF_BRIGHT
    byte = ground << 4 | low
    if "r" in letters:
        byte = byte & 0x88 | byte >> 4 & 7 | (byte & 7) << 4
    if "k" in letters:
        byte ^= 0x80
    return byte ^ 8 if "b" in letters or bright else byte


def is_colour(value):
    """Whether this names a colour."""
    is_text = isinstance(value, str) and re.fullmatch(r"#[0-9a-fA-F]{6}", value)
    return value is None or is_number(value, 0, 255) or bool(is_text)


def attributes_of(pens, rows, columns):
    """The runs of attribute bytes of an answer's pens; a `Fault` where they are none."""
    wanted = '"pens" has to be runs of a row, a column, a count, two colours and letters, within the screen'
    if not isinstance(pens, list):
        raise Fault(wanted)
    cells = [PLAIN] * (rows * columns)
    for run in pens:
        if not isinstance(run, list) or len(run) != 6 or not all(is_number(it, 0, 255) for it in run[:3]):
            raise Fault(wanted)
        row, column, count, foreground, background, letters = run
        is_right = row < rows and column + count <= columns and is_colour(foreground) and is_colour(background)
        if not is_right or not isinstance(letters, str) or set(letters) - set(LETTERS):
            raise Fault(wanted)
        at = row * columns + column
        cells[at : at + count] = [byte_of(foreground, background, letters)] * count
    return runs_of(cells, columns)
