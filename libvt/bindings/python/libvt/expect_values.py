"""The values of test files: texts, numbers, places, colours and modes. A ValueError has what was wanted."""
from __future__ import annotations

import re
from typing import NamedTuple

from .calls import HALF
from .escapes import unescaped

COLOURS = {"black": 0, "red": 1, "green": 2, "yellow": 3, "blue": 4, "magenta": 5, "cyan": 6, "white": 7}
STYLES = {"bold": 1, "dim": 2, "italic": 3, "underline": 4, "blink": 5, "reverse": 7}
# The modes by the names of console_codes(4), in words.
MODES = {
    "insert": "IRM", "newline": "LNM", "display": "DECCRM", "cursor_keys": "DECCKM", "reverse": "DECSCNM",
    "origin": "DECOM", "autowrap": "DECAWM", "repeat": "DECARM", "visible": "DECTECM", "keypad": "DECPAM",
    "utf8": "ESC % G",
}  # fmt: skip
MOST_BYTES, MOST_SECONDS = 8_000_000, 86_400
PART = re.compile(r'\s*"((?:[^"\\]|\\.)*)"(?:\s*x\s*([0-9]{1,8})(?![0-9]))?')
WANTED_TEXT = 'wanted a text as "..", or several with . between them, each with x and a number behind it if repeated'


class Unknown:
    """The value `?`: it never holds, and --accept replaces it."""


class Attribute(NamedTuple):
    """Colours and styles: as the numbers of SGR, and in words."""

    numbers: tuple[int, ...]
    words: str


def quoted_part(text: str) -> tuple[bytes, str]:
    """The bytes of the texts in quotation marks at the beginning, and what follows them."""
    made: list[bytes] = []
    total, rest = 0, text
    while True:
        part = PART.match(rest)
        if not part:
            raise ValueError(f"{WANTED_TEXT}, found {rest[:40]!r}")
        given, count = unescaped(part[1]), int(part[2] or 1)
        total += len(given) * count
        if total > MOST_BYTES:
            raise ValueError(f"wanted at most {MOST_BYTES:,} bytes, found {total:,}")
        made.append(given * count)
        rest = rest[part.end() :].lstrip()
        if not rest.startswith("."):
            return b"".join(made), rest
        rest = rest[1:]


def quoted(text: str) -> bytes:
    """The bytes of texts in quotation marks."""
    given, rest = quoted_part(text)
    if rest:
        raise ValueError(f"{WANTED_TEXT}, found {rest[:40]!r}")
    return given


def as_text(given: bytes) -> str:
    """Bytes as a text."""
    try:
        return given.decode()
    except UnicodeDecodeError:
        raise ValueError("wanted a row in UTF-8") from None


def pattern(text: str) -> re.Pattern[str]:
    """A regular expression, in which ^ and $ are the ends of rows."""
    try:
        return re.compile(text, re.M)
    except (re.error, RecursionError, OverflowError) as fault:
        raise ValueError(f"wanted a regular expression of Python, found {text[:40]!r}: {fault}") from None


def number(text: str, least: int, most: int, what: str) -> int:
    """A decimal number within bounds."""
    if not (text.isascii() and text.isdigit() and len(text) < 10 and least <= int(text) <= most):
        raise ValueError(f"wanted {what} from {least} to {most}, found {text!r}")
    return int(text)


def seconds(text: str) -> float:
    """A number of seconds, with a fraction or without."""
    try:
        value = float(text)
    except ValueError:
        value = -1.0
    if not 0 <= value <= MOST_SECONDS:
        raise ValueError(f"wanted seconds from 0 to {MOST_SECONDS}, found {text!r}")
    return value


def size(text: str) -> tuple[int, int]:
    """The rows and columns of a screen."""
    words = text.split()
    if len(words) != 2:
        raise ValueError(f"wanted rows and columns, found {text!r}")
    return number(words[0], 1, 255, "rows"), number(words[1], 1, 255, "columns")


def place_of(now: tuple[int, int], text: str) -> tuple[int, int]:
    """A row and a column of the screen."""
    words = text.split(",")
    if len(words) != 2:
        raise ValueError(f"wanted a row and a column as 4,10, found {text!r}")
    rows, cols = now
    return number(words[0].strip(), 0, rows - 1, "a row"), number(words[1].strip(), 0, cols - 1, "a column")


def span_of(now: tuple[int, int], text: str) -> tuple[int, ...]:
    """A row and a column, or a row and the first and last column."""
    first, sign, last = text.partition("-")
    row, column = place_of(now, first)
    if not sign:
        return row, column
    return row, column, number(last.strip(), column, now[1] - 1, "a last column")


def box_of(now: tuple[int, int], text: str) -> tuple[int, ...]:
    """A rectangle: the first row and column, and those behind the last."""
    words, (rows, cols) = text.split(","), now
    if len(words) != 4:
        raise ValueError(f"wanted a rectangle as 0,0,2,10, whose last row and column aren't in it, found {text!r}")
    top, left = place_of(now, ",".join(words[:2]))
    bottom = number(words[2].strip(), top + 1, rows, "a row behind the rectangle")
    return top, left, bottom, number(words[3].strip(), left + 1, cols, "a column behind the rectangle")


def attribute(text: str) -> Attribute:
    """A colour of characters, one of the background, and styles."""
    words = text.split()
    if len(words) < 2 or words[0] not in COLOURS or words[1] not in COLOURS:
        colours = " ".join(COLOURS)
        raise ValueError(f"wanted two colours of {colours}, the character's and the background's, found {text!r}")
    styles = words[2:]
    for word in styles:
        if word not in STYLES or styles.count(word) > 1:
            raise ValueError(f"wanted each of {' '.join(STYLES)} at most once behind the colours, found {word!r}")
    numbers = [30 + COLOURS[words[0]], 40 + COLOURS[words[1]], *sorted(STYLES[word] for word in styles)]
    return Attribute(tuple(numbers), " ".join(words))


def code_point(text: str) -> int:
    """A code point, or the right half of a wide character."""
    if text == "half":
        return HALF
    if not re.fullmatch(r"U\+[0-9A-Fa-f]{4,6}", text) or int(text[2:], 16) > 0x10FFFF:
        raise ValueError(f"wanted U+ and 4 to 6 hexadecimal digits, or half, found {text!r}")
    return int(text[2:], 16)


def exit_status(text: str) -> int:
    """An exit status, or - and the number of a signal."""
    if text.startswith("-"):
        return -number(text[1:], 1, 64, "a signal")
    return number(text, 0, 255, "an exit status")


def mode_name(now: tuple[int, int], text: str) -> tuple[str]:
    """The name of a mode."""
    if text not in MODES:
        raise ValueError(f"wanted one of {' '.join(MODES)}, found {text!r}")
    return (text,)


def on_or_off(now: tuple[int, int], text: str) -> bool:
    """Whether a mode is on."""
    if text not in ("on", "off"):
        raise ValueError(f"wanted on or off, found {text!r}")
    return text == "on"


def nothing(now: tuple[int, int], text: str) -> tuple[()]:
    """Nothing is there."""
    if text:
        raise ValueError(f"wanted nothing between the assertion and =, found {text!r}")
    return ()


def row_number(now: tuple[int, int], text: str) -> tuple[int]:
    """A row of the screen."""
    return (number(text, 0, now[0] - 1, "a row"),)
