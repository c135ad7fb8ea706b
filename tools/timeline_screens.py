"""The screens at the end of a session, in their colours.

The final text of a journal has the rows of each screen without colours. So the calls that changed a console are played
on a console of its own, and its colours count if it has the rows and the cursor of the final text.
"""
import contextlib
import itertools
import re
import struct

from console_play import ATTRIBUTES, CODES, Console, bytes_of, shown_character
from tool_files import Stop

SCREEN = re.compile(r"%screen (\d+) (\d+) (\d+) (\d+) (\d+) (\d+)")
PALETTE = re.compile(rb" getpal 0 = bytes ([0-9a-f]{96})\n")
# The number of a palette's colour by its number in an attribute byte, which counts blue 1 and red 4.
PALETTE_NUMBERS = (0, 4, 2, 6, 1, 5, 3, 7)
CHANGES = ("resize", "setmap", "setpal")


class Screen:
    """A screen of the final text."""

    def __init__(self, numbers):
        self.number, self.height, self.width, self.x, self.y, self.bells = numbers
        self.rows = []


class Run:
    """Cells of one row next to each other with the same attribute: their characters and their look."""

    def __init__(self, letters, attribute, palette):
        self.letters = letters
        self.ink = palette[PALETTE_NUMBERS[attribute & 7] + (attribute & 8)]
        self.ground = palette[PALETTE_NUMBERS[attribute >> 4 & 7]]
        # (bright black is the grey of half-bright text)
        self.is_bold = attribute & 0xF > 8


def final_screens(final):
    """The screens of the final text, one after another; a queue ends each."""
    screen = None
    for line in final.split("\n"):
        found = SCREEN.fullmatch(line)
        if found:
            screen = Screen(map(int, found.groups()))
        elif line.startswith("|") and screen:
            screen.rows.append(line[1:-1])
        elif line.startswith("%queue") and screen:
            yield screen
            screen = None


class Changes:
    """The calls that changed the screen of each console, in their words for descriptor 0."""

    def __init__(self, entries):
        self.calls, self.opened = {}, {}
        for entry in entries:
            # (words that aren't those of a call change nothing)
            with contextlib.suppress(LookupError, ValueError):
                if entry["error"] is None:
                    self.take(entry, entry["caller"], *entry["call"].split(" "))

    def take(self, entry, caller, name, *words):
        """One call that was done."""
        descriptor = (caller, words[0] if words else None)
        number = entry["answer"].partition(" ")[2]
        if name == "open":
            self.opened[caller, number] = entry["front"] if words == ("0",) else int(words[0])
        elif name == "close":
            self.opened.pop(descriptor, None)
        elif name == "disallocate":
            self.free(int(words[1]))
        elif descriptor in self.opened and name in (*CHANGES, "write"):
            # (a write may take a part of its bytes)
            words = (words[0], words[1][: 2 * int(number)]) if name == "write" and words[1] != "-" else words
            self.calls.setdefault(self.opened[descriptor], []).append(" ".join([name, "0", *words[1:]]))

    def free(self, number):
        """A console that is freed begins anew; 0 frees all that nobody uses, and those aren't known here."""
        if number:
            self.calls.pop(number, None)
        else:
            self.calls.clear()

    def of(self, console):
        return self.calls.get(console, [])


def size_at_start(screens, changes):
    """The size that each screen begins with, if there is one that kept it."""
    kept = [it for it in screens if not any(call.startswith("resize") for call in changes.of(it.number))]
    return (kept[0].height, kept[0].width) if kept else None


def played(console, size, calls):
    """The attributes, the codes and the palette after these calls."""
    found = console.play(*size, [*calls, ATTRIBUTES, CODES, "getpal 0"])
    attributes, codes = map(bytes_of, found.answers)
    parts = bytes.fromhex(PALETTE.search(found.out)[1].decode())
    return attributes, codes, ["#" + parts[at : at + 3].hex() for at in range(0, 48, 3)]


def runs_of(console, screen, size, calls):
    """The runs of each row; None if another screen than that of the final text comes of the calls."""
    attributes, codes, palette = played(console, size, calls)
    if tuple(attributes[:4]) != (screen.height, screen.width, screen.x, screen.y):
        return None
    signs = [shown_character(code) for code in struct.unpack(f"<{screen.height * screen.width}I", codes)]
    cells = list(zip(signs, attributes[5::2]))
    rows = [cells[at : at + screen.width] for at in range(0, len(cells), screen.width)]
    if ["".join(sign for sign, _ in row) for row in rows] != screen.rows:
        return None
    return [[Run("".join(sign for sign, _ in run), attribute, palette)
             for attribute, run in itertools.groupby(row, lambda cell: cell[1])] for row in rows]


def colours_of(program, entries, final):
    """For each console whose colours are known the runs of its rows; none without the program `vt`."""
    screens, changes, found = list(final_screens(final)), Changes(entries), {}
    size = size_at_start(screens, changes)
    for screen in screens if program and size else []:
        try:
            runs = runs_of(Console(program), screen, size, changes.of(screen.number))
        except (Stop, LookupError, TypeError, ValueError, struct.error):
            runs = None
        if runs:
            found[screen.number] = runs
    return found
