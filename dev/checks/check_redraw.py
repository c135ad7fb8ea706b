#!/usr/bin/env python3
"""Draws generated screens again, and compares what comes back.

usage: check_redraw.py [N]

Makes N byte streams (500 if there is no N) from fixed seeds, with every final byte of the effect table, text in UTF-8
and bytes of the tables. `redraw` turns each into the text that draws its screen, or refuses. `vt play` writes
that text to a console which shows another stream's screen, and dumps it (vcs(4)): the characters, the attribute bytes
and the cursor are those of a console that got the stream itself. Then both get the same bytes more, which show the
pen, the modes, the tab stops, the region, the tables and the saved cursor, and are dumped again with their reports.

A screen may be refused only if no text draws one of its cells, and has to be then: a second reading goes through the
dump of the screen by docs/reference/redraw.md ("What can be drawn"). The page's other reasons, which are about the
state, apply to no screen that bytes alone made. At least three quarters of the screens have to come back.

Prints how many screens came back, how many were refused and how long the texts are; ends with status 1 if a screen
didn't come back, was refused without such a cell or drawn in spite of it, or if too few came back, with 2 if a
program isn't there, and with 3 if one fails.
"""
import collections
import concurrent.futures
import os
import pathlib
import random
import subprocess
import sys
import unicodedata

sys.dont_write_bytecode = True
sys.path.insert(0, str(pathlib.Path(__file__).resolve().parents[1]))

import repository  # noqa: E402,F401: it has the folders of the modules below
from console_play import ATTRIBUTES, CODES, REPORTS, Console, bytes_of  # noqa: E402
from programs import find_for_check  # noqa: E402
from tool_files import Stop, number, reason  # noqa: E402

SECONDS = 20
FINE, REFUSED = 0, 5
# The most bytes of a write.
PIECE = 4_096
# The right half of a character of two columns, in a dump of codes (docs/reference/screen.md).
HALF = 0x110000

SIZES = [(1, 1), (1, 9), (2, 2), (3, 7), (4, 40), (5, 17), (6, 80), (7, 23)]
WORDS = ["a", "word", "Grüße", "中文", "é̄", "▒█", "  ", "x" * 30]
FINALS = b"@ABCDEFGHJKLMPXadefghlmnqrsu`]"
MODES = [1, 3, 4, 5, 6, 7, 8, 20, 25]
STYLES = [0, 1, 2, 3, 4, 5, 7, 10, 11, 12, 21, 22, 23, 24, 25, 27, 38, 39, 48, 49]
COLOURS = [*range(30, 38), *range(40, 48), *range(90, 98), *range(100, 108)]
ESCAPES = [b"\x1bc", b"\x1bD", b"\x1bE", b"\x1bH", b"\x1bM", b"\x1bZ", b"\x1b7", b"\x1b8", b"\x1b>", b"\x1b=", b"\x1b#8"]
ESCAPES += [b"\x1b%" + bytes([final]) for final in b"@G8"] + [b"\x1b" + bytes([mid, final]) for mid in b"()" for final in b"B0UK"]
ESCAPES += [b"\x1b]R", b"\x1b]P3abcdef", b"\x1b]P0102030"]
# No string and no character is open behind it: CAN ends what is.
QUIET = b"\x18"
# What shows the state: text, the tab stops, the tables, a line feed, the pen of erased cells, the saved cursor, the region's
# end, the modes, and two reports.
PROBE = b"A\xc3\xa9~_\t|\x0e_~\x0f\r\tq\n\x1b[K\x1b[6nins\x1b8sv\x1b[6n\x1b[99;1Hend\nmore\x1bM\x1b[6n\x1b[0mz\x1b[1mw\x1b[4mu\x1b[6n"


def sequence(rng):
    """A control sequence of some numbers."""
    final = rng.choice(FINALS)
    if final in b"hl":
        private = rng.random() < 0.6
        return b"\x1b[" + (b"?" if private else b"") + b"%d" % rng.choice(MODES) + bytes([final])
    if final == ord("m"):
        numbers = rng.choices([*STYLES, *COLOURS], k=rng.randint(1, 4))
        return b"\x1b[" + b";".join(b"%d" % n for n in numbers) + b"m"
    if final == ord("]"):
        return b"\x1b[%d;%d]" % (rng.choice([1, 2, 8]), rng.randrange(18))
    numbers = [rng.choice([0, 1, 1, 2, 3, 5, 9, 40]) for _ in range(rng.randrange(3))]
    return b"\x1b[" + b";".join(b"%d" % n for n in numbers) + bytes([final])


def stream(rng):
    """A text with all of the effect table, which leaves nothing unfinished."""
    made, pieces = bytearray(), rng.choice([0, 3, 20, 80])
    raw = rng.random() < 0.15
    for _ in range(pieces):
        how = rng.random()
        if how < 0.45:
            made += rng.choice(WORDS).encode()
        elif how < 0.75:
            made += sequence(rng)
        elif how < 0.88:
            made += rng.choice(ESCAPES)
        elif how < 0.96:
            made += rng.choice([b"\r\n", b"\n", b"\t", b"\b", b"\r", b"\x0e", b"\x0f", b"\x07"])
        elif raw:
            made += bytes(rng.randrange(256) for _ in range(3)) + QUIET
    return bytes(made) + QUIET


def text_of(size, given):
    """The text that draws the stream's screen, or None if it is refused."""
    words = [str(find_for_check("redraw")), *map(str, size)]
    try:
        ran = subprocess.run(words, input=given, capture_output=True, timeout=SECONDS, check=False)
    except OSError as fault:
        raise Stop(3, f"{words[0]}: {reason(fault)}") from None
    except subprocess.TimeoutExpired:
        raise Stop(3, f"{' '.join(words)} didn't end within {SECONDS} s") from None
    if ran.returncode not in (FINE, REFUSED):
        raise Stop(3, f"{' '.join(words)} ended with status {ran.returncode}: {ran.stderr.decode('utf-8', 'replace').strip()[:200]}")
    return ran.stdout if ran.returncode == FINE else None


def writes_of(text):
    """The calls that write a text."""
    return [f"write 0 {text[at : at + PIECE].hex()}" for at in range(0, len(text), PIECE)]


def shown(console, size, text):
    """What a console shows after this text, and what it shows and reports after the probe."""
    calls = [*writes_of(text), ATTRIBUTES, CODES, REPORTS, *writes_of(PROBE), REPORTS, ATTRIBUTES, CODES]
    answers = console.play(*size, calls).answers
    return answers[:2] + answers[3:]


def prints_itself(code):
    """Whether a code is that of a character of one column or two which isn't a control character."""
    if not (0x20 <= code <= 0x7E or 0xA0 <= code <= 0x10FFFF) or 0xD800 <= code <= 0xDFFF:
        return False
    return unicodedata.category(chr(code)) not in ("Mn", "Me", "Cf")


def is_wide(code):
    """Whether a code is that of a character of two columns."""
    return code < HALF and unicodedata.east_asian_width(chr(code)) in ("W", "F")


def undrawable_cell(size, attributes, codes):
    """The place and the code of the first cell that no text draws, by docs/reference/redraw.md, or None."""
    rows, columns = size
    cells = [int.from_bytes(codes[at : at + 4], "little") for at in range(0, len(codes), 4)]
    # (a dump with attributes begins with four numbers, and has a character and a byte for each cell)
    colours = attributes[5::2]
    if list(attributes[:2]) != [rows, columns] or len(cells) != rows * columns or len(colours) != rows * columns:
        raise Stop(3, f"the dumps of a screen of {rows} by {columns} have another size")
    for place, code in enumerate(cells):
        if code == HALF:
            follows = place % columns > 0 and is_wide(cells[place - 1])
            is_right = follows and colours[place] == colours[place - 1]
        else:
            is_right = prints_itself(code)
        is_cut = is_wide(code) and (place % columns == columns - 1 or cells[place + 1] != HALF)
        if not is_right or is_cut:
            return f"the cell in row {place // columns}, column {place % columns} has the code {code:X}"
    return None


def judge(console, i):
    """How a screen came back: 'same', 'refused' or why not; and the bytes of its text and its cells."""
    rng = random.Random(f"redraw {i}")
    size = rng.choice(SIZES)
    given, other = stream(rng), stream(rng)
    text, wanted = text_of(size, given), shown(console, size, given)
    bad = undrawable_cell(size, *map(bytes_of, wanted[:2]))
    if text is None:
        return "refused" if bad else "it was refused, and each cell has a character that prints itself", 0, 0
    if bad:
        return f"it wasn't refused, and {bad}", len(text), size[0] * size[1]
    got = shown(console, size, other + text)
    names = ["characters, attributes or cursor", "codes", "reports", "attributes behind the probe", "codes behind the probe"]
    wrong = [name for name, a, b in zip(names, wanted, got, strict=True) if a != b]
    return f"{', '.join(wrong)} of {size[0]} by {size[1]}" if wrong else "same", len(text), size[0] * size[1]


def main():
    try:
        count = number(sys.argv[1], 1, 1_000_000, "screens") if len(sys.argv) > 1 else 500
    except ValueError as fault:
        raise Stop(1, f"check_redraw.py: {fault}") from None
    if len(sys.argv) > 2:
        raise Stop(1, "usage: check_redraw.py [N]")
    find_for_check("redraw")
    console = Console(find_for_check("vt"))
    with concurrent.futures.ThreadPoolExecutor(os.cpu_count() or 1) as pool:
        results = list(pool.map(lambda i: judge(console, i), range(count)))
    kinds = collections.Counter(kind if kind in ("same", "refused") else "wrong" for kind, _, _ in results)
    for i, (kind, _, _) in enumerate(results):
        if kind not in ("same", "refused"):
            print(f"screen {i}: {kind}")
    text, cells = sum(length for _, length, _ in results), sum(cells for _, _, cells in results)
    least = 3 * count // 4
    if kinds["same"] < least:
        print(f"too few screens came back: {least} were wanted")
    print(f"{kinds['same']} screens came back, {kinds['wrong']} didn't, {kinds['refused']} weren't redrawable;", f"{text} bytes for {cells} cells")
    return 1 if kinds["wrong"] or kinds["same"] < least else 0


if __name__ == "__main__":
    try:
        sys.exit(main())
    except Stop as stop:
        print(stop, file=sys.stderr)
        sys.exit(stop.status)
