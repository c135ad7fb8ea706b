#!/usr/bin/env python3
"""Checks the pictures that crates/picture draws, by what SVG and docs/reference/screen.md want of them.

usage: check_picture.py [--picture PATH] [--vt PATH] [--browser PATH] [--streams N]

- Pictures of small texts have the colours, classes, places and characters that docs/reference/screen.md gives these
texts.
- Pictures of the recordings of examples/, of each byte, and of N random streams (40) are well-formed XML. In each the
  rectangles cover every row from the first column to the last, each text stands on its rectangle, each letter has the
  place of its cell, the texts of a row are the row that `vt screen` prints, and the title and the description have the
  size.
- The picture that README.md shows is that of its recording.
- Words that aren't rows and columns, a read that fails and a write that fails end with a status and its line.
- Chromium and rsvg-convert draw a picture without a window, and pixels of it have the colours of its cells. They draw a
  frame in it, and its lines have no gaps, if the font of `monospace` is one of those whose frames fill a line. A line
  names each of these checks that is skipped, since a program or such a font isn't installed.

Prints a line for each check that fails and last 'N passed, M failed'. Ends with status 1 if one fails, and with 2 and a
message if a program is missing or a check can't be run.
"""
import argparse
import os
import pathlib
import random
import shutil
import struct
import subprocess
import sys
import tempfile
import xml.etree.ElementTree as ElementTree
import zlib

sys.dont_write_bytecode = True
sys.path.insert(0, str(pathlib.Path(__file__).resolve().parents[1]))

from repository import TOP  # noqa: E402: after the folder that it stands in
from programs import find_for_check  # noqa: E402

SVG = "{http://www.w3.org/2000/svg}"
WIDTH, HEIGHT = 8, 15
SECONDS, BROWSER_SECONDS = 120, 300
BROWSERS = ["chromium", "chromium-browser", "google-chrome"]

# The colours 0 to 15 of the console in their order, red 1 and blue 4 (docs/reference/screen.md): 170 for a part, and
# bright ones 255 for a part and 85 for the others.
COLOURS = [
    "#000000", "#aa0000", "#00aa00", "#aaaa00", "#0000aa", "#aa00aa", "#00aaaa", "#aaaaaa",
    "#555555", "#ff5555", "#55ff55", "#ffff55", "#5555ff", "#ff55ff", "#55ffff", "#ffffff",
]
BLACK, RED, GREEN, YELLOW, BLUE, WHITE = (COLOURS[n] for n in (0, 1, 2, 3, 4, 7))
BRIGHT_WHITE, GREY = COLOURS[15], COLOURS[8]

# A text, and the texts of the first row: column, cells, characters, the colours of the character and of the
# background, and the class. The screens have 10 columns and one row, and their cursor is hidden.
ROWS = [
    (b"", [(0, 10, " " * 10, WHITE, BLACK, None)]),
    (b"a<b&c>d\"'", [(0, 10, "a<b&c>d\"' ", WHITE, BLACK, None)]),
    (b"\x1b[31mab\x1b[m", [(0, 2, "ab", RED, BLACK, None), (2, 8, " " * 8, WHITE, BLACK, None)]),
    (b"\x1b[34;43mab", [(0, 2, "ab", BLUE, YELLOW, None), (2, 8, " " * 8, WHITE, BLACK, None)]),
    (b"\x1b[31;44;7mab", [(0, 2, "ab", BLUE, RED, None), (2, 8, " " * 8, WHITE, BLACK, None)]),
    (b"\x1b[1mab", [(0, 2, "ab", BRIGHT_WHITE, BLACK, "bold"), (2, 8, " " * 8, WHITE, BLACK, None)]),
    (b"\x1b[5mab", [(0, 2, "ab", WHITE, BLACK, "blink"), (2, 8, " " * 8, WHITE, BLACK, None)]),
    (b"\x1b[1;5mab", [(0, 2, "ab", BRIGHT_WHITE, BLACK, "bold blink"), (2, 8, " " * 8, WHITE, BLACK, None)]),
    (b"\x1b[2mab", [(0, 2, "ab", GREY, BLACK, None), (2, 8, " " * 8, WHITE, BLACK, None)]),
    (b"\x1b[4mab", [(0, 2, "ab", BRIGHT_WHITE, BLACK, "bold"), (2, 8, " " * 8, WHITE, BLACK, None)]),
    (b"\x1b[3mab", [(0, 2, "ab", GREEN, BLACK, None), (2, 8, " " * 8, WHITE, BLACK, None)]),
    (b"\x1b[?5h\x1b[31mab", [(0, 2, "ab", BLACK, RED, None), (2, 8, " " * 8, BLACK, WHITE, None)]),
    (b"\x1b]P1123456\x1b[31mab", [(0, 2, "ab", "#123456", BLACK, None), (2, 8, " " * 8, WHITE, BLACK, None)]),
    (b"\x1b]P0ABCDEFab", [(0, 10, "ab" + " " * 8, WHITE, "#abcdef", None)]),
    ("a\u4e2db".encode(), [(0, 1, "a", WHITE, BLACK, None), (1, 2, "\u4e2d", WHITE, BLACK, None),
                           (3, 7, "b" + " " * 6, WHITE, BLACK, None)]),
    (b"\x1b%@\x1b[3h\x01\x1b[3l\x1b%G", [(0, 10, "\ufffd" + " " * 9, WHITE, BLACK, None)]),
    ("\ufffe\uffff".encode(), [(0, 10, "\ufffd\ufffd" + " " * 8, WHITE, BLACK, None)]),
]

# A text, the left and upper edge and the colour of the cursor, and what the description has of it.
CURSORS = [
    (b"ab\n", (2 * WIDTH, HEIGHT + 13, WHITE), "The cursor is in row 2 and column 3."),
    (b"\x1b[31mab\x1b[D", (WIDTH, 13, RED), "The cursor is in row 1 and column 2."),
    (b"\x1b[?5h", (0, 13, BLACK), "The cursor is in row 1 and column 1."),
    (b"\x1b[?25l", None, "The cursor is hidden."),
]

# The picture that a browser draws: 2 rows and 4 columns. Row 0 has a red, a green and a bright block and the cursor's
# cell; row 1 has a wide character on blue, a reversed space, and a space on a colour of a palette that was set.
DRAWN = b"\x1b]P5123456\x1b[41m \x1b[42m \x1b[0;1m\xe2\x96\x88\x1b[m\r\n"
DRAWN += b"\x1b[44m\xe4\xb8\xad\x1b[0;7m \x1b[0;45m \x1b[m\x1b[1;4H"
# Row, column, the place in the cell, and the colour there.
PIXELS = [
    (0, 0, (4, 8), RED), (0, 1, (4, 8), GREEN), (0, 2, (4, 8), BRIGHT_WHITE), (0, 3, (4, 8), BLACK),
    (0, 3, (4, 14), WHITE), (0, 3, (0, 12), BLACK), (1, 1, (7, 0), BLUE), (1, 1, (7, 7), BLUE),
    (1, 2, (4, 8), WHITE), (1, 3, (4, 8), "#123456"),
]

# A frame of 4 rows and 6 columns, and its lines from one corner to the other: a strip that each lies in.
FRAME = "\x1b[?25l┌────┐\r\n│    │\r\n│    │\r\n└────┘".encode()
LINES = [
    ("upper", (4, 0), (5 * WIDTH + 3, HEIGHT - 1)),
    ("lower", (4, 3 * HEIGHT), (5 * WIDTH + 3, 4 * HEIGHT - 1)),
    ("left", (0, 8), (WIDTH - 1, 3 * HEIGHT + 5)),
    ("right", (5 * WIDTH, 8), (6 * WIDTH - 1, 3 * HEIGHT + 5)),
]
# Fonts whose frames are as wide as a column and as high as a line of 15 pixels, at 13.3 pixels.
FONTS = "DejaVu Sans Mono,Liberation Mono,Noto Sans Mono,Hack,JetBrains Mono".split(",")

# The pictures that pages show: the file, the recording, its rows and columns.
STORED = [("docs/files.svg", "examples/pictures/files", "25", "80")]


class Check:
    """Counts what holds, and prints what doesn't."""

    def __init__(self):
        self.passed = self.failed = 0

    def holds(self, is_so, what):
        """One check."""
        if is_so:
            self.passed += 1
        else:
            self.failed += 1
            print(f"failed: {what}")


def run(words, given=b"", seconds=SECONDS, **streams):
    """Status, out and err of a program."""
    options = {"stdout": subprocess.PIPE, **streams}
    if "stdin" not in options:
        options["input"] = given
    ran = subprocess.run(words, stderr=subprocess.PIPE, timeout=seconds, check=False, **options)
    return ran.returncode, ran.stdout or b"", ran.stderr


def shapes(picture):
    """The elements of a picture, or none if it isn't well-formed XML or not an SVG element."""
    try:
        top = ElementTree.fromstring(picture)
    except ElementTree.ParseError as fault:
        print(f"not well-formed: {fault}")
        return None
    return list(top) if top.tag == SVG + "svg" else None


def cells_of(units, size):
    """How many cells a number of units is; -1 if that isn't whole."""
    return int(units) // size if int(units) % size == 0 else -1


def letters_of(text, x, count):
    """The characters of a text of so many cells from column x on; None if one of them isn't at the place of its cell."""
    letters = text.text or ""
    is_so = set(letters) <= {" "}
    for word in text:
        wanted = [WIDTH * (x + len(letters) + i) for i in range(len(word.text) if count == len(whole(text)) else count)]
        is_so &= word.tag == SVG + "tspan" and " " not in word.text and set(word.tail or "") <= {" "}
        is_so &= word.attrib == {"x": " ".join(map(str, wanted))}
        letters += word.text + (word.tail or "")
    return letters if is_so else None


def whole(text):
    """All characters of a text."""
    return "".join(text.itertext())


def drawn_rows(elements):
    """For each row its texts: column, cells, characters, the two colours, and the class. Each follows its rectangle."""
    rows, box = {}, None
    for element in elements:
        if element.tag == SVG + "rect":
            box = element.attrib
        elif element.tag == SVG + "text":
            letters = element.attrib
            y = cells_of(box["y"], HEIGHT)
            x, count = cells_of(box["x"], WIDTH), cells_of(box["width"], WIDTH)
            stands = int(letters["y"]) == HEIGHT * y + 11 and box["height"] == str(HEIGHT)
            found = letters_of(element, x, count)
            if letters["x"] == box["x"] and stands and found is not None:
                rows.setdefault(y, []).append((x, count, found, letters["fill"], box["fill"], letters.get("class")))
    return rows


def check_rows(check, program):
    """The small texts."""
    for given, wanted in ROWS:
        status, picture, _ = run([program, "1", "10"], given + b"\x1b[?25l")
        elements = shapes(picture) if status == 0 else None
        found = drawn_rows(elements).get(0) if elements else None
        check.holds(found == wanted, f"{given!r}: wanted {wanted}, found {found}")


def check_cursors(check, program):
    """The cursor and its words."""
    for given, wanted, words in CURSORS:
        _, picture, _ = run([program, "2", "5"], given)
        elements = shapes(picture) or []
        lines = [element.attrib for element in elements if element.get("height") == "2"]
        found = (int(lines[0]["x"]), int(lines[0]["y"]), lines[0]["fill"]) if len(lines) == 1 else None
        check.holds(found == wanted, f"{given!r}: wanted the cursor {wanted}, found {found}")
        found = "".join(element.text for element in elements if element.tag == SVG + "desc")
        wanted = f"A text console of 2 rows and 5 columns. {words}"
        check.holds(found == wanted, f"{given!r}: the description is {found!r}")


def random_stream(number):
    """Bytes that print, colour, move, erase and set modes, by a number."""
    chance = random.Random(number)
    parts = []
    for _ in range(chance.randrange(20, 400)):
        kind = chance.randrange(8)
        if kind < 2:
            parts.append(bytes(chance.randrange(32, 127) for _ in range(chance.randrange(12))))
        elif kind == 2:
            parts.append(chr(chance.choice([0xE9, 0x2500, 0x2502, 0x1D400, 0x4E2D, 0xAC00, 0x1F600, 0x301, 0xFFFE, 0x85])).encode())
        elif kind == 3:
            parts.append(b"\x1b[%d;%dm" % (chance.randrange(10), chance.randrange(30, 48)))
        elif kind == 4:
            parts.append(b"\x1b[%d;%dH" % (chance.randrange(30), chance.randrange(90)))
        elif kind == 5:
            parts.append(b"\x1b[%d%c" % (chance.randrange(4), chance.choice(b"JKPX@LM")))
        elif kind == 6:
            parts.append(chance.choice([b"\x1b[?5h", b"\x1b[?25l", b"\x1b[?25h", b"\x1b]P%c%06x" % (
                chance.choice(b"0123456789abcdef"), chance.randrange(1 << 24)), b"\r\n", b"\x1b[3h\x02\x1b[3l"]))
        else:
            parts.append(bytes(chance.randrange(256) for _ in range(chance.randrange(6))))
    return b"".join(parts)


def streams(count):
    """Names, rows, columns and bytes."""
    for path in sorted((TOP / "examples/recordings").glob("*.rows")):
        yield path.stem, 25, 80, path.with_suffix("").read_bytes()
    for _, stream, rows, cols in STORED:
        yield stream, int(rows), int(cols), (TOP / stream).read_bytes()
    for byte in range(256):
        yield f"byte {byte:02x}", 2, 5, b"\x1b[3h" + bytes([byte]) + b"a"
    yield "the largest screen", 255, 255, b"\x1b[32m#" * 70000
    yield "the smallest screen", 1, 1, b"ab"
    for number in range(count):
        chance = random.Random(-number - 1)
        yield f"random stream {number}", chance.randrange(1, 40), chance.randrange(1, 100), random_stream(number)


def is_row(texts, wanted, cols):
    """The texts cover a row of so many columns, and are this row of `vt screen`, which prints ? for what isn't text."""
    at = 0
    for x, count, _, _, _, _ in texts:
        if x != at or count < 1:
            return False
        at += count
    found = "".join(text for _, _, text, _, _, _ in texts)
    signs = [a == b or (a == "\ufffd" and b in "?\ufffe\uffff") for a, b in zip(found, wanted)]
    return at == cols and len(found) == len(wanted) and all(signs)


def check_streams(check, program, vt, count):
    """Many screens."""
    for name, rows, cols, given in streams(count):
        size = [str(rows), str(cols)]
        status, picture, _ = run([program, *size], given)
        elements = shapes(picture) if status == 0 else None
        if elements is None:
            check.holds(False, f"{name}: no picture, status {status}")
            continue
        shown = [line[1:-1] for line in run([vt, "screen", *size], given)[1].decode().split("\n")[:-1]]
        drawn = drawn_rows(elements)
        wrong = [y for y in range(rows) if not is_row(drawn.get(y, []), shown[y], cols)]
        check.holds(sorted(drawn) == list(range(rows)) and not wrong, f"{name}: rows that aren't as shown: {wrong[:5]}")
        words = f"{rows} rows and {cols} columns"
        heads = [element.text for element in elements[:2]]
        check.holds(heads[0] == f"A screen of {words}" and heads[1].startswith(f"A text console of {words}. "),
                    f"{name}: the title and the description are {heads}")


def check_stored(check, program):
    """The pictures of pages."""
    for path, stream, *size in STORED:
        _, picture, _ = run([program, *size], (TOP / stream).read_bytes())
        check.holds(picture == (TOP / path).read_bytes(), f"{path} isn't the picture of {stream}")


def check_endings(check, program):
    """The statuses."""
    usage = (1, b"", b"picture: usage: picture R C\n")
    long = "1" * 40
    for words in ["", "1", "0 1", "1 0", "256 1", "1 256", "1 2 3", "a b", "+1 2", "-1 2", f"{long} 2", f"1 2 {long}"]:
        check.holds(run([program, *words.split()]) == usage, f"picture {words}: not refused as usage")
    folder = os.open(TOP, os.O_RDONLY)
    found = run([program, "2", "5"], stdin=folder)
    os.close(folder)
    check.holds(found == (2, b"", b"picture: read failed\n"), f"a read that fails: {found}")
    with open("/dev/full", "wb") as full:
        found = run([program, "2", "5"], b"a", stdout=full)
    check.holds(found == (3, b"", b"picture: write failed\n"), f"a write that fails: {found}")


def pixels_of(image):
    """The rows of an image in PNG (ISO/IEC 15948) with 8 bits for a part, each pixel its parts."""
    at, packed, head = 8, b"", None
    while at < len(image):
        length, kind = struct.unpack(">I4s", image[at:at + 8])
        if kind == b"IHDR":
            head = struct.unpack(">IIBBBBB", image[at + 8:at + 8 + length])
        elif kind == b"IDAT":
            packed += image[at + 8:at + 8 + length]
        at += length + 12
    width, height, depth, colour = head[:4]
    parts = {2: 3, 6: 4}.get(colour)
    if parts is None or depth != 8 or head[6] != 0:
        raise ValueError("the browser's image isn't of the form that is read here")
    given, line, rows = zlib.decompress(packed), bytes(width * parts), []
    for y in range(height):
        start = y * (width * parts + 1)
        kind, coded, now = given[start], given[start + 1:start + 1 + width * parts], bytearray()
        for i, byte in enumerate(coded):
            left = now[i - parts] if i >= parts else 0
            up, corner = line[i], line[i - parts] if i >= parts else 0
            now.append((byte + (0, left, up, (left + up) // 2, paeth(left, up, corner))[kind]) % 256)
        line = bytes(now)
        rows.append([line[i:i + parts] for i in range(0, len(line), parts)])
    return rows


def paeth(left, up, corner):
    """The nearest of three neighbours to their plane (ISO/IEC 15948, 9.4)."""
    return min((left, up, corner), key=lambda part: abs(left + up - corner - part))


def by_browser(browser, picture, folder):
    """The image that a browser draws."""
    source, image = pathlib.Path(folder, "picture.svg"), pathlib.Path(folder, "picture.png")
    source.write_bytes(picture)
    options = ["--headless", "--no-sandbox", "--disable-gpu", "--hide-scrollbars", "--force-device-scale-factor=1"]
    options += [f"--user-data-dir={folder}/profile", "--window-size=200,200", f"--screenshot={image}"]
    run([browser, *options, source.as_uri()], seconds=BROWSER_SECONDS)
    return image.read_bytes() if image.exists() else b""


def by_converter(converter, picture, folder):
    """The image that rsvg-convert draws."""
    return run([converter], picture)[1]


def check_drawn(check, program, drawer, drawn, has_frames):
    """The pixels of pictures that a program draws."""
    with tempfile.TemporaryDirectory() as folder:
        images = [drawn(drawer, run([program, *size], given)[1], folder)
                  for size, given in [(("2", "4"), DRAWN), (("4", "6"), FRAME)]]
    check.holds(all(images), f"{drawer} draws no image")
    if all(images):
        rows, frame = map(pixels_of, images)
        check_pixels(check, drawer, rows)
        if has_frames:
            check_frame(check, drawer, frame)


def check_pixels(check, drawer, rows):
    """The pixels of cells."""
    for y, x, (across, down), wanted in PIXELS:
        found = "#" + rows[HEIGHT * y + down][WIDTH * x + across][:3].hex()
        what = f"{drawer}: row {y}, column {x}, pixel {across},{down}: wanted {wanted}, found {found}"
        check.holds(found == wanted, what)
    letters = {bytes(pixel[:3]).hex() for line in rows[HEIGHT:2 * HEIGHT] for pixel in line[:2 * WIDTH]}
    check.holds(len(letters) > 1, f"{drawer}: the wide character isn't drawn")


def check_frame(check, drawer, rows):
    """The lines of a frame: each pixel from their first to their last one has something else than the background."""
    for what, (left, top), (right, bottom) in LINES:
        is_drawn = [[any(rows[y][x][:3]) for x in range(left, right + 1)] for y in range(top, bottom + 1)]
        steps = is_drawn if bottom - top > right - left else zip(*is_drawn)
        gaps = sum(not any(step) for step in steps)
        check.holds(gaps == 0, f"{drawer}: the {what} line of a frame has {gaps} gaps")


def check_images(check, program, browser):
    """The images of all programs that are there."""
    font = run(["fc-match", "-f", "%{family[0]}", "monospace"])[1].decode() if shutil.which("fc-match") else "none known"
    if font not in FONTS:
        print(f"skipped: the frames of a picture: the font of monospace is {font}")
    drawers = [
        ("Chromium", browser or next(filter(None, map(shutil.which, BROWSERS)), None), by_browser),
        ("rsvg-convert", shutil.which("rsvg-convert"), by_converter),
    ]
    for name, drawer, drawn in drawers:
        if drawer:
            check_drawn(check, program, drawer, drawn, font in FONTS)
        else:
            print(f"skipped: the pixels of a picture: {name} isn't installed")


def main():
    """Runs the checks."""
    parser = argparse.ArgumentParser(usage=__doc__.split("usage: ")[1].split("\n")[0])
    parser.add_argument("--picture")
    parser.add_argument("--vt")
    parser.add_argument("--browser")
    parser.add_argument("--streams", type=int, default=40)
    given = parser.parse_args()
    given.picture, given.vt = str(find_for_check("picture", given.picture)), str(find_for_check("vt", given.vt))
    check = Check()
    check_rows(check, given.picture)
    check_cursors(check, given.picture)
    check_streams(check, given.picture, given.vt, given.streams)
    check_stored(check, given.picture)
    check_endings(check, given.picture)
    check_images(check, given.picture, given.browser)
    print(f"{check.passed} passed, {check.failed} failed")
    return 1 if check.failed else 0


if __name__ == "__main__":
    try:
        sys.exit(main())
    except (OSError, ValueError, LookupError, struct.error, zlib.error, subprocess.SubprocessError) as fault:
        print(f"check_picture.py: {fault}", file=sys.stderr)
        sys.exit(2)
