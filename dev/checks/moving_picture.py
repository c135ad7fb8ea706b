#!/usr/bin/env python3
"""Compares a moving picture in Chromium with the still pictures of its frames.

usage: moving_picture.py FILE.cast FILE.svg

FILE.svg is the moving picture of FILE.cast by tools/animation.py. Its animations are held at the moment of each STEP-th
frame and of the last one, and the browser's image is compared with that of the still picture of the screen then. Both
are the same, except that frames of lines, which reach into the next row, are cut at its edge: a screen that has some
may differ in one of 200 pixels. Prints a line for each frame that differs. Status 1: one does; 5: there is no Chromium.
"""
import base64
import pathlib
import sys
import tempfile

sys.dont_write_bytecode = True
sys.path.insert(0, str(pathlib.Path(__file__).resolve().parents[1]))

import repository  # noqa: E402,F401: it has the folders of the modules below
import package  # noqa: E402
from browser import Browser, installed  # noqa: E402
from check_picture import pixels_of  # noqa: E402

sys.path.insert(0, str(package.FOLDER))
from libvt import animation, casts  # noqa: E402: after the folder of the package

RATE, PAUSE, STEP, LEFT_OUT = 20.0, 2.0, 5, 1 / 200
HOLD = "document.getAnimations().map(it => {{ it.pause(); it.currentTime = {} }}).length"


def stills(cast):
    """The picture of the screen at the end of each frame."""
    player, drawn = animation.Player(cast), []
    for group in animation.bursts(cast.events, RATE):
        for event in group:
            player.take(event)
        drawn.append(player.screen.picture())
    return drawn


def image(browser, path, milliseconds, size):
    """What the browser shows of a picture at a moment, in PNG."""
    browser.open(pathlib.Path(path).absolute().as_uri())
    browser.value(HOLD.format(milliseconds))
    clip = {"x": 0, "y": 0, "width": size[0], "height": size[1], "scale": 1}
    return base64.b64decode(browser.ask("Page.captureScreenshot", format="png", clip=clip)["data"])


def unlike(one, other):
    """The part of the pixels in which two images differ."""
    rows = list(zip(pixels_of(one), pixels_of(other)))
    return sum(a != b for first, second in rows for a, b in zip(first, second)) / sum(len(row) for row, _ in rows)


def main():
    program = installed()
    if program is None:
        return 5
    cast = casts.read_cast(pathlib.Path(sys.argv[1]).read_text(encoding="utf-8"))
    frames, drawn = animation.frames_of(cast, RATE, PAUSE), stills(cast)
    size = animation.CELL * cast.columns, frames[0].height * cast.rows
    failed = 0
    with tempfile.TemporaryDirectory() as folder:
        still = pathlib.Path(folder, "still.svg")
        browser = Browser(program, folder)
        for number in sorted({*range(0, len(frames), STEP), len(frames) - 1}):
            moment = 1000 * frames[number].moment + 1
            still.write_text(drawn[number], encoding="utf-8")
            one, other = image(browser, sys.argv[2], moment, size), image(browser, still, moment, size)
            part = 0 if one == other else unlike(one, other)
            has_lines = any("\u2500" <= character <= "\u257f" for character in drawn[number])
            if part > (LEFT_OUT if has_lines else 0):
                failed += 1
                print(f"frame {number}: {100 * part:.2f} % of the pixels differ")
        browser.close()
    return 1 if failed else 0


if __name__ == "__main__":
    sys.exit(main())
