#!/usr/bin/env python3
"""Draws an asciinema recording as one moving picture in SVG, without a script, or one moment of it as a still picture.

usage: python3 -m libvt.animation [--at S | --pause S --rate N --still S] [--size R C] [--out FILE] FILE.cast

The cells of each frame are those of the library's picture (Screen.picture). Each row is a strip of all its states, one
below the other, of which one is seen at a time; keyframes of CSS move the strips. Between two states is an empty row,
since letters may be higher than a row. The background of a row reaches one pixel below it, under the next row, so no
line is seen between two rows at any scale. Output that is less than 1/N seconds apart (20) is one frame. A pause is at
most S seconds long (2), and so is the one at the end. A viewer that reduces motion, or moves nothing, shows the last
frame; with --still S it shows the one of S seconds after the start of the picture.

--at S prints the still picture of the screen S seconds after the start of the recording. --size has the rows and
columns of a recording that doesn't have them. Statuses: 0 the picture was written; 1 the words or the recording aren't
of the form, or a file can't be read or written.
"""
from __future__ import annotations

import functools
import math
import re
import sys
from typing import Iterator, NamedTuple

from .calls import OutOfRange, Screen
from .casts import BadCast, Cast, read_cast
from .command_line import Words, called
from .expect_values import seconds
from .expect_values import size as size_of
from .record import Stop, read_text, write_bytes
from .terminal import Event

CELL = 8
OVERLAP = 1
# An element of a picture, with its place.
ELEMENT = re.compile(r"<(rect|text) x='([0-9]+)' y='([0-9]+)'(?: width='[0-9]+' height='([0-9]+)' fill='([^']+)')?")
STILL = "@media(prefers-reduced-motion:reduce){g{animation:none!important}}"


class Cursor(NamedTuple):
    """The cursor of a picture: its column and row in pixels, and its colour."""

    x: int
    y: int
    fill: str


class Frame(NamedTuple):
    """A frame: its moment, its size in rows and columns, the height of a row in pixels, its rows as they are drawn at
    the top of a picture, the cursor, and the first element and the style of the picture."""

    moment: float
    size: tuple[int, int]
    height: int
    rows: list[str]
    cursor: Cursor | None
    head: str
    style: str


def moved(line: str, pixels: int) -> str:
    """An element that is lower by so many pixels."""
    return re.sub(r" y='([0-9]+)'", lambda match: f" y='{int(match[1]) + pixels}'", line, count=1)


def deepened(line: str, height: int) -> str:
    """An element of a row; a background reaches below the row."""
    return re.sub(rf"^(<rect [^>]* height=)'{height}'", rf"\1'{height + OVERLAP}'", line)


def frame_of(moment: float, picture: str, size: tuple[int, int]) -> Frame:
    """A frame, from the picture of a screen."""
    found = re.search(r" height='([0-9]+)'>\n", picture)
    height = int(found[1]) // size[0] if found else 15
    rows, cursor = [""] * size[0], None
    for line in picture.split("\n"):
        element = ELEMENT.match(line)
        if element is None:
            continue
        x, y = int(element[2]), int(element[3])
        row = y // height
        if element[1] == "rect" and int(element[4] or height) < height:
            cursor = Cursor(x, row * height, element[5])
        else:
            rows[row] += deepened(moved(line, -row * height), height) + "\n"
    style = re.search(r"<style>(.*)</style>", picture)
    return Frame(moment, size, height, rows, cursor, picture.partition("\n")[0], style[1] if style else "")


def bursts(events: list[Event], rate: float) -> Iterator[list[Event]]:
    """The output and the sizes of a recording, in groups that are one frame each."""
    group: list[Event] = []
    for event in events:
        if event.kind in ("o", "r"):
            if group and event.seconds - group[0].seconds > 1 / rate:
                yield group
                group = []
            group.append(event)
    if group:
        yield group


class Player:
    """The screen of a recording."""

    def __init__(self, cast: Cast) -> None:
        self.screen = Screen(cast.rows, cast.columns)

    def take(self, event: Event) -> None:
        """Draws output, or takes another size."""
        if event.kind == "o":
            self.screen.write(event.text)
        else:
            cols, _, rows = event.text.decode("utf-8", "replace").partition("x")
            if rows.isdigit() and cols.isdigit():
                self.screen.resize(int(rows), int(cols))


def frames_of(cast: Cast, rate: float, pause: float) -> list[Frame]:
    """The frames of a recording, from the moment 0 on."""
    player, clock, last = Player(cast), 0.0, 0.0
    frames: list[Frame] = []
    for group in bursts(cast.events, rate):
        if frames:
            clock += min(pause, group[0].seconds - last)
        last = group[0].seconds
        for event in group:
            player.take(event)
        frames.append(frame_of(clock, player.screen.picture(), player.screen.size))
    return frames or [frame_of(0.0, player.screen.picture(), player.screen.size)]


def still(cast: Cast, moment: float) -> str:
    """The picture of the screen at a moment."""
    player = Player(cast)
    for event in cast.events:
        if event.seconds <= moment and event.kind in ("o", "r"):
            player.take(event)
    return player.screen.picture()


def keyframes(name: str, steps: list[tuple[float, str]], whole: float) -> str:
    """An animation in CSS: what holds from each moment on."""
    rules = "".join(f"{100 * moment / whole:.4g}%{{{rule}}}" for moment, rule in steps)
    return f"@keyframes {name}{{{rules}}}#{name}{{animation:{name} {whole:.2f}s step-end infinite}}\n"


def steps_of(values: list[tuple[float, str]]) -> list[tuple[float, str]]:
    """The moments at which a value changes."""
    return [step for i, step in enumerate(values) if not i or step[1] != values[i - 1][1]]


def strip(row: int, frames: list[Frame], whole: float, still: int) -> tuple[str, str]:
    """A row of the moving picture: its style and its elements."""
    height = frames[0].height
    numbers: dict[str, int] = {}
    shifts = []
    for frame in frames:
        drawn = frame.rows[row] if row < len(frame.rows) else ""
        number = numbers.setdefault(drawn, len(numbers))
        shifts.append((frame.moment, f"transform:translateY({-2 * height * number}px)"))
    elements = "".join(
        moved(line, 2 * height * number) + "\n" for drawn, number in numbers.items() for line in drawn.splitlines())
    width = CELL * max(frame.size[1] for frame in frames)
    if len(numbers) == 1:
        return "", f"<g transform='translate(0 {height * row})'>\n{elements}</g>\n"
    size = f"width='{width}' height='{height + OVERLAP}'"
    head = f"<svg y='{height * row}' {size}><g id='r{row}' style='{shifts[still][1]}'>"
    return keyframes(f"r{row}", steps_of(shifts), whole), f"{head}\n{elements}</g></svg>\n"


def cursor_rule(frame: Frame) -> str:
    """The style of the cursor in a frame."""
    if frame.cursor is None:
        return "visibility:hidden"
    x, y, fill = frame.cursor
    return f"fill:{fill};transform:translate({x}px,{y}px);visibility:visible"


def animation(frames: list[Frame], pause: float, still: float) -> str:
    """The moving picture of frames, and the still one of a moment for viewers that move nothing."""
    rows, columns = (max(frame.size[side] for frame in frames) for side in (0, 1))
    height, whole = frames[0].height, frames[-1].moment + pause
    shown = max(number for number, frame in enumerate(frames) if not number or frame.moment <= still)
    strips = [strip(row, frames, whole, shown) for row in range(rows)]
    rules = [(frame.moment, cursor_rule(frame)) for frame in frames]
    styles = "".join(style for style, _ in strips) + keyframes("c", steps_of(rules), whole)
    cursor = f"<g id='c' style='{rules[shown][1]}'><rect y='{height - 2}' width='{CELL}' height='2'/></g>\n"
    head = re.sub(r" width='.*", f" width='{CELL * columns}' height='{height * rows}'>", frames[0].head)
    drawn = "".join(elements for _, elements in strips)
    return (
        f"{head}\n<title>A recording on a screen of {rows} rows and {columns} columns</title>\n"
        f"<desc>{len(frames)} frames of a text console in {whole:.1f} seconds.</desc>\n"
        f"<style>{frames[0].style}{styles}{STILL}</style>\n{drawn}{cursor}</svg>\n")


def run(words: list[str]) -> int:
    """Draws a recording."""
    form = Words("animation", __doc__ or "", functools.partial(Stop, 1))
    for name, default in (("--at", None), ("--pause", "2"), ("--rate", "20"), ("--still", None)):
        form.add_argument(name, metavar="S", default=default)
    form.add_argument("--size", nargs=2, metavar=("R", "C"))
    form.add_argument("--out", metavar="FILE")
    form.add_argument("file", metavar="FILE.cast")
    given = form.parse_args(words)
    try:
        pause, rate = seconds(given.pause), max(0.1, seconds(given.rate))
        cast = read_cast(read_text(given.file))
        if given.size:
            rows, columns = size_of(" ".join(given.size))
            cast = cast._replace(rows=rows, columns=columns)
        if not cast.rows:
            raise Stop(1, f"{given.file}: the recording has no rows and columns from 1 to 255; --size R C has them")
        if given.at is None:
            shown = math.inf if given.still is None else seconds(given.still)
            drawn = animation(frames_of(cast, rate, pause), max(pause, 0.1), shown)
        else:
            drawn = still(cast, seconds(given.at))
    except BadCast as fault:
        raise Stop(1, f"{given.file}:{fault.line}: {fault}") from None
    except (ValueError, OutOfRange) as fault:
        raise Stop(1, str(fault)) from None
    write_bytes(given.out, drawn.encode())
    return 0


def main() -> int:
    try:
        return run(sys.argv[1:])
    except Stop as stop:
        print(f"{called()}: {stop}", file=sys.stderr)
        return stop.status
    except KeyboardInterrupt:
        print(f"{called()}: interrupted", file=sys.stderr)
        return 1


if __name__ == "__main__":
    sys.exit(main())
