#!/usr/bin/env python3
"""Draws what `watch json` prints of a session (docs/reference/watch.md) as one page of HTML.

    watch json < SESSION.toml | tools/timeline.py > PAGE.html
    tools/timeline.py [--title TEXT] [--svg] [--vt PATH] [-o PAGE.html] [JSON]

Time goes to the right, an entry a column. A band at the top has the console in front with its owner's colour, and below
it the console that is pending. Each keyboard and process has a lane: its calls as marks, its waits as bars, the signals
that it gets, and arrows from requests to signals, from these to releases, and from these to the display. Pointing at a
column, or the keys, show the entry with its answer in words and the reason of a switch. Below are the screens at the
end and all entries as text. The page needs no other file, and no network.

--svg writes the drawing alone, as a file of SVG for documents. The screens have their colours if the program `vt` is
there (or at --vt PATH), which draws them once more.

Exit status: 0 written, 1 the words or the JSON are refused, 3 a file can't be read or written.
"""
import argparse
import pathlib
import sys

sys.dont_write_bytecode = True

from package import called  # noqa: E402: after the line that keeps tools/ clean
from programs import Missing, find  # noqa: E402
from timeline_drawing import Drawing  # noqa: E402
from timeline_page import page  # noqa: E402
from timeline_picture import picture  # noqa: E402
from timeline_screens import colours_of  # noqa: E402
from tool_files import Stop, read_file, read_input, run, write_file  # noqa: E402
from watch_json import read_watch  # noqa: E402

MOST_ENTRIES = 100_000


class Parser(argparse.ArgumentParser):
    def error(self, message):
        raise Stop(1, f"{message}; {self.format_usage().strip()}")


def player(path):
    """The program `vt`, or None if no path was given and it isn't there."""
    try:
        return find("vt", path, 3)
    except Missing:
        if path:
            raise
        return None


def drawn(args, title, entries, final):
    """The page, or the drawing alone."""
    if args.svg:
        return picture(title, Drawing(entries))
    return page(title, entries, final, colours_of(player(args.vt), entries, final))


def main():
    parser = Parser(description="Draws what `watch json` prints as a page of HTML.")
    parser.add_argument("json", nargs="?", default="-", help="the JSON; standard input without it, or for -")
    parser.add_argument("-o", "--output", help="where the page is written; standard output without it")
    parser.add_argument("--title", help="the page's title")
    parser.add_argument("--svg", action="store_true", help="write the drawing alone, in SVG")
    parser.add_argument("--vt", metavar="PATH", help="the program `vt`, for the colours of the screens")
    try:
        args = parser.parse_args()
        given = read_input(3) if args.json == "-" else read_file(args.json, 3)
        entries, final = read_watch(given, MOST_ENTRIES)
        name = "a session" if args.json == "-" else pathlib.Path(args.json).stem
        text = drawn(args, args.title or f"Timeline of {name}", entries, final)
        write_file(args.output, text.encode(errors="replace"), 3)
    except Stop as stop:
        print(f"{called()}: {stop}", file=sys.stderr)
        return stop.status
    return 0


if __name__ == "__main__":
    sys.exit(run(main, 3))
