#!/usr/bin/env python3
"""Plays test files on a proved console, and reports which assertions hold.

usage: python3 -m libvt.expect [--accept] [--limit S] FILE.test ..

A file has steps and assertions, a line each. A line that begins with # is a comment, one that begins with ! a title.
Rows and columns are counted from 0. Texts are "..", with the escapes \\e \\r \\n \\xHH \\x{H..} \\cX; "ab" x 3 . "c"
repeats and joins them.

    SIZE R C                the rows and columns at the start (25 and 80)
    PUSH "text"             bytes for the console
    FILE NAME [FROM [TO]]   the bytes of a file beside the test, or those from one place to another
    RESIZE R C              another size
    COPY NAME               puts a file beside the test into the folder of the program
    ENV NAME "text"         a variable of the program
    RUN WORDS               starts a program; everything below is about its terminal
    KEYS "<Down>q"          types keys; each waits until the program waits for it
    WAIT "text" [S]         waits until a text is on the screen; WAIT ~ "re" for a regular expression
    LIMIT S                 how long each WAIT and each assertion of a program may take (10 seconds)

    ?row N = "text"         the row, without the blanks at its end; ?row N ~ "re" searches in it
    ?chars R,C,R,C = "text" a rectangle, without the last row and column; \\n between its rows; or ~ "re"
    ?text "text"            the text is somewhere in a row; ?text ~ "re" searches in all rows; = R,C or = none
    ?screen                 the lines below are the rows: |text|, ~ re, or .. for any rows; all further rows are blank
    ?screen FILE            all cells and the cursor are those of the file
    ?cursor = R,C
    ?cell R,C = U+41        the cell's code point; half is the right half of a wide character
    ?attr R,C[-C] = FG BG   colours, and bold dim italic underline blink reverse
    ?output = "text"        what the console reported since the last ?output
    ?bells = N              how often the bell rang
    ?mode NAME = on         or off
    ?exit = N               the program ends with this status, or by signal N if it is -N

A value `?` never holds. --accept replaces it, and every value that doesn't hold, by what is shown; it is refused if CI
is set. Prints a line an assertion as TAP has it, and below one that fails the wanted and the shown.

Statuses: 0 every assertion holds; 1 one fails, or a test ended before its end; 2 the words or a file aren't of the
form, or a file can't be read, and nothing was played.
"""
from __future__ import annotations

import difflib
import os
import pathlib
import sys

from .command_line import Words, called
from .expect_files import Check, Fault, File, read_test
from .expect_play import Playing
from .expect_values import seconds
from .screen_files import write_text
from .terminal import Failed


def print_check(path: str, number: int, check: Check, faults: list[str]) -> None:
    """Prints an assertion as TAP has it."""
    if check.title:
        print(f"# {check.title}")
    name = check.name().replace("\\", "\\\\").replace("#", "\\#")
    path = path.replace("\\", "\\\\").replace("#", "\\#")
    print(f"{'not ok' if faults else 'ok'} {number} - {path}:{check.line}: {name}")
    for line in "\n".join(faults).split("\n") if faults else []:
        print(f"#   {line}".rstrip())


def play(file: File, number: int, limit: float, accepts: bool) -> int:
    """Plays a file, and prints its assertions, whose numbers follow this one. Returns how many fail."""
    playing, failed, ended = Playing(file, limit, accepts), 0, ""
    try:
        for part in file.parts:
            if isinstance(part, Check):
                number += 1
                faults = [f"not reached: {ended}"] if ended else playing.judge(part)
                ended = ended.partition("\n")[0]  # the screen is printed once
                failed += bool(faults)
                print_check(file.path, number, part, faults)
            elif not ended:
                try:
                    playing.step(part)
                except (Failed, OSError, ValueError) as fault:
                    ended = f"{file.path}:{part.line}: {part.word}: {reason(fault)}"
        if ended and not failed:
            failed = 1
            print("\n".join(f"# {line}" for line in ended.split("\n")))
    finally:
        playing.close()
    if accepts and playing.changes:
        accept(file.path, playing.changes)
    return failed


def reason(fault: Exception) -> str:
    """Why a step failed."""
    if isinstance(fault, OSError) and fault.filename:
        return f"{fault.filename}: {fault.strerror}"
    return str(fault)


def accept(path: str, changes: dict[int, str]) -> None:
    """Replaces lines of a file, and prints the difference."""
    old = pathlib.Path(path).read_text("utf-8").split("\n")
    new: list[str] = []
    for line, text in enumerate(old, 1):
        if line not in changes:
            new.append(text)
        elif changes[line]:
            blanks = text[: len(text) - len(text.lstrip(" \t"))]
            new += [blanks + row for row in changes[line].split("\n")]
    for row in difflib.unified_diff(old, new, path, path, n=0, lineterm=""):
        print(f"# {row}")
    write_text(path, "\n".join(new))


def run(words: list[str]) -> int:
    """Reads all files, plays them, and prints what came of it."""
    form = Words("expect", __doc__ or "", Fault)
    form.add_argument("--accept", action="store_true")
    form.add_argument("--limit", metavar="S", default="10")
    form.add_argument("files", nargs="+", metavar="FILE.test")
    given = form.parse_args(words)
    try:
        limit = seconds(given.limit)
    except ValueError as fault:
        raise Fault(f"--limit: {fault}") from None
    if given.accept and os.environ.get("CI", "").lower() not in ("", "0", "false"):
        raise Fault("--accept isn't for CI, and CI is set in the environment")
    files = [read_test(path) for path in given.files]
    total = sum(len(file.checks) for file in files)
    print(f"TAP version 13\n1..{total}")
    number = failed = 0
    for file in files:
        failed += play(file, number, limit, given.accept)
        number += len(file.checks)
    print(f"# {total - failed} hold, {failed} fail", flush=True)
    return 1 if failed else 0


def main() -> int:
    for stream in (sys.stdout, sys.stderr):
        getattr(stream, "reconfigure")(encoding="utf-8", errors="backslashreplace")
    try:
        return run(sys.argv[1:])
    except Fault as fault:
        print(f"{called()}: {fault}", file=sys.stderr)
        return 2
    except BrokenPipeError:
        sys.stdout = open(os.devnull, "w", encoding="utf-8")
        return 1
    except KeyboardInterrupt:
        print(f"{called()}: interrupted", file=sys.stderr)
        return 1


if __name__ == "__main__":
    sys.exit(main())
