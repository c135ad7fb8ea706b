#!/usr/bin/env python3
"""Records what a program writes to a Linux console of a given size, and types what a script contains.

usage: python3 -m libvt.record R C [--keys FILE] [--out FILE] [--cast FILE] [--leave] [--limit S] [--trace]
           -- COMMAND ..
       python3 -m libvt.record --from-cast FILE [--out FILE]

The program runs on a terminal of R rows and C columns with TERM=linux, and the console answers its questions. Its
output goes to standard output or to --out, and with --cast as an asciinema recording (version 2) to another file too.
Each line of a key script is one of these; empty lines and lines that begin with # are skipped:

    type TEXT       types the text, in which <F10> and <C-x> (libvt.keys) and \\r, \\e and \\cO stand for keys
    wait TEXT       waits until the text is on the screen
    sleep S         waits S seconds
    resize R C      gives the terminal another size

Each key is typed when the program waits for it. The recording ends with the program. With --leave it ends with the
script, as soon as the program waits, and the program is hung up. A wait, and the program's end after the script, may
take --limit seconds (30). --trace prints on err how many bytes the output had when a line of the script was done.

--from-cast prints the output of an asciinema recording (version 1, 2 or 3) as a stream.

Statuses: 0 the stream was written; 1 the words or a file aren't of the form, or a file can't be read or written; 2 the
command can't be started; 3 the program died: by a signal, or before the script was over; 4 a wait never came; 5 the
program didn't end within the limit. With 3, 4 and 5 the stream has what came until then.
"""
from __future__ import annotations

import argparse
import contextlib
import functools
import pathlib
import sys
from typing import Any, Callable

from .casts import BadCast, cast_of, read_cast
from .command_line import Words, called
from .escapes import unescaped
from .expect_values import as_text, seconds, size
from .keys import pieces_of
from .terminal import Failed, Terminal


class Stop(Exception):
    """Why a recording ends: a status and its message."""

    def __init__(self, status: int, message: str) -> None:
        super().__init__(message)
        self.status = status


def reason(fault: Exception) -> str:
    """What the system says of a fault."""
    return getattr(fault, "strerror", None) or str(fault)


def read_text(path: str) -> str:
    """A file in UTF-8."""
    try:
        given = pathlib.Path(path).read_bytes()
    except (OSError, ValueError) as fault:
        raise Stop(1, f"{path}: {reason(fault)}") from None
    try:
        return given.decode()
    except UnicodeDecodeError as fault:
        line = given.count(b"\n", 0, fault.start) + 1
        raise Stop(1, f"{path}:{line}: wanted UTF-8") from None


def write_bytes(path: str | None, given: bytes) -> None:
    """Writes a file, or standard output if there is no path."""
    try:
        if path is None:
            sys.stdout.buffer.write(given)
            sys.stdout.buffer.flush()
        else:
            pathlib.Path(path).write_bytes(given)
    except (OSError, ValueError) as fault:
        raise Stop(1, f"{path or 'standard output'}: {reason(fault)}") from None


def some_text(text: str) -> str:
    """A text that isn't empty."""
    if not text:
        raise ValueError("wanted a text")
    return as_text(unescaped(text))


def some_keys(text: str) -> str:
    """A text of keys."""
    keys = some_text(text)
    pieces_of(keys)
    return keys


READERS: dict[str, Callable[[str], Any]] = {"type": some_keys, "wait": some_text, "sleep": seconds, "resize": size}


def read_script(path: str) -> list[tuple[int, str, Any]]:
    """The steps of a key script: each a line's number, its word, and what follows."""
    steps: list[tuple[int, str, Any]] = []
    for line, text in enumerate(read_text(path).split("\n"), 1):
        text = text.rstrip("\r").lstrip(" \t")
        if not text or text.startswith("#"):
            continue
        word, _, rest = text.partition(" ")
        if word not in READERS:
            raise Stop(1, f"{path}:{line}: wanted type, wait, sleep or resize, found {word!r}")
        try:
            steps.append((line, word, READERS[word](rest)))
        except ValueError as fault:
            raise Stop(1, f"{path}:{line}: {word}: {fault}") from None
    return steps


def sleep(terminal: Terminal, length: float) -> None:
    """Waits that long, or until the program ends."""
    with contextlib.suppress(Failed):
        terminal.wait_exit(length)


def play(terminal: Terminal, path: str, steps: list[tuple[int, str, Any]], trace: bool) -> None:
    """Does the steps of a script."""
    does: dict[str, Callable[[Any], object]] = {
        "type": terminal.type, "wait": terminal.wait_for, "resize": lambda it: terminal.resize(*it),
        "sleep": lambda it: sleep(terminal, it),
    }  # fmt: skip
    for line, word, value in steps:
        sleep(terminal, 0)
        if word in ("type", "resize") and terminal.exit_status is not None:
            raise Stop(3, f"{path}:{line}: the program ended before this line")
        try:
            does[word](value)
        except (Failed, ValueError) as fault:
            status = 3 if word == "type" and terminal.exit_status is not None else 4
            raise Stop(status, f"{path}:{line}: {word}: {fault}") from None
        if trace:
            print(f"{path}:{line}: {word}: {len(terminal.output)} bytes", file=sys.stderr)


def end(terminal: Terminal, leaves: bool, limit: float) -> None:
    """Waits for the end of the recording."""
    if leaves:
        with contextlib.suppress(Failed):
            terminal.settle(limit)
        return
    try:
        terminal.wait_exit(limit)
    except Failed:
        advice = "--leave ends the recording with the script, --limit S waits longer"
        raise Stop(5, f"{terminal.command}: didn't end within {limit:g} s: {advice}") from None


def record(given: argparse.Namespace, command: list[str]) -> int:
    """Records a program."""
    steps = read_script(given.keys) if given.keys else []
    try:
        terminal = Terminal(command, given.rows, given.cols, timeout=given.limit)
    except (OSError, ValueError) as fault:
        raise Stop(2, f"{command[0]}: can't be started: {reason(fault)}") from None
    stop: Stop | None = None
    with terminal:
        try:
            play(terminal, given.keys, steps, given.trace)
            end(terminal, given.leave, given.limit)
        except Stop as found:
            stop = found
        status = terminal.exit_status
        write_bytes(given.out, bytes(terminal.output))
        if given.cast:
            write_bytes(given.cast, cast_of(terminal).encode())
    if stop:
        raise stop
    if status is not None and status < 0:
        raise Stop(3, f"{command[0]}: was ended by signal {-status}")
    if status:
        print(f"{called()}: {command[0]} ended with status {status}", file=sys.stderr)
    return 0


def stream_of(path: str) -> bytes:
    """The output of a recording as a stream."""
    try:
        cast = read_cast(read_text(path))
    except BadCast as fault:
        raise Stop(1, f"{path}:{fault.line}: {fault}") from None
    for event in cast.events:
        if event.kind == "r":
            print(f"{path}: the terminal was resized to {event.text[:20].decode()} here", file=sys.stderr)
    return b"".join(event.text for event in cast.events if event.kind == "o")


def read_words(words: list[str]) -> tuple[argparse.Namespace, list[str]]:
    """What the words ask for, and the command after `--`."""
    cut = words.index("--") if "--" in words else len(words)
    form = Words("record", __doc__ or "", functools.partial(Stop, 1))
    form.add_argument("rows", nargs="?")
    form.add_argument("cols", nargs="?")
    for name in ("--keys", "--out", "--cast", "--from-cast"):
        form.add_argument(name, metavar="FILE")
    form.add_argument("--leave", action="store_true")
    form.add_argument("--limit", metavar="S", default="30")
    form.add_argument("--trace", action="store_true")
    given, command = form.parse_args(words[:cut]), words[cut + 1 :]
    if given.from_cast is not None:
        if given.rows is not None or command:
            form.error("--from-cast stands without rows, columns and a command")
        return given, command
    if given.cols is None or not command:
        form.error("wanted rows, columns, -- and a command")
    try:
        given.rows, given.cols = size(f"{given.rows} {given.cols}")
        given.limit = seconds(given.limit)
    except ValueError as fault:
        form.error(str(fault))
    return given, command


def main() -> int:
    try:
        given, command = read_words(sys.argv[1:])
        if given.from_cast is not None:
            write_bytes(given.out, stream_of(given.from_cast))
            return 0
        return record(given, command)
    except Stop as stop:
        print(f"{called()}: {stop}", file=sys.stderr)
        return stop.status
    except KeyboardInterrupt:
        print(f"{called()}: interrupted", file=sys.stderr)
        return 1


if __name__ == "__main__":
    sys.exit(main())
