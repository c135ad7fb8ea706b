"""Reads test files: their steps and assertions, with the line of each fault. libvt.expect has the form.

A file that was read has no faults except what only a program can show: so nothing is played before every file was read.
"""
from __future__ import annotations

import pathlib
import re
import shlex
from typing import Any, Callable

from .expect_values import (
    MOST_BYTES, Unknown, as_text, attribute, box_of, code_point, exit_status, mode_name, nothing, number, on_or_off,
    pattern, place_of, quoted, quoted_part, row_number, seconds, size, span_of,
)  # fmt: skip
from .keys import pieces_of
from .screen_files import read_screen


class Fault(Exception):
    """A file isn't of the form, or can't be read. The text begins with the path and the line."""


class Step:
    """A step: its line, its word, and what follows."""

    def __init__(self, line: int, word: str, value: Any) -> None:
        self.line, self.word, self.value = line, word, value


class Check:
    """An assertion: its line, its kind, where it looks, `=` or `~`, and what it wants.

    `text` is the line, in which the value begins at `start` (-1 if it has none). `rows` are the lines of a ?screen,
    with their numbers. `title` is printed before it.
    """

    def __init__(self, line: int, text: str, kind: str) -> None:
        self.line, self.text, self.kind = line, text, kind
        self.at: tuple[int | str, ...] = ()
        self.sign = "="
        self.wanted: Any = None
        self.start = -1
        self.rows: list[tuple[int, str]] = []
        self.title: str | None = None

    def name(self) -> str:
        """The assertion without what it wants."""
        if self.kind == "attr" and len(self.at) == 3:
            return "?attr {},{}-{}".format(*self.at)
        return f"?{self.kind}" + (f" {','.join(map(str, self.at))}" if self.at else "")


class File:
    """A test file: the size at the start, and the steps and assertions in order."""

    def __init__(self, path: str) -> None:
        self.path = path
        self.folder = pathlib.Path(path).parent
        self.start = self.now = (25, 80)
        self.parts: list[Step | Check] = []
        self.has_program = False
        self.bytes = 0
        self.title: str | None = None

    @property
    def checks(self) -> list[Check]:
        """The assertions."""
        return [part for part in self.parts if isinstance(part, Check)]

    def count_bytes(self, count: int) -> None:
        """The console gets bytes."""
        self.bytes += count
        if self.bytes > MOST_BYTES:
            raise ValueError(f"wanted at most {MOST_BYTES:,} bytes for the console in all, found {self.bytes:,}")


# Each assertion: what it reads before the sign, and what behind `=`.
ASSERTIONS: dict[str, tuple[Callable[[tuple[int, int], str], Any], Callable[[tuple[int, int], str], Any]]] = {
    "row": (row_number, lambda now, text: as_text(quoted(text))),
    "chars": (box_of, lambda now, text: as_text(quoted(text))),
    "cell": (place_of, lambda now, text: code_point(text)),
    "attr": (span_of, lambda now, text: attribute(text)),
    "cursor": (nothing, place_of),
    "output": (nothing, lambda now, text: quoted(text)),
    "bells": (nothing, lambda now, text: number(text, 0, 99_999_999, "a number")),
    "mode": (mode_name, on_or_off),
    "exit": (nothing, lambda now, text: exit_status(text)),
}
WITH_PATTERNS = ("row", "chars")


def read_text_check(test: File, check: Check, rest: str) -> None:
    """The rest of a ?text: a text or a pattern, and its place."""
    check.sign = "~" if rest.startswith("~") else "="
    given, behind = quoted_part(rest[1:] if check.sign == "~" else rest)
    text = as_text(given)
    if not text:
        raise ValueError("wanted a text that isn't empty")
    check.at = (f'{check.sign + " " if check.sign == "~" else ""}"{text}"',)
    what = pattern(text) if check.sign == "~" else text
    place: Any = None
    if behind:
        if not behind.startswith("="):
            raise ValueError(f"wanted = and a place, none or ? behind the text, found {behind[:40]!r}")
        check.start = len(check.text) - len(behind) + 1
        value = behind[1:].strip()
        place = Unknown if value == "?" else value if value == "none" else place_of(test.now, value)
    check.wanted = (what, place)


def read_screen_check(test: File, check: Check, rest: str) -> None:
    """The rest of a ?screen: a file, or rows on the next lines."""
    check.wanted = None
    if rest:
        path = test.folder / rest
        if path.exists():
            read_screen(path)
        check.at, check.wanted = (rest,), path


def read_check(test: File, line: int, text: str) -> Check:
    """An assertion."""
    kind, _, rest = text[1:].partition(" ")
    rest = rest.strip()
    check = Check(line, text, kind)
    if kind == "text":
        read_text_check(test, check, rest)
        return check
    if kind == "screen":
        read_screen_check(test, check, rest)
        return check
    if kind not in ASSERTIONS:
        others = ", ".join("?" + name for name in ASSERTIONS)
        raise ValueError(f"wanted ?screen, ?text, {others}, found ?{kind[:20]}")
    if kind == "exit" and not test.has_program:
        raise ValueError("wanted RUN before ?exit")
    split = re.match(r'([^=~"]*)([=~])(.*)', rest)
    if kind == "mode" and not split:
        check.at, check.wanted = mode_name(test.now, rest), True
        return check
    if not split or (split[2] == "~" and kind not in WITH_PATTERNS):
        raise ValueError(f"wanted = and a value behind ?{kind}")
    read_place, read_value = ASSERTIONS[kind]
    check.at, check.sign = read_place(test.now, split[1].strip()), split[2]
    check.start = len(text) - len(split[3])
    value = split[3].strip()
    if check.sign == "~":
        check.wanted = pattern(as_text(quoted(value)))
    else:
        check.wanted = Unknown if value == "?" else read_value(test.now, value)
    return check


# The steps.


def read_size(test: File, rest: str) -> tuple[int, int]:
    """The size at the start."""
    if test.parts:
        raise ValueError("wanted SIZE before every other step and assertion")
    test.start = test.now = size(rest)
    return test.start


def read_resize(test: File, rest: str) -> tuple[int, int]:
    """Another size."""
    test.now = size(rest)
    return test.now


def before_run(test: File, word: str) -> None:
    """A step that has to be before RUN."""
    if test.has_program:
        raise ValueError(f"wanted {word} before RUN")


def read_push(test: File, rest: str) -> bytes:
    """Bytes for the console."""
    before_run(test, "PUSH")
    given = quoted(rest)
    test.count_bytes(len(given))
    return given


def file_beside(test: File, name: str) -> bytes:
    """The bytes of a file in the folder of the test."""
    try:
        return (test.folder / name).read_bytes()
    except (OSError, ValueError) as fault:
        raise ValueError(f"{test.folder / name}: {getattr(fault, 'strerror', None) or fault}") from None


def read_stream(test: File, rest: str) -> bytes:
    """The bytes of a file, or those from one place to another."""
    before_run(test, "FILE")
    found = re.fullmatch(r'(?:"([^"]+)"|([^"\s]\S*))(?:\s+([0-9]{1,9}))?(?:\s+([0-9]{1,9}))?', rest)
    if not found:
        raise ValueError(f"wanted the name of a file, and then none, one or two numbers of bytes, found {rest!r}")
    given = file_beside(test, found[1] or found[2])
    first, last = int(found[3] or 0), int(found[4] or len(given))
    if not first <= last <= len(given):
        raise ValueError(f"wanted two rising numbers up to {len(given)}, the file's bytes, found {first} {last}")
    test.count_bytes(last - first)
    return given[first:last]


def read_copy(test: File, rest: str) -> tuple[str, bytes]:
    """A file for the folder of the program."""
    before_run(test, "COPY")
    if not rest:
        raise ValueError("wanted the name of a file")
    return pathlib.Path(rest).name, file_beside(test, rest)


def read_variable(test: File, rest: str) -> tuple[str, str]:
    """A variable of the program."""
    before_run(test, "ENV")
    name, _, value = rest.partition(" ")
    if not re.fullmatch(r"[A-Za-z_][A-Za-z0-9_]*", name):
        raise ValueError(f"wanted the name of a variable, found {name!r}")
    return name, as_text(quoted(value))


def read_run(test: File, rest: str) -> list[str]:
    """The words of a program."""
    if test.has_program:
        raise ValueError("wanted one RUN in a file")
    test.has_program = True
    words = shlex.split(rest)
    if not words:
        raise ValueError("wanted a program and its words")
    return words


def read_keys(test: File, rest: str) -> str:
    """Keys for the program."""
    if not test.has_program:
        raise ValueError("wanted RUN before KEYS")
    keys = as_text(quoted(rest))
    pieces_of(keys)
    return keys


def read_wait(test: File, rest: str) -> tuple[str | re.Pattern[str], float | None]:
    """What the program has to show, and how long that may take."""
    if not test.has_program:
        raise ValueError("wanted RUN before WAIT")
    given, behind = quoted_part(rest[1:] if rest.startswith("~") else rest)
    text = as_text(given)
    if not text:
        raise ValueError("wanted a text that isn't empty")
    return pattern(text) if rest.startswith("~") else text, seconds(behind) if behind else None


STEPS: dict[str, Callable[[File, str], Any]] = {
    "SIZE": read_size, "PUSH": read_push, "FILE": read_stream, "RESIZE": read_resize, "COPY": read_copy,
    "ENV": read_variable, "RUN": read_run, "KEYS": read_keys, "WAIT": read_wait,
    "LIMIT": lambda test, rest: seconds(rest),
}  # fmt: skip


def read_row(test: File, line: int, text: str) -> None:
    """A row of the ?screen above it."""
    rows = test.checks[-1].rows
    if text.startswith("|") and (len(text) < 2 or not text.endswith("|")):
        raise ValueError("wanted a row between two bars")
    if text.startswith("~"):
        pattern(text[1:].strip())
    rows.append((line, text))
    if sum(row != ".." for _, row in rows) > test.now[0]:
        raise ValueError(f"wanted at most {test.now[0]} rows, as many as the screen has")


def read_line(test: File, line: int, text: str, in_screen: bool) -> bool:
    """A line that isn't empty and no comment. Returns whether rows of a screen may follow."""
    if in_screen and (text[0] in "|~" or text == ".."):
        read_row(test, line, text)
        return True
    if text.startswith("!"):
        test.title = text[1:].strip()
        return False
    if text.startswith("?"):
        check = read_check(test, line, text)
        check.title, test.title = test.title, None
        test.parts.append(check)
        return check.kind == "screen" and check.wanted is None
    word, _, rest = text.partition(" ")
    if word not in STEPS:
        raise ValueError(f"wanted {', '.join(STEPS)}, an assertion that begins with ?, # or !, found {text[:40]!r}")
    test.parts.append(Step(line, word, STEPS[word](test, rest.strip())))
    return False


def read_test(path: str) -> File:
    """Reads a test file."""
    test, in_screen, line = File(path), False, 1
    try:
        given = pathlib.Path(path).read_bytes()
    except (OSError, ValueError) as fault:
        raise Fault(f"{path}: {getattr(fault, 'strerror', None) or fault}") from None
    for line, raw in enumerate(given.split(b"\n"), 1):
        try:
            text = raw[: -1 if raw.endswith(b"\r") else None].decode().strip(" \t")
            if not text or text.startswith("#"):
                in_screen = False
                continue
            in_screen = read_line(test, line, text, in_screen)
        except UnicodeDecodeError:
            raise Fault(f"{path}:{line}: wanted UTF-8") from None
        except ValueError as fault:
            raise Fault(f"{path}:{line}: {fault}") from None
    if not test.checks:
        raise Fault(f"{path}:{line}: wanted an assertion, found none in the whole file")
    return test
