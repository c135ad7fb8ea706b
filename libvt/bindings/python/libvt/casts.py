"""Recordings as asciinema keeps them: version 2 is written, and versions 1 to 3 are read."""
from __future__ import annotations

import codecs
import json
from typing import Iterable, NamedTuple

from .terminal import Event, Terminal


class BadCast(ValueError):
    """A text isn't a recording. `line` is the line of the fault, from 1."""

    def __init__(self, line: int, message: str) -> None:
        super().__init__(message)
        self.line = line


class Cast(NamedTuple):
    """A recording: the rows and columns at the start (0 if the recording doesn't have them), and its events."""

    rows: int
    columns: int
    events: list[Event]


def cast_of(terminal: Terminal) -> str:
    """The recording of a terminal, version 2: a head, and an event a line. What was typed is in it."""
    rows, columns = terminal.first_size
    head = {"version": 2, "width": columns, "height": rows, "env": {"TERM": "linux"}, "title": terminal.command}
    decoder = codecs.getincrementaldecoder("utf-8")("replace")
    lines = [json.dumps(head)]
    for event in terminal.events:
        text = decoder.decode(event.text) if event.kind == "o" else event.text.decode("utf-8", "replace")
        if text:
            lines.append(json.dumps([round(event.seconds, 6), event.kind, text]))
    return "".join(line + "\n" for line in lines)


def json_of(line: int, text: str) -> object:
    """The value that a text of JSON has."""
    try:
        value: object = json.loads(text)
    except (ValueError, RecursionError):
        raise BadCast(line, f"wanted JSON, found {text[:40]!r}") from None
    return value


def event_of(line: int, value: object) -> Event:
    """One event; those of version 1 have no kind."""
    if isinstance(value, list) and len(value) in (2, 3) and isinstance(value[-1], str):
        kind = value[1] if len(value) == 3 else "o"
        if isinstance(value[0], (int, float)) and isinstance(kind, str):
            text = value[-1].encode("utf-16", "surrogatepass").decode("utf-16", "replace")
            return Event(float(value[0]), kind, text.encode())
    raise BadCast(line, f'wanted an event as [time, "o", text], found {str(value)[:40]}')


def with_moments(events: Iterable[Event]) -> list[Event]:
    """Events whose times are those since the event before, with the times since the start."""
    made, moment = [], 0.0
    for event in events:
        moment += event.seconds
        made.append(event._replace(seconds=moment))
    return made


def size_of(head: dict[str, object]) -> tuple[int, int]:
    """The rows and columns of a head; 0 if it doesn't have them."""
    term = head.get("term")
    place = term if isinstance(term, dict) else head
    names = ("rows", "cols") if place is term else ("height", "width")
    rows, columns = (place.get(name) for name in names)
    is_size = all(isinstance(part, int) and 1 <= part <= 255 for part in (rows, columns))
    return (int(str(rows)), int(str(columns))) if is_size else (0, 0)


def read_cast(text: str) -> Cast:
    """Reads a recording."""
    lines = [(place, line) for place, line in enumerate(text.split("\n"), 1) if line.strip()]
    lines = [(place, line) for place, line in lines if not line.startswith("#")]
    if not lines:
        raise BadCast(1, "wanted an asciinema recording, found nothing")
    place, first = lines[0]
    # Version 1 is one value, on one line or on many.
    is_one_value = '"version"' not in first or '"stdout"' in first
    head = json_of(place, "\n".join(line for _, line in lines) if is_one_value else first)
    head = head if isinstance(head, dict) else {}
    version, stdout = head.get("version"), head.get("stdout")
    if version == 1 and isinstance(stdout, list):
        events = with_moments(event_of(place, value) for value in stdout)
    elif version in (2, 3):
        events = [event_of(at, json_of(at, line)) for at, line in lines[1:]]
        events = with_moments(events) if version == 3 else events
    else:
        raise BadCast(place, f"wanted an asciinema recording of version 1, 2 or 3, found {first[:40]!r}")
    return Cast(*size_of(head), events)
