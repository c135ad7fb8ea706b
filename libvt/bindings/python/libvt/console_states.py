"""What vtrun reports of consoles and processes (docs/reference/vtrun.md)."""
from __future__ import annotations

from typing import NamedTuple


class ConsoleState(NamedTuple):
    """A console that is allocated: its number, its rows and columns, the cursor's row and column from 0, whether the
    cursor is shown, the process of the machine that handles its switches (0 if none does), whether it shows graphics,
    how often its bell rang, and how many bytes wait in its input queue."""

    number: int
    rows: int
    columns: int
    row: int
    column: int
    is_visible: bool
    owner: int
    has_graphics: bool
    bells: int
    queued: int


class Client(NamedTuple):
    """A process that has made a request or opened a console: its process id, its number in the machine (7 for p7 of a
    journal), whether it is privileged, its home, the consoles that it has open, and its name."""

    pid: int
    number: int
    is_privileged: bool
    home: int
    consoles: tuple[int, ...]
    name: str


def state_of(line: str) -> ConsoleState:
    """A console, from its line of the answer to `consoles`."""
    number, rows, columns, row, column, visible, owner, graphics, bells, queued = map(int, line.split()[:10])
    return ConsoleState(number, rows, columns, row, column, bool(visible), owner, bool(graphics), bells, queued)


def client_of(line: str) -> Client:
    """A process, from its line of the answer to `processes`."""
    pid, number, privilege, home, consoles, name = line.split(" ", 5)
    opened = tuple(map(int, consoles.split(","))) if consoles != "-" else ()
    return Client(int(pid), int(number[1:]), privilege == "privileged", int(home), opened, name)
