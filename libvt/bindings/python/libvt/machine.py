"""A machine: all consoles of a Linux text console, and the processes that share them (ioctl_console(2), vt(3)).

    from libvt import Machine, Process

    with Machine(consoles=[1, 2], processes=[Process(home=1), Process(home=2)]) as machine:
        machine.call(1, "open", 1)
        machine.call(1, "setmode", 0, 1, 0, 10, 12, 0)
        machine.call(2, "open", 2)
        machine.call(2, "activate", 0, 2)
        print(machine.marks())          # [Asked(console=2), Raised(caller=1, signal=10)]
        machine.call(1, "reldisp", 0, 1)
        print(machine.journal())

A machine takes the calls of its callers one at a time, and answers each as a console does. Callers 0 and 65 to 67 are
keyboards, 1 to 64 processes. The names of calls, their numbers and their answers are those of vt-journal(5). The
journal is a legal history of the machine from its start, whatever calls are made.
"""
from __future__ import annotations

import ctypes
import enum
from dataclasses import dataclass
from typing import Callable, Iterable, Sequence, Union

from . import calls
from .calls import Bytes, Cell, Cursor, KeymapFault, OutOfRange

__all__ = [
    "Acted", "Asked", "Console", "Display", "Done", "Ended", "Front", "Held", "Hopped", "Machine", "Mark", "Mode",
    "Number", "Process", "Raised", "Refused", "Reply", "Signals", "Wait", "Waits",
]  # fmt: skip
# The most bytes of an answer, and the most marks of a call.
REPLY_ROOM = 260_100
MARKS = 3072
LINE = 256
FREE, DIED = 0, 128


@dataclass(frozen=True)
class Process:
    """A process of the start: its home, 1 to 63 or 0 for none, and whether it is privileged."""

    home: int = 0
    privileged: bool = False


@dataclass(frozen=True)
class Done:
    """`ok`: the call is done."""


@dataclass(frozen=True)
class Number:
    """`num`: a number."""

    number: int


@dataclass(frozen=True)
class Front:
    """`state`: the console in front, and the allocated ones."""

    front: int
    consoles: frozenset[int]


@dataclass(frozen=True)
class Held:
    """`bytes`: bytes."""

    text: bytes


@dataclass(frozen=True)
class Mode:
    """`mode`: the words of a console's mode (VT_GETMODE)."""

    mode: int
    waitv: int
    relsig: int
    acqsig: int
    frsig: int


@dataclass(frozen=True)
class Acted:
    """`act`: the action of a key, by its kind and its value (docs/reference/keys.md, "Actions")."""

    kind: int
    value: int


@dataclass(frozen=True)
class Waits:
    """`wait`: the caller waits. Once Machine.wait has another state than OPEN, it makes the call `waitend`."""


@dataclass(frozen=True)
class Signals:
    """`sigs`: the signals that were pending."""

    signals: frozenset[int]


@dataclass(frozen=True)
class Refused:
    """`err`: the call is refused with this error number of Linux (the module errno has their names)."""

    errno: int


@dataclass(frozen=True)
class Asked:
    """Somebody asked for a console."""

    console: int


@dataclass(frozen=True)
class Raised:
    """A signal was raised to a caller."""

    caller: int
    signal: int


@dataclass(frozen=True)
class Hopped:
    """The display went from one console to another: nobody had to let it go, or a process released it, or died."""

    console: int
    to: int
    released: int | None = None
    died: int | None = None


@dataclass(frozen=True)
class Ended:
    """A caller ended."""

    caller: int


Reply = Union[Done, Number, Front, Held, Mode, Acted, Waits, Signals, Refused]
Mark = Union[Asked, Raised, Hopped, Ended]


class Wait(enum.Enum):
    """The state of a caller's wait: none, open, ended with success, ended by a signal or since everybody waited."""

    NONE = 0
    OPEN = 1
    DONE = 2
    BROKEN = 3


@dataclass(frozen=True)
class Display:
    """The console in front, the one that waits for the display, whether switching is locked, the switches so far; the
    entries of the journal, and those that Machine.forget took."""

    front: int
    pending: int | None
    locked: bool
    hops: int
    entries: int
    gone: int


@dataclass(frozen=True)
class Console:
    """A console: its size and cursor, how many bells rang, the bytes in its input queue, the process that handles its
    switches, and whether it shows graphics (KD_GRAPHICS)."""

    rows: int
    cols: int
    cursor: Cursor
    bells: int
    queued: int
    owner: int | None
    graphics: bool


class Machine(calls._Object):
    """A machine with these consoles, one of them in front; with processes, keyboards, and a keymap (keymaps(5)) that
    includes nothing. Its journal has at most `events` entries and `journal_bytes` bytes of charges."""

    _kind = "machine"

    def __init__(
        self,
        rows: int = 25,
        cols: int = 80,
        consoles: Iterable[int] = (1,),
        front: int | None = None,
        processes: Iterable[Process] = (),
        keymap: str | Bytes = "",
        keyboards: int = 1,
        events: int = 65_536,
        journal_bytes: int = 67_108_864,
    ) -> None:
        super().__init__()
        allocated, text = sorted(set(consoles)), calls._encoded(keymap)
        if not all(0 < n < 64 for n in allocated):
            raise OutOfRange(f"consoles {allocated}: each is 1 to 63")
        start = calls._Start(
            consoles=sum(1 << n for n in allocated), bytes=_within(journal_bytes, 64, "journal_bytes"),
            events=_within(events, 32, "events"), rows=_within(rows, 16, "rows"), cols=_within(cols, 16, "cols"),
            front=_within(min(allocated, default=0) if front is None else front, 8, "front"),
            keyboards=_within(keyboards, 8, "keyboards"))  # fmt: skip
        rights = [_seat(process) for process in processes]
        seats = (calls._Seat * max(1, len(rights)))(*rights)
        fault, what = calls._Fault(), "a number of the start is out of its range (vt.h, struct vt_start)"
        code = self._call("new", start, seats, len(rights), text, len(text), fault, what=what, may=(calls._FAULT,))
        if code == calls._FAULT:
            raise KeymapFault(fault.kind, fault.line, fault.column)
        self._reply, self._room = calls._Reply(), (ctypes.c_uint8 * REPLY_ROOM)()

    def call(self, caller: int, name: str, *numbers: int, held: Bytes = b"") -> Reply:
        """Makes a call of a caller, by its name, its numbers in the order of its words, and its bytes: one for `scan`,
        any for `write`, `setfunc`, `setdia`, `setmap`, `setpal`. Full: the journal has no room, and nothing changed."""
        what, text = f"caller {caller}, {name} {numbers}, {len(held)} bytes", bytes(held)
        words = (ctypes.c_uint16 * max(1, len(numbers)))(*(_within(number, 16, what) for number in numbers))
        if "\0" in name:
            raise OutOfRange(what)
        with self._lock:
            self._call(
                "call", calls._unsigned(caller, what), name.encode(), words, len(numbers), text, len(text), self._reply,
                self._room, REPLY_ROOM, what=what)
            return _reply(self._reply, self._room)

    def scan(self, byte: int, keyboard: int = 0) -> Reply:
        """Makes the call `scan` of a keyboard, 0 to 3."""
        what = f"keyboard {keyboard}, scan byte {byte}"
        if not 0 <= byte < 256 or not 0 <= keyboard < 4:
            raise OutOfRange(what)
        return self.call(keyboard and 64 + keyboard, "scan", held=bytes([byte]))

    def admit(self, process: int, home: int = 0, privileged: bool = False) -> None:
        """Gives a process to a program with this home and privilege. InUse: it isn't free for one (docs/library/machine.md)."""
        what = f"process {process}, home {home}"
        self._call("admit", calls._unsigned(process, what), _seat(Process(home, privileged)), what=what)

    def forget(self) -> None:
        """Empties the journal. The machine goes on."""
        self._call("forget")

    def marks(self) -> list[Mark]:
        """What the last call caused, in order: Asked, Raised, Hopped, Ended."""
        marks, count = (calls._Mark * MARKS)(), ctypes.c_size_t()
        self._call("marks", marks, MARKS, count)
        return [_mark(mark) for mark in marks[:count.value]]

    def wait(self, caller: int) -> Wait:
        """The state of a caller's wait."""
        state, what = ctypes.c_uint8(), f"caller {caller}"
        self._call("wait", calls._unsigned(caller, what), state, what=what)
        return Wait(state.value)

    @property
    def display(self) -> Display:
        """The display and the numbers of the journal."""
        found = calls._Display()
        self._call("display", found)
        return Display(
            found.front, found.pending or None, bool(found.locked), found.hops, found.entries, found.gone)

    def console(self, number: int) -> Console:
        """A console that is allocated."""
        found, what = calls._Console(), f"console {number}"
        self._call("console", calls._unsigned(number, what), found, what=what)
        cursor = Cursor(found.y, found.x, bool(found.visible))
        return Console(
            found.rows, found.cols, cursor, found.bells, found.queued, found.owner or None, bool(found.graphics))

    def cells(self, console: int, row: int) -> list[Cell]:
        """The cells of a row of a console, from its left."""
        cells, what = (calls._Cell * calls.ROW)(), f"console {console}, row {row}"
        with self._lock:
            words = calls._unsigned(console, what), calls._unsigned(row, what)
            self._call("row", *words, cells, calls.ROW, what=what)
            return calls._cells(cells, self.console(console).cols)

    def rows(self, console: int) -> list[str]:
        """The characters of each row of a console, from the top."""
        with self._lock:
            count = self.console(console).rows
            return ["".join(cell.character for cell in self.cells(console, row)) for row in range(count)]

    def all_cells(self, console: int) -> list[list[Cell]]:
        """All cells of a console, row by row from the top."""
        with self._lock:
            found, what = self.console(console), f"console {console}"
            cells = (calls._Cell * (found.rows * found.cols))()
            self._call("cells", calls._unsigned(console, what), cells, len(cells), what=what)
        every = calls._cells(cells, len(cells))
        return [every[at : at + found.cols] for at in range(0, len(every), found.cols)]

    def redraw(self, console: int) -> bytes:
        """The text that draws a console's screen on a terminal of its size. NotDrawable, if there is none."""
        what = f"console {console}"
        return self._text("redraw", calls._unsigned(console, what), room=4096, what=what)

    def redraw_changes(self, console: int, shown: Sequence[Sequence[Cell]]) -> bytes:
        """The same for a terminal that shows these cells, row by row as all_cells gives them: only rows that differ are
        in the text. OutOfRange, if the terminal hasn't the console's size."""
        return self._changes("redraw_changes", console, shown)

    def redraw_near(self, console: int) -> bytes:
        """The text of redraw for the nearest screen that a text draws."""
        what = f"console {console}"
        return self._text("redraw_near", calls._unsigned(console, what), room=4096, what=what)

    def redraw_changes_near(self, console: int, shown: Sequence[Sequence[Cell]]) -> bytes:
        """The text of redraw_changes for that screen."""
        return self._changes("redraw_changes_near", console, shown)

    def _changes(self, name: str, console: int, shown: Sequence[Sequence[Cell]]) -> bytes:
        cols = len(shown[0]) if shown else 0
        what = f"console {console}, {len(shown)} rows of {cols} columns"
        if not all(len(row) == cols for row in shown):
            raise OutOfRange(f"console {console}, rows of unequal lengths")
        given = [calls._Cell(cell.code, cell.attribute) for row in shown for cell in row]
        cells = (calls._Cell * max(1, len(given)))(*given)
        words = calls._unsigned(console, what), cells, len(given), calls._unsigned(cols, what)
        return self._text(name, *words, room=4096, what=what)

    def picture(self, console: int) -> str:
        """A console as a picture in SVG."""
        what = f"console {console}"
        text = self._text("picture", calls._unsigned(console, what), room=16384, what=what)
        return text.decode("utf-8", "surrogatepass")

    def entry(self, index: int) -> str:
        """The line of an entry of the journal, counted from 0, without its line feed."""
        what = f"entry {index}"
        return self._text("entry", calls._unsigned(index, what), room=LINE, what=what).decode().rstrip("\n")

    def journal(self) -> str:
        """The journal's text in version 2."""
        return self._text("journal", room=4096).decode()


def _within(value: int, bits: int, what: str) -> int:
    """A number for a member of so many bits; what doesn't fit is out of every range."""
    if not 0 <= value < 1 << bits:
        raise OutOfRange(f"{what}: {value}")
    return value


def _seat(process: Process) -> calls._Seat:
    return calls._Seat(home=_within(process.home, 8, "home"), privileged=bool(process.privileged))


def _bits(mask: int) -> frozenset[int]:
    return frozenset(n for n in range(64) if mask >> n & 1)


def _reply(reply: calls._Reply, room: ctypes.Array[ctypes.c_uint8]) -> Reply:
    kinds: list[Callable[[], Reply]] = [
        Done, lambda: Number(reply.number), lambda: Front(reply.number, _bits(reply.mask)),
        lambda: Held(ctypes.string_at(room, reply.length)), lambda: Mode(*reply.words[:5]),
        lambda: Acted(*reply.words[:2]), Waits, lambda: Signals(frozenset(n + 1 for n in _bits(reply.mask))),
        lambda: Refused(reply.number),
    ]  # fmt: skip
    answer: Reply = kinds[reply.kind]()
    return answer


def _hop(mark: calls._Mark) -> Hopped:
    if mark.cause == FREE:
        return Hopped(mark.a, mark.b)
    if mark.cause < DIED:
        return Hopped(mark.a, mark.b, released=mark.cause)
    return Hopped(mark.a, mark.b, died=mark.cause - DIED)


def _mark(mark: calls._Mark) -> Mark:
    kinds: dict[int, Callable[[], Mark]] = {
        1: lambda: Asked(mark.a), 2: lambda: Raised(mark.a, mark.b), 3: lambda: _hop(mark), 4: lambda: Ended(mark.a)}
    return kinds[mark.kind]()
