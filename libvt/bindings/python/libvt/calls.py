"""The calls of the C library libvt.so.1: the screen and the keyboard of the Linux text console (vt(3)).

    import libvt

    with libvt.Screen(25, 80) as screen:
        for event in screen.feed(b"hello\\x1b[6n"):
            print(event)                        # Report(text=b'\\x1b[1;6R')
        print(screen.rows()[0].rstrip())        # hello

The library is loaded from the first of these places: the file that VT_LIBRARY names, the folder of this package (a
wheel has it there), the folder out/c/lib of the clone that contains this package, and the folders where the system
looks for libraries.
Rows and columns are counted from 0, from the top left. A call of one object waits for the others of that object, so
that threads may share it. Nothing but Python's own library is needed.
"""
from __future__ import annotations

import ctypes
import os
import pathlib
import threading
from dataclasses import dataclass
from typing import Any, Callable, Iterable, Mapping, NamedTuple, TypeVar, Union

FILE = "libvt.so.1"
OUTS = 64
PIECE = 4096
ROW = 255
FALLEN = 16
COLOURS = 16
PAIRS = 256
KEYMODES = RAW, XLATE, MEDIUMRAW, UNICODE, OFF = range(5)
METABIT, ESCPREFIX = 3, 4
LIGHTS_FOLLOW = 255
HALF = 0x110000
# The colours of an attribute byte, in the order that the VGA has.
NAMES = ("black", "blue", "green", "cyan", "red", "magenta", "yellow", "white")


class Error(Exception):
    """The base class of the errors of this module."""


class LibraryError(Error, ImportError):
    """The library isn't there, or isn't this one."""


class OutOfRange(Error, ValueError):
    """A number is out of its range."""


class NoMemory(Error, MemoryError):
    """Memory ran out; the object is as it was."""


class Closed(Error):
    """The object was closed."""


class NotDrawable(Error):
    """No text draws this screen."""


class Full(Error):
    """The journal of a machine has no room for the call, which wasn't made."""


class InUse(Error):
    """The process has something that its last program left, or it ended, or it started with other rights."""


class KeymapFault(Error):
    """The first fault of a keymap: its kind, and its line and column, both from 1 (docs/reference/codes.md)."""

    def __init__(self, kind: int, line: int, column: int) -> None:
        super().__init__(f"fault {kind} at line {line}, column {column}")
        self.kind, self.line, self.column = kind, line, column


@dataclass(frozen=True)
class Report:
    """Bytes that the screen sends to the program's input."""

    text: bytes


@dataclass(frozen=True)
class SwitchTo:
    """The console of this number has to come to the front."""

    number: int


@dataclass(frozen=True)
class SwitchLast:
    """The console that was in front before has to come to the front."""


@dataclass(frozen=True)
class SwitchNext:
    """The next console has to come to the front."""


@dataclass(frozen=True)
class SwitchPrevious:
    """The console before this one, by number, has to come to the front."""


@dataclass(frozen=True)
class Lights:
    """The keyboard's lights: the sum of Scroll Lock 1, Num Lock 2 and Caps Lock 4."""

    number: int


@dataclass(frozen=True)
class Bell:
    """The bell rings."""


@dataclass(frozen=True)
class Typed:
    """Bytes of a key for the program's input."""

    text: bytes


@dataclass(frozen=True)
class Spawn:
    """KeyboardSignal: a signal to the process that accepts it."""


@dataclass(frozen=True)
class Attention:
    """The secure attention key."""


Bytes = Union[bytes, bytearray, memoryview]
Event = Union[Report, SwitchTo, SwitchLast, SwitchNext, SwitchPrevious, Lights, Bell, Typed, Spawn, Attention]


class Cell(NamedTuple):
    """A cell: its character ("" for the right half of a wide one), its code, and its attribute byte."""

    character: str
    code: int
    attribute: int

    @property
    def colour(self) -> int:
        """The colour of the character: the sum of blue 1, green 2, red 4, bright 8."""
        return self.attribute % 16

    @property
    def background(self) -> int:
        """The colour behind it."""
        return self.attribute // 16 % 8

    @property
    def blinks(self) -> bool:
        """Whether it blinks."""
        return self.attribute >= 128

    @property
    def words(self) -> str:
        """Its colours in words: `red black bold` is bright red on black."""
        words = [NAMES[self.colour & 7], NAMES[self.background]]
        return " ".join(words + ["bold"] * (self.colour >> 3) + ["blink"] * self.blinks)


class Cursor(NamedTuple):
    """Where the cursor is, and whether it is shown."""

    row: int
    column: int
    visible: bool


class Modes(NamedTuple):
    """The modes of a screen that keys depend on: DECCKM, DECPAM, DECARM, LNM. These are those of a new screen."""

    cursor_keys: bool = False
    keypad: bool = False
    repeat: bool = True
    newline: bool = False


class Settings(NamedTuple):
    """The other modes of a screen: DECSCNM, DECOM, DECAWM, IRM, DECCRM. These are those of a new screen."""

    reverse: bool = False
    origin: bool = False
    autowrap: bool = True
    insert: bool = False
    display: bool = False


@dataclass
class KeyState:
    """The key state of a console: keep one for each. Flags and lights are sums of Scroll Lock 1, Num Lock 2, Caps
    Lock 4; the lights show the flags while they are LIGHTS_FOLLOW. Modifiers are sums of the weights of keymaps(5)."""

    mode: int = UNICODE
    meta: int = ESCPREFIX
    flags: int = 0
    defaults: int = 0
    lights: int = LIGHTS_FOLLOW
    locks: int = 0
    sticky: int = 0


class _Handle(ctypes.Structure):
    _fields_ = [("at", ctypes.c_void_p)]


class _Out(ctypes.Structure):
    _fields_ = [
        ("kind", ctypes.c_uint8), ("length", ctypes.c_uint8), ("number", ctypes.c_uint16),
        ("text", ctypes.c_uint8 * 16), ("spare", ctypes.c_uint32 * 3)]


class _Fed(ctypes.Structure):
    _fields_ = [
        *((name, ctypes.c_size_t) for name in ("taken", "outs", "rows")), ("spare", ctypes.c_size_t * 1)]


class _Cell(ctypes.Structure):
    _fields_ = [("code", ctypes.c_uint32), ("attr", ctypes.c_uint8), ("spare", ctypes.c_uint8 * 3)]


CELL, ATTRIBUTE = ctypes.sizeof(_Cell), _Cell.attr.offset


class _Modes(ctypes.Structure):
    _fields_ = [
        *((name, ctypes.c_uint8) for name in ("cursor_keys", "keypad", "repeat", "newline_mode")),
        ("spare", ctypes.c_uint8 * 4)]


class _State(ctypes.Structure):
    _fields_ = [
        *((name, ctypes.c_uint16) for name in ("rows", "cols", "y", "x")),
        *((name, ctypes.c_uint8) for name in ("visible", "reverse", "origin", "autowrap", "insert", "controls")),
        ("modes", _Modes), ("spare", ctypes.c_uint8 * 10)]


class _Colour(ctypes.Structure):
    _fields_ = [("red", ctypes.c_uint8), ("green", ctypes.c_uint8), ("blue", ctypes.c_uint8), ("spare", ctypes.c_uint8)]


class _Fault(ctypes.Structure):
    _fields_ = [(name, ctypes.c_uint32) for name in ("line", "column", "kind", "spare")]


class _Text(ctypes.Structure):
    _fields_ = [
        ("name", ctypes.c_char_p), ("name_length", ctypes.c_size_t),
        ("text", ctypes.c_char_p), ("text_length", ctypes.c_size_t)]


class _KeyState(ctypes.Structure):
    _fields_ = [
        *((name, ctypes.c_uint8) for name in ("mode", "meta", "flags", "defaults", "lights", "locks", "sticky")),
        ("spare", ctypes.c_uint8 * 9)]


class _Key(ctypes.Structure):
    _fields_ = [
        ("kind", ctypes.c_uint8), ("spare", ctypes.c_uint8), ("length", ctypes.c_uint16), ("number", ctypes.c_uint32),
        ("bytes", ctypes.c_uint8 * 512)]


class _Action(ctypes.Structure):
    _fields_ = [("kind", ctypes.c_uint16), ("value", ctypes.c_uint16)]


class _Pair(ctypes.Structure):
    _fields_ = [(name, ctypes.c_uint32) for name in ("accent", "base", "result")]


class _Start(ctypes.Structure):
    _fields_ = [
        ("consoles", ctypes.c_uint64), ("bytes", ctypes.c_uint64), ("events", ctypes.c_uint32),
        ("rows", ctypes.c_uint16), ("cols", ctypes.c_uint16), ("front", ctypes.c_uint8),
        ("keyboards", ctypes.c_uint8), ("spare", ctypes.c_uint8 * 22)]


class _Seat(ctypes.Structure):
    _fields_ = [("home", ctypes.c_uint8), ("privileged", ctypes.c_uint8), ("spare", ctypes.c_uint8 * 6)]


class _Reply(ctypes.Structure):
    _fields_ = [
        ("mask", ctypes.c_uint64), ("length", ctypes.c_uint32), ("number", ctypes.c_uint32),
        ("words", ctypes.c_uint16 * 6), ("kind", ctypes.c_uint8), ("spare", ctypes.c_uint8 * 19)]


class _Mark(ctypes.Structure):
    _fields_ = [*((name, ctypes.c_uint8) for name in ("kind", "a", "b", "cause")), ("spare", ctypes.c_uint8 * 4)]


class _Display(ctypes.Structure):
    _fields_ = [
        ("hops", ctypes.c_uint64), ("gone", ctypes.c_uint64), ("entries", ctypes.c_uint32),
        *((name, ctypes.c_uint8) for name in ("front", "pending", "locked")), ("spare", ctypes.c_uint8 * 17)]


class _Console(ctypes.Structure):
    _fields_ = [
        ("bells", ctypes.c_uint32), ("queued", ctypes.c_uint32),
        *((name, ctypes.c_uint16) for name in ("rows", "cols", "y", "x")),
        *((name, ctypes.c_uint8) for name in ("owner", "graphics", "visible")), ("spare", ctypes.c_uint8 * 13)]


_to = ctypes.POINTER
_bytes, _size, _number = ctypes.c_char_p, ctypes.c_size_t, ctypes.c_uint32
_room, _byte = _to(ctypes.c_uint8), ctypes.c_uint8
# The arguments of each call behind the handle.
_CALLS = {
    "vt_screen_new": (_number, _number),
    "vt_screen_feed": (_bytes, _size, _to(_Out), _size, _to(_Fed)),
    "vt_screen_feed_rows": (_bytes, _size, _to(_Out), _size, _to(_Cell), _size, _to(_Fed)),
    "vt_screen_write": (_bytes, _size),
    "vt_screen_state": (_to(_State),),
    "vt_screen_cell": (_number, _number, _to(_Cell)),
    "vt_screen_row": (_number, _to(_Cell), _size),
    "vt_screen_cells": (_to(_Cell), _size),
    "vt_screen_row_text": (_number, _room, _size, _to(_size)),
    "vt_screen_mark": (),
    "vt_screen_changed": (_room, _size),
    "vt_screen_resize": (_number, _number),
    "vt_screen_palette": (_to(_Colour), _size),
    "vt_screen_set_colour": (_number, _byte, _byte, _byte),
    "vt_screen_set_user": (_to(ctypes.c_uint16),),
    "vt_screen_redraw": (_room, _size, _to(_size)),
    "vt_screen_redraw_changes": (_room, _size, _to(_size)),
    "vt_screen_redraw_near": (_room, _size, _to(_size)),
    "vt_screen_redraw_changes_near": (_room, _size, _to(_size)),
    "vt_screen_left_out": (_to(_number),),
    "vt_screen_picture": (_room, _size, _to(_size)),
    "vt_keys_new": (_bytes, _size, _to(_Text), _size, _to(_Fault)),
    "vt_keys_scan": (_byte, _to(_Modes), _to(_KeyState), _to(_Key)),
    "vt_keys_key": (_number, _byte, _to(_Modes), _to(_KeyState), _to(_Key)),
    "vt_keys_release": (),
    "vt_keys_entry": (_number, _number, _to(_Action)),
    "vt_keys_set_entry": (_number, _number, _to(_Action)),
    "vt_keys_keycode": (_number, _to(_number)),
    "vt_keys_set_keycode": (_number, _number),
    "vt_keys_pairs": (_to(_Pair), _size, _to(_size)),
    "vt_keys_set_pairs": (_to(_Pair), _size),
    "vt_keys_string": (_number, _room, _size, _to(_size)),
    "vt_keys_set_string": (_number, _bytes, _size),
    "vt_machine_new": (_to(_Start), _to(_Seat), _size, _bytes, _size, _to(_Fault)),
    "vt_machine_admit": (_number, _to(_Seat)),
    "vt_machine_call": (
        _number, _bytes, _to(ctypes.c_uint16), _size, _bytes, _size, _to(_Reply), _room, _size),
    "vt_machine_forget": (),
    "vt_machine_marks": (_to(_Mark), _size, _to(_size)),
    "vt_machine_wait": (_number, _to(_byte)),
    "vt_machine_display": (_to(_Display),),
    "vt_machine_console": (_number, _to(_Console)),
    "vt_machine_row": (_number, _number, _to(_Cell), _size),
    "vt_machine_cells": (_number, _to(_Cell), _size),
    "vt_machine_redraw": (_number, _room, _size, _to(_size)),
    "vt_machine_redraw_changes": (_number, _to(_Cell), _size, _number, _room, _size, _to(_size)),
    "vt_machine_redraw_near": (_number, _room, _size, _to(_size)),
    "vt_machine_redraw_changes_near": (_number, _to(_Cell), _size, _number, _room, _size, _to(_size)),
    "vt_machine_picture": (_number, _room, _size, _to(_size)),
    "vt_machine_entry": (_number, _room, _size, _to(_size)),
    "vt_machine_journal": (_room, _size, _to(_size)),
}


def _name() -> str:
    """The library's file, or its name for the system."""
    here = pathlib.Path(__file__).resolve().parent
    files = [here / FILE, *(folder / "out/c/lib" / FILE for folder in here.parents)]
    found = [str(file) for file in files if file.exists()]
    return os.environ.get("VT_LIBRARY") or (found or [FILE])[0]


def _load() -> ctypes.CDLL:
    name = _name()
    try:
        library = ctypes.CDLL(name)
        for call, arguments in _CALLS.items():
            function = getattr(library, call)
            function.argtypes, function.restype = [_to(_Handle), *arguments], ctypes.c_uint8
        for call in ("vt_screen_free", "vt_keys_free", "vt_machine_free"):
            function = getattr(library, call)
            function.argtypes, function.restype = [_to(_Handle)], None
        library.vt_columns.argtypes, library.vt_columns.restype = [_number], ctypes.c_uint8
    except (OSError, AttributeError) as fault:
        raise LibraryError(f"{name}: {fault}; VT_LIBRARY may name the file libvt.so.1") from None
    return library


_library = _load()
_OK, _MADE, _RANGE, _NO_MEMORY, _NOTHING, _NO_ROOM, _FAULT, _NOT_DRAWABLE, _FULL = range(9)


def _unsigned(value: int, what: str) -> int:
    """A number for the library; what doesn't fit in 32 bits is out of every range."""
    if not 0 <= value < 1 << 32:
        raise OutOfRange(f"{what}: {value}")
    return value


def columns(character: str) -> int:
    """How many columns a character takes: 1 or 2, or 0 for one that joins the character before it."""
    width: int = _library.vt_columns(ord(character))
    return width


_Self = TypeVar("_Self", bound="_Object")


class _Object:
    """A handle, and the calls on it, one at a time."""

    _kind = ""

    def __init__(self) -> None:
        self._handle = _Handle()
        self._lock = threading.RLock()

    def _call(
        self, name: str, *arguments: Any, what: str = "a number is out of its range", may: tuple[int, ...] = ()
    ) -> int:
        with self._lock:
            code: int = getattr(_library, f"vt_{self._kind}_{name}")(self._handle, *arguments)
        if code == _OK or code in may:
            return code
        if code == _RANGE:
            raise OutOfRange(what)
        if code == _NO_MEMORY:
            raise NoMemory("memory ran out")
        if code == _NOTHING:
            raise Closed(f"this {type(self).__name__} was closed")
        if code == _NOT_DRAWABLE:
            raise NotDrawable("no text draws this screen")
        if code == _FULL:
            raise Full("the journal has no room for the call")
        if code == _MADE:
            raise InUse("the process can't be given to this program")
        raise Error(f"vt_{self._kind}_{name}: code {code}")

    def _text(self, name: str, *arguments: Any, room: int, what: str = "a number is out of its range") -> bytes:
        """The text that a call gives, in as much room as it takes."""
        length = ctypes.c_size_t()
        with self._lock:
            text = (ctypes.c_uint8 * room)()
            while self._call(name, *arguments, text, len(text), length, what=what, may=(_NO_ROOM,)) == _NO_ROOM:
                text = (ctypes.c_uint8 * length.value)()
        return ctypes.string_at(text, length.value)

    def close(self) -> None:
        """Frees what the object has; a call after it raises Closed."""
        with self._lock:
            getattr(_library, f"vt_{self._kind}_free")(self._handle)

    def __enter__(self: _Self) -> _Self:
        return self

    def __exit__(self, *_: object) -> None:
        self.close()

    def __del__(self) -> None:
        if hasattr(self, "_lock"):
            self.close()


class Screen(_Object):
    """A screen of 1 to 255 rows and columns (console_codes(4))."""

    _kind = "screen"

    def __init__(self, rows: int, cols: int) -> None:
        super().__init__()
        what = f"{rows} rows and {cols} columns: each is 1 to 255"
        self._call("new", _unsigned(rows, what), _unsigned(cols, what), what=what)
        self._outs, self._fed = (_Out * OUTS)(), _Fed()

    def feed(self, text: Bytes) -> list[Event]:
        """Draws the bytes, however they are cut into calls. Returns a list of what they ask for, in order: Report,
        SwitchTo, SwitchLast, Lights, Bell."""
        view = memoryview(bytes(text))
        events: list[Event] = []
        with self._lock:
            for at in range(0, max(1, len(view)), PIECE):
                piece = bytes(view[at:at + PIECE])
                while True:
                    self._call("feed", piece, len(piece), self._outs, OUTS, self._fed)
                    events += map(_event, self._outs[:self._fed.outs])
                    if self._fed.taken == len(piece):
                        break
                    piece = piece[self._fed.taken:]
        return events

    def feed_rows(self, text: Bytes) -> tuple[list[Event], list[list[Cell]]]:
        """Draws the bytes as feed does. Returns what they ask for, and the cells of each row that fell out at the top,
        from its left, in order: a line feed in the last row moves a row out. What is deleted or erased, and what
        resize loses, isn't among them."""
        left = bytes(text)
        events: list[Event] = []
        rows: list[list[Cell]] = []
        with self._lock:
            cols = self.size[1]
            cells = (_Cell * (FALLEN * cols))()
            while left:
                piece = left[:PIECE]
                self._call("feed_rows", piece, len(piece), self._outs, OUTS, cells, len(cells), self._fed)
                events += map(_event, self._outs[:self._fed.outs])
                fallen = _cells(cells, self._fed.rows * cols)
                rows += (fallen[at:at + cols] for at in range(0, len(fallen), cols))
                left = left[self._fed.taken:]
        return events, rows

    def write(self, text: Bytes) -> None:
        """Draws the bytes, and drops what they ask for."""
        text = bytes(text)
        self._call("write", text, len(text))

    def _state(self) -> _State:
        state = _State()
        self._call("state", state)
        return state

    @property
    def size(self) -> tuple[int, int]:
        """How many rows and columns the screen has."""
        state = self._state()
        return state.rows, state.cols

    @property
    def cursor(self) -> Cursor:
        """Where the cursor is, and whether it is shown."""
        state = self._state()
        return Cursor(state.y, state.x, bool(state.visible))

    @property
    def modes(self) -> Modes:
        """The modes that keys depend on, for Keyboard.scan."""
        modes = self._state().modes
        return Modes(*(bool(mode) for mode in (modes.cursor_keys, modes.keypad, modes.repeat, modes.newline_mode)))

    @property
    def settings(self) -> Settings:
        """The modes that keys don't depend on."""
        state = self._state()
        modes = (state.reverse, state.origin, state.autowrap, state.insert, state.controls)
        return Settings(*(bool(mode) for mode in modes))

    @property
    def reverse(self) -> bool:
        """Whether the screen is shown reversed (DECSCNM)."""
        return bool(self._state().reverse)

    def row(self, row: int) -> str:
        """The characters of a row."""
        what = f"row {row}"
        return self._text("row_text", _unsigned(row, what), room=4 * ROW, what=what).decode("utf-8", "surrogatepass")

    def rows(self) -> list[str]:
        """The characters of each row, from the top."""
        with self._lock:
            return [self.row(row) for row in range(self.size[0])]

    def cell(self, row: int, col: int) -> Cell:
        """One cell."""
        cell, what = _Cell(), f"row {row}, column {col}"
        self._call("cell", _unsigned(row, what), _unsigned(col, what), cell, what=what)
        return _cell(cell)

    def cells(self, row: int) -> list[Cell]:
        """The cells of a row, from its left."""
        cells, what = (_Cell * ROW)(), f"row {row}"
        with self._lock:
            self._call("row", _unsigned(row, what), cells, ROW, what=what)
            return _cells(cells, self.size[1])

    def mark(self) -> None:
        """Remembers the cells as they are, for changed_rows."""
        self._call("mark")

    def changed_rows(self) -> list[int]:
        """The numbers of the rows that differ from the cells that mark remembered; all of them, if there are none."""
        rows = (ctypes.c_uint8 * ROW)()
        with self._lock:
            self._call("changed", rows, ROW)
            return [row for row in range(self.size[0]) if rows[row]]

    def resize(self, rows: int, cols: int) -> None:
        """Gives the screen another size."""
        what = f"{rows} rows and {cols} columns: each is 1 to 255"
        self._call("resize", _unsigned(rows, what), _unsigned(cols, what), what=what)

    @property
    def palette(self) -> list[tuple[int, int, int]]:
        """Red, green and blue of the colours 0 to 15, in the order of SGR."""
        colours = (_Colour * COLOURS)()
        self._call("palette", colours, COLOURS)
        return [_parts(colour) for colour in colours]

    def colour(self, number: int) -> tuple[int, int, int]:
        """Red, green and blue of a colour, 0 to 15 in the order of SGR."""
        if not 0 <= number < COLOURS:
            raise OutOfRange(f"colour {number}")
        return self.palette[number]

    def set_colour(self, number: int, red: int, green: int, blue: int) -> None:
        """Sets red, green and blue of a colour, 0 to 15 in the order of SGR."""
        what = f"colour {number}: {red}, {green}, {blue}"
        if not all(0 <= part < 256 for part in (red, green, blue)):
            raise OutOfRange(what)
        self._call("set_colour", _unsigned(number, what), red, green, blue, what=what)

    def set_user(self, words: Iterable[int]) -> None:
        """Sets the user's table of characters (ESC ( K): 256 words."""
        words = list(words)
        if len(words) != 256 or not all(0 <= word < 1 << 16 for word in words):
            raise OutOfRange("a table has 256 words from 0 to 65535")
        self._call("set_user", (ctypes.c_uint16 * 256)(*words))

    def redraw(self) -> bytes:
        """The text that draws this screen on a terminal of its size. NotDrawable, if there is none."""
        return self._text("redraw", room=4096)

    def redraw_changes(self) -> bytes:
        """The same for a terminal that shows the cells that mark remembered: only rows that differ are in the text."""
        return self._text("redraw_changes", room=4096)

    def redraw_near(self) -> bytes:
        """The text of redraw for the nearest screen that a text draws: this one, except the parts of left_out."""
        return self._text("redraw_near", room=4096)

    def redraw_changes_near(self) -> bytes:
        """The text of redraw_changes for that screen."""
        return self._text("redraw_changes_near", room=4096)

    def left_out(self) -> int:
        """What no text makes of this screen, a sum of enum vt_left_out of vt.h: 0 if redraw draws it."""
        parts = _number()
        self._call("left_out", parts)
        return parts.value

    def picture(self) -> str:
        """The screen as a picture in SVG."""
        return self._text("picture", room=16384).decode("utf-8", "surrogatepass")


class Keyboard(_Object):
    """A keymap (keymaps(5)) and a keyboard that types by it into the console whose key state is `state`. `keymap` and
    the texts that it may include, by name, are bytes or str."""

    _kind = "keys"

    def __init__(
        self, keymap: str | Bytes, includes: Mapping[str | bytes, str | bytes] | None = None, mode: int = UNICODE
    ) -> None:
        super().__init__()
        text = _encoded(keymap)
        pairs = [(_encoded(name), _encoded(included)) for name, included in (includes or {}).items()]
        texts = (_Text * max(1, len(pairs)))(
            *(_Text(name, len(name), included, len(included)) for name, included in pairs))
        fault = _Fault()
        if self._call("new", text, len(text), texts, len(pairs), fault, may=(_FAULT,)) == _FAULT:
            raise KeymapFault(fault.kind, fault.line, fault.column)
        self._key = _Key()
        self.state = KeyState(mode=mode)

    def scan(self, byte: int, modes: Modes = Modes()) -> Event | None:
        """Types one scan byte. Returns what it sends or asks for: Typed, SwitchTo, SwitchLast, SwitchNext,
        SwitchPrevious, Spawn, Attention; or None."""
        if not 0 <= byte < 256:
            raise OutOfRange(f"scan byte {byte}")
        return self._typed("scan", byte, modes=modes)

    def key(self, keycode: int, is_down: bool = True, modes: Modes = Modes()) -> Event | None:
        """Types a key by its keycode, 1 to 255, as evdev has it. Returns as scan does."""
        return self._typed("key", _unsigned(keycode, f"keycode {keycode}"), bool(is_down), modes=modes)

    def _typed(self, call: str, *words: Any, modes: Modes) -> Event | None:
        numbers = [getattr(self.state, name) for name in KeyState.__dataclass_fields__]
        if not all(0 <= number < 256 for number in numbers):
            raise OutOfRange(f"{self.state}")
        own = _KeyState(*numbers)
        with self._lock:
            self._call(call, *words, _Modes(*map(bool, modes)), own, self._key, what=f"{words}, {self.state}")
            for name in KeyState.__dataclass_fields__:
                setattr(self.state, name, getattr(own, name))
            return _key_event(self._key)

    def type(self, scans: Iterable[int], modes: Modes = Modes()) -> list[Event]:
        """Types scan bytes. Returns a list of what they send or ask for."""
        return [event for event in (self.scan(byte, modes) for byte in bytes(scans)) if event is not None]

    def release(self) -> None:
        """Releases the keys as if the keyboard were unplugged: none of them sends anything."""
        self._call("release")

    def entry(self, table: int, keycode: int) -> tuple[int, int]:
        """The action of a keycode in a table, as its kind and its value (docs/reference/keys.md, "Actions")."""
        action, what = _Action(), f"table {table}, keycode {keycode}"
        self._call("entry", _unsigned(table, what), _unsigned(keycode, what), action, what=what)
        return action.kind, action.value

    def set_entry(self, table: int, keycode: int, kind: int, value: int) -> None:
        """Sets the action of a keycode in a table."""
        what = f"table {table}, keycode {keycode}, kind {kind}, value {value}"
        if not 0 <= kind < 1 << 16 or not 0 <= value < 1 << 16:
            raise OutOfRange(what)
        self._call("set_entry", _unsigned(table, what), _unsigned(keycode, what), _Action(kind, value), what=what)

    def keycode(self, scan: int) -> int:
        """The keycode of a scan number, or 0: 1 to 127, and 129 to 255 for 1 to 127 after E0."""
        keycode, what = ctypes.c_uint32(), f"scan number {scan}"
        self._call("keycode", _unsigned(scan, what), keycode, what=what)
        return keycode.value

    def set_keycode(self, scan: int, keycode: int) -> None:
        """Sets the keycode of a scan number, 0 to 255; 0 is none."""
        what = f"scan number {scan}, keycode {keycode}"
        self._call("set_keycode", _unsigned(scan, what), _unsigned(keycode, what), what=what)

    def pairs(self) -> list[tuple[int, int, int]]:
        """The pairs of compose keys, each an accent, a letter and the character that they make."""
        pairs, count = (_Pair * PAIRS)(), ctypes.c_size_t()
        self._call("pairs", pairs, PAIRS, count)
        return [(pair.accent, pair.base, pair.result) for pair in pairs[:count.value]]

    def set_pairs(self, pairs: Iterable[tuple[int, int, int]]) -> None:
        """Sets the pairs: at most 256, of numbers up to 65535."""
        pairs, what = list(pairs), "at most 256 pairs of numbers from 0 to 65535"
        own = (_Pair * max(1, len(pairs)))(*(_Pair(*(_unsigned(number, what) for number in pair)) for pair in pairs))
        self._call("set_pairs", own, len(pairs), what=what)

    def string(self, number: int) -> bytes:
        """The string of a function key, 0 to 255."""
        what = f"function key {number}"
        return self._text("string", _unsigned(number, what), room=255, what=what)

    def set_string(self, number: int, text: Bytes) -> None:
        """Sets the string of a function key, 0 to 255, to at most 255 bytes."""
        text, what = bytes(text), f"function key {number}, {len(text)} bytes"
        self._call("set_string", _unsigned(number, what), text, len(text), what=what)


def _encoded(text: str | Bytes) -> bytes:
    return text.encode() if isinstance(text, str) else bytes(text)


def _parts(colour: _Colour) -> tuple[int, int, int]:
    return colour.red, colour.green, colour.blue


def _cells(cells: Any, count: int) -> list[Cell]:
    """So many cells of an array of _Cell."""
    given, step = bytes(cells)[:count * CELL], CELL // 4
    codes, attributes = memoryview(given).cast("I")[::step], given[ATTRIBUTE::CELL]
    return [Cell("" if code >= HALF else chr(code), code, byte) for code, byte in zip(codes, attributes)]


def _cell(cell: _Cell) -> Cell:
    return Cell("" if cell.code >= HALF else chr(cell.code), cell.code, cell.attr)


def _event(out: _Out) -> Event:
    kinds: dict[int, Callable[[], Event]] = {
        2: lambda: SwitchTo(out.number), 3: SwitchLast, 4: lambda: Lights(out.number), 5: Bell}
    return Report(bytes(out.text[:out.length])) if out.kind == 1 else kinds[out.kind]()


def _key_event(key: _Key) -> Event | None:
    kinds: dict[int, Callable[[], Event | None]] = {
        0: lambda: None, 1: lambda: Typed(bytes(key.bytes[:key.length])), 2: lambda: SwitchTo(key.number),
        3: SwitchLast, 4: SwitchNext, 5: SwitchPrevious, 6: Spawn, 7: Attention}
    return kinds[key.kind]()
