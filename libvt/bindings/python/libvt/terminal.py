"""A program on a terminal that is a proved console.

    from libvt import Terminal

    with Terminal("less -M numbers", rows=6, cols=40) as less:
        less.type("<Space>")
        assert less.screen.rows[0] == "6"
        less.type("q")
        assert less.wait_exit() == 0

The screen changes only during calls of this object, in the thread of the caller. Each call that waits has a limit. The
program ends with its terminal.
"""
from __future__ import annotations

import atexit
import contextlib
import errno
import os
import re
import shlex
import shutil
import signal
import time
import weakref
from os import PathLike
from typing import Mapping, NamedTuple, Sequence

from .calls import Bell, Keyboard, Report, Screen, Typed
from .environment import on_console
from .keys import KEYMAP, pieces_of
from .screen_files import compared, read_screen, saved, write_text
from .session import Session
from .shown import Mask, Place, Shown, What, described
from .waiting import LONG

# The limit of a call; how long a text has to stay, and how long a key waits for the program; and how long a program
# with a timer must be quiet. All are seconds.
TIMEOUT, PATIENCE, QUIET = 10.0, 0.5, 0.05
FIRST_PAUSE, LONGEST_PAUSE = 0.0003, 0.01


class Failed(AssertionError):
    """The program or its screen isn't as it should be. The text has the screen."""


class Event(NamedTuple):
    """A moment of a recording: seconds since the start; `o` for output, `i` for input, `r` for a size; the bytes."""

    seconds: float
    kind: str
    text: bytes


_open: weakref.WeakSet[Terminal] = weakref.WeakSet()


class Terminal:
    """A program on a terminal. A command that is a str is cut into words as a shell does, but no shell runs.

    `output` has all bytes of the program, `reports` what the console answered, `events` both and the input with their
    times. `exit_status` is None until the program has ended; -N is signal N. `folder` is the folder of screen files. If
    `accepts` is true, assert_screen writes its file, and `accepted` has the paths.
    """

    def __init__(
        self, command: str | Sequence[str | PathLike[str]], rows: int = 25, cols: int = 80, *,
        env: Mapping[str, str | None] | None = None, cwd: str | PathLike[str] | None = None, timeout: float = TIMEOUT,
        keymap: str | bytes = KEYMAP,
    ) -> None:  # fmt: skip
        """Starts the program. `env` has changes of this process's environment; None removes a variable. `timeout` is
        the limit of each call, in seconds. FileNotFoundError if there is no such program."""
        self._session: Session | None = None
        words = shlex.split(command) if isinstance(command, str) else [os.fspath(word) for word in command]
        environment = on_console(env or {})
        if not words or not is_program(words[0], environment.get("PATH"), cwd):
            raise FileNotFoundError(errno.ENOENT, "no such program", words[0] if words else "")
        self.command, self.timeout, self.first_size = shlex.join(words), timeout, (rows, cols)
        self.output, self.reports = bytearray(), bytearray()
        self.events: list[Event] = []
        self.folder: str | PathLike[str] = ""
        self.accepts = False
        self.accepted: list[str] = []
        self._screen, self._keyboard = Screen(rows, cols), Keyboard(keymap)
        self._bells, self._is_touched, self._is_escaped, self._is_guessed = 0, True, False, False
        self._start = self._changed = time.monotonic()
        self._session = Session(words, rows, cols, environment, cwd)
        _open.add(self)

    # What the user does.

    def type(self, keys: str) -> None:
        """Types characters and named keys (libvt.keys). Each key is sent when the program waits for it."""
        __tracebackhide__ = True
        for is_scans, text in pieces_of(keys):
            self._catch_up()
            if is_scans:
                typed = self._keyboard.type(text, self._screen.modes)
                text = b"".join(event.text for event in typed if isinstance(event, Typed))
                if not text:
                    raise ValueError(f"a key of {keys!r} sends nothing on a console")
            self.send(text)
            self._is_escaped = text.endswith(b"\x1b")

    def send(self, given: str | bytes) -> None:
        """Sends bytes to the program at once, whether it waits or not."""
        __tracebackhide__ = True
        text = given.encode() if isinstance(given, str) else bytes(given)
        until = time.monotonic() + self.timeout
        self._touch()
        self._add("i", text)
        while text:
            self._pump(0)
            if self.exit_status is not None:
                raise self._failure("the program ended before it was given all input")
            count = self._opened().write(text)
            text = text[count:]
            if not count:
                if time.monotonic() > until:
                    raise self._failure(f"the program didn't read its input within {self.timeout:g} s")
                self._pump(LONGEST_PAUSE)

    def resize(self, rows: int, cols: int) -> None:
        """Gives the terminal another size; the program gets SIGWINCH."""
        self._calm(PATIENCE)
        self._screen.resize(rows, cols)
        self._opened().resize(rows, cols)
        self._touch()
        self._add("r", f"{cols}x{rows}".encode())

    def kill(self, number: int = signal.SIGTERM) -> None:
        """Sends the program a signal."""
        self._opened().kill(number)
        self._touch()

    # What the user sees.

    @property
    def exit_status(self) -> int | None:
        """The program's exit status, -N if signal N ended it, and None if it runs."""
        return self._session.status if self._session else None

    @property
    def screen(self) -> Shown:
        """What the screen shows as soon as the program has read its input, has drawn its output, and waits."""
        __tracebackhide__ = True
        if self._is_touched:
            self.settle()
        else:
            self._calm(PATIENCE)
        return self.now()

    def settle(self, timeout: float | None = None) -> None:
        """Waits until the program waits for its terminal, or has ended."""
        __tracebackhide__ = True
        limit = self.timeout if timeout is None else timeout
        if not self._calm(limit):
            advice = "wait_for can wait for a text of such a program"
            raise self._failure(f"the program didn't come to rest within {limit:g} s ({advice})")
        self._is_touched = False

    def wait_for(self, what: What, timeout: float | None = None) -> Place | object:
        """Waits until a text or a pattern is on the screen (Shown.find), or until a function of the screen returns a
        true value without an AssertionError. Returns the place, or the function's value. A text that is there only for
        a moment isn't enough: it has to be there when the program rests, or half a second later."""
        __tracebackhide__ = True
        limit = self.timeout if timeout is None else timeout
        until = time.monotonic() + limit
        moment = ""
        if self._is_touched:
            self._catch_up()
        while True:
            is_last = time.monotonic() >= until or self.exit_status is not None
            shown = self.now()
            found, fault = looked_for(what, shown)
            if found:
                moment = f"; it was there for a moment, {self._seconds():.2f} s after the start"
                self._calm(max(0.0, min(PATIENCE, until - time.monotonic())))
                shown = self.now()
                found, fault = looked_for(what, shown)
            if found:
                self._is_touched = False
                return found
            if is_last:
                raise self._not_shown(what, shown, limit, moment, fault) from fault
            self._pump(min(QUIET, max(0.0, until - time.monotonic())))

    def wait_exit(self, timeout: float | None = None) -> int:
        """Waits until the program has ended. Returns its exit status, or -N if signal N ended it."""
        __tracebackhide__ = True
        limit = self.timeout if timeout is None else timeout
        until = time.monotonic() + limit
        while True:
            is_last = time.monotonic() >= until
            if self.exit_status is None:
                self._pump(max(0.0, until - time.monotonic()))
            if self.exit_status is not None:
                return self.exit_status
            if is_last:
                raise self._failure(f"the program didn't end within {limit:g} s")

    def assert_screen(
        self, path: str | PathLike[str], *, mask: Sequence[Mask] = (), colours: bool = True, cursor: bool = True,
        timeout: float | None = None,
    ) -> None:  # fmt: skip
        """Waits until the screen is that of a file of `folder` (libvt.screen_files), without the masked cells; without
        `colours` and `cursor` these don't count. If `accepts` is true, the file is written instead."""
        __tracebackhide__ = True
        path = os.path.join(self.folder, path)
        if self.accepts:
            write_text(path, saved(self.screen.masked(mask)))
            self.accepted.append(path)
            return
        try:
            wanted = read_screen(path)
        except FileNotFoundError:
            raise Failed(f"{path}: there is no such file; pytest --vt-accept writes it, or accepts = True") from None
        except ValueError as fault:
            raise Failed(str(fault)) from None
        limit = self.timeout if timeout is None else timeout

        def is_it(shown: Shown) -> bool:
            return not compared(wanted, shown.masked(mask), colours, cursor)[0]

        with contextlib.suppress(Failed):
            self.wait_for(is_it, limit)
            return
        faults, marks = compared(wanted, self.now().masked(mask), colours, cursor)
        why = f"the screen isn't that of {path} within {limit:g} s"
        raise self._failure("\n".join([why, *faults]), marks)

    def picture(self, path: str | PathLike[str] | None = None) -> str:
        """The screen as a picture in SVG, which is also written to the file of `path`."""
        text = self.screen.picture()
        if path is not None:
            write_text(path, text)
        return text

    def report(self) -> str:
        """The command, what the program does, and the screen as it is now."""
        state = "closed"
        if self._session and self._session.is_open:
            self._pump(0)
            state = "waits" if self._is_idle() else "is busy"
        if self.exit_status is not None:
            state = f"ended with status {self.exit_status}"
        return f"{self.command} ({state}, {self._seconds():.1f} s after its start)\n{self.now().framed()}"

    def now(self) -> Shown:
        """What the screen shows at this moment, whether the program waits or not."""
        return Shown(self._screen, self._bells)

    def close(self) -> None:
        """Hangs up, and ends every process that the program started and left."""
        session = self._session
        if session is None or not session.is_open:
            return
        _open.discard(self)
        with contextlib.suppress(OSError):
            self._pump(0)
        session.close()

    def __enter__(self) -> Terminal:
        return self

    def __exit__(self, *_: object) -> None:
        self.close()

    def __del__(self) -> None:
        if getattr(self, "_session", None):
            self.close()

    # How it is done.

    def _opened(self) -> Session:
        """The session, if it is open."""
        if self._session is None or not self._session.is_open:
            raise ValueError("this terminal was closed")
        return self._session

    def _seconds(self) -> float:
        """The time since the start."""
        return time.monotonic() - self._start

    def _add(self, kind: str, text: bytes) -> None:
        """Adds a moment to the recording."""
        self.events.append(Event(self._changed - self._start, kind, text))

    def _touch(self) -> None:
        """The program was given something."""
        self._is_touched, self._changed = True, time.monotonic()

    def _failure(self, why: str, marks: Sequence[tuple[int, int, int]] = ()) -> Failed:
        """A failure, with the command and the screen."""
        state = "" if self.exit_status is None else f", ended with status {self.exit_status}"
        guess = "\n(the system doesn't report the program's calls, so rest is guessed by pauses)" * self._is_guessed
        return Failed(f"{why}\n{self.command}{state}, {self._seconds():.1f} s after its start:{guess}\n"
                      f"{self.now().framed(marks)}")  # fmt: skip

    def _not_shown(
        self, what: What, shown: Shown, limit: float, moment: str, fault: AssertionError | None
    ) -> Failed:
        """The failure of wait_for."""
        why = f"within {limit:g} s"
        if self.exit_status is not None:
            why = f"before the program ended with status {self.exit_status}"
        near = shown.nearest(what) if isinstance(what, str) else ""
        text = f"{described(what)} wasn't shown {why}{moment}" + (near and f"; {near}")
        if fault is None and not isinstance(what, (str, re.Pattern)) and what(shown) is None:
            text += "\nthe function returned None: wait_for waits for a true value"
        return self._failure(text + (f"\n{fault}" if fault else ""))

    def _pump(self, seconds: float) -> bool:
        """Draws the output that is there, or that comes within that time. Returns whether there was any."""
        return self._session.pump(self._draw, seconds) if self._session else False

    def _draw(self, piece: bytes) -> None:
        """Draws output, and answers its reports."""
        self._changed = time.monotonic()
        self.output += piece
        self._add("o", piece)
        for event in self._screen.feed(piece):
            if isinstance(event, Bell):
                self._bells += 1
            elif isinstance(event, Report):
                self.reports += event.text
                if self._session:
                    self._session.write(event.text)

    def _is_idle(self, for_key: bool = False) -> bool:
        """Whether nothing is left to draw or to read, and every thread waits. For a key it is enough that input ends
        each sleep; otherwise no thread may do anything within LONG by itself."""
        session = self._opened()
        if self._pump(0):
            return False
        if self.exit_status is not None:
            return True
        if session.has_input():
            return False
        look = session.look()
        if look is None or self._pump(0) or session.has_input():
            return False
        self._is_guessed = self._is_guessed or not look.is_known
        if look.naps or look.limit and not for_key:
            return time.monotonic() > self._changed + max(QUIET, 2 * look.limit)
        return session.look() == look

    def _catch_up(self) -> None:
        """Gives the program time for its input. After Esc it may wait for the rest of a sequence."""
        self._calm(2 * LONG if self._is_escaped else PATIENCE, not self._is_escaped)

    def _calm(self, seconds: float, for_key: bool = False) -> bool:
        """Waits until the program rests. Returns whether it does."""
        if self._session is None or not self._session.is_open:
            return True
        until, pause = time.monotonic() + seconds, FIRST_PAUSE
        while not self._is_idle(for_key):
            if time.monotonic() > until:
                return False
            self._pump(pause)
            pause = min(LONGEST_PAUSE, 1.5 * pause)
        return True


def is_program(word: str, path: str | None, cwd: str | PathLike[str] | None) -> bool:
    """Whether the first word of a command is a program."""
    if "/" in word:
        return shutil.which(os.path.join(cwd or "", word)) is not None
    return shutil.which(word, path=path) is not None


def looked_for(what: What, shown: Shown) -> tuple[Place | object, AssertionError | None]:
    """What a look at the screen finds, and the assertion that failed in a function."""
    if isinstance(what, (str, re.Pattern)):
        return shown.find(what), None
    try:
        return what(shown), None
    except AssertionError as fault:
        return None, fault


@atexit.register
def _close_all() -> None:
    """Ends all programs at the end of Python."""
    for terminal in list(_open):
        terminal.close()
