"""The consoles of a machine, with programs of Linux on them: shells, chvt, login programs, display servers.

    from libvt import Consoles

    with Consoles([1, 2], rows=10, cols=40) as consoles:
        consoles.run("sh", 2, env={"PS1": "$ "})
        consoles.type("<A-F2>")
        consoles.wait_front(2)
        consoles.type("echo hello<Enter>")
        assert consoles.row(1) == "hello"

vtrun(1) serves the consoles; no console hardware is used. Consoles are numbered from 1 to 63, and 0 stands for the one
in front. Rows and columns are counted from 0. Each call has a limit. All programs end with the object.
"""
from __future__ import annotations

import atexit
import contextlib
import os
import shlex
import time
import uuid
import weakref
from os import PathLike
from typing import Iterable, Mapping, Sequence

from .calls import Screen
from .console_program import Program
from .console_states import Client, ConsoleState, client_of, state_of
from .environment import on_console
from .keys import PIECE
from .shown import Place, Shown, What, described
from .terminal import LONGEST_PAUSE, PATIENCE, QUIET, TIMEOUT, Failed, is_program, looked_for
from .vtrun import Ended, Refused, Vtrun
from .waiting import Look

MARK = "VT_PROGRAM"
# How many calls of the journal a failure has, and the pause between two looks, in seconds.
LAST_CALLS, PAUSE = 8, 0.002

_open: weakref.WeakSet[Consoles] = weakref.WeakSet()


class Consoles:
    """A machine with consoles, and the programs on them. `consoles` are the numbers of those that are allocated at the
    start; console 1 is in front, and is always one of them. `journal` has all calls that programs and the keyboard made
    so far.
    """

    def __init__(
        self, consoles: Iterable[int] = (1,), rows: int = 25, cols: int = 80, *,
        env: Mapping[str, str | None] | None = None, cwd: str | PathLike[str] | None = None, timeout: float = TIMEOUT,
        keymap: str | PathLike[str] | None = None,
    ) -> None:  # fmt: skip
        """Starts vtrun. `env` has changes of this process's environment for all programs; None removes a variable.
        `cwd` is their folder. `timeout` is the limit of each call, in seconds. `keymap` is a file in the form of
        keymaps(5) in place of a plain American keyboard. ValueError if a number or the keymap is wrong; Unavailable, an
        OSError, if vtrun isn't there or can't run."""
        self._vtrun: Vtrun | None = None
        self.timeout = timeout
        self._env, self._cwd = on_console(env or {}), cwd
        self._start = self._changed = time.monotonic()
        self._seen: Look | None = None
        numbers = ",".join(str(number) for number in sorted({1, *consoles}))
        options = ["--consoles", numbers, "--size", str(rows), str(cols)]
        options += ["--keymap", os.path.abspath(keymap)] if keymap else []
        self._vtrun = Vtrun(options, self._env, cwd, timeout)
        _open.add(self)

    # What a user does.

    def run(
        self, command: str | Sequence[str | PathLike[str]], console: int = 1, *,
        env: Mapping[str, str | None] | None = None, cwd: str | PathLike[str] | None = None,
    ) -> Program:  # fmt: skip
        """Starts a program in a session of its own, whose controlling terminal and standard streams are a console. A
        command that is a str is cut into words as a shell does, but no shell runs. FileNotFoundError if there is no
        such program."""
        words = shlex.split(command) if isinstance(command, str) else [os.fspath(word) for word in command]
        changes, mark = env or {}, f"{MARK}={uuid.uuid4().hex}"
        folder = self._cwd if cwd is None else cwd
        if not words or not is_program(words[0], changes.get("PATH", self._env.get("PATH")), folder):
            raise FileNotFoundError(2, "no such program", words[0] if words else "")
        prefix = ["env"] + (["-C", os.path.abspath(cwd)] if cwd is not None else [])
        prefix += [word for name, value in changes.items() if value is None for word in ("-u", name)]
        prefix += [mark, *(f"{name}={value}" for name, value in changes.items() if value is not None)]
        body = "".join(f"{word}\0" for word in [*prefix, *words]).encode()
        return Program(self, int(self._ask(f"run {console}", body)), shlex.join(words), mark)

    def type(self, keys: str) -> None:
        """Types characters and named keys on the keyboard, such as `<A-F2>` for Alt and F2 (docs/reference/vtrun.md).
        The console in front gets them. Each key is typed when all programs wait for it."""
        __tracebackhide__ = True
        for piece in PIECE.finditer(keys):
            is_named = piece[0].startswith("<") and len(piece[0]) > 1
            self._calm(PATIENCE, for_key=not is_named)
            try:
                self._ask("type", piece[0].encode())
            except Refused as fault:
                raise ValueError(str(fault)) from None
            if is_named:
                self._calm(PATIENCE)

    # What is shown.

    @property
    def front(self) -> int:
        """The console in front, as soon as all programs wait."""
        __tracebackhide__ = True
        self.settle()
        return int(self._ask("front"))

    def wait_front(self, console: int, timeout: float | None = None) -> None:
        """Waits until a console is in front."""
        __tracebackhide__ = True
        limit = self.timeout if timeout is None else timeout
        with contextlib.suppress(Refused):
            self._ask(f"wait front {console} {int(1000 * limit)}", limit=limit)
            return
        front = int(self._ask("front"))
        raise self._failure(f"console {console} didn't come to the front within {limit:g} s; {front} is in front")

    def wait_text(self, what: What, console: int = 0, timeout: float | None = None) -> Place | object:
        """Waits until a text or a pattern is on a console's screen (Shown.find), or until a function of the screen
        returns a true value without an AssertionError. Returns the place, or the function's value. A text that is there
        only for a moment isn't enough: it has to be there when all programs wait, or half a second later."""
        __tracebackhide__ = True
        limit = self.timeout if timeout is None else timeout
        until = time.monotonic() + limit
        while True:
            is_last = time.monotonic() >= until
            found, fault = looked_for(what, self.now(console))
            if found:
                self._calm(max(0.0, min(PATIENCE, until - time.monotonic())))
                found, fault = looked_for(what, self.now(console))
            if found:
                return found
            if is_last:
                break
            time.sleep(LONGEST_PAUSE)
        near = self.now(console).nearest(what) if isinstance(what, str) else ""
        text = f"{described(what)} wasn't shown on {name_of(console)} within {limit:g} s" + (near and f"; {near}")
        raise self._failure(text + (f"\n{fault}" if fault else ""))

    def row(self, row: int, console: int = 0) -> str:
        """A row of a console's screen without the blanks at its end, as soon as all programs wait."""
        __tracebackhide__ = True
        return self.snap(console).rows[row]

    def text(self, console: int = 0) -> str:
        """The rows of a console's screen as one text, with a line feed between two rows."""
        __tracebackhide__ = True
        return self.snap(console).text

    def snap(self, console: int = 0) -> Shown:
        """A console's screen with its colours and its cursor, as soon as all programs wait. `bells` are those of the
        console since its start."""
        __tracebackhide__ = True
        self.settle()
        return self.now(console)

    def now(self, console: int = 0) -> Shown:
        """A console's screen at this moment, whether programs wait or not. If no text draws the screen, its colours
        aren't there."""
        __tracebackhide__ = True
        states = self._states()
        number = console or int(self._ask("front"))
        if number not in states:
            raise ValueError(f"console {number} isn't allocated; these are: {', '.join(map(str, states))}")
        with Screen(states[number].rows, states[number].columns) as screen:
            try:
                screen.write(self._ask(f"redraw {number}"))
            except Refused:
                screen.write(self._ask(f"snap {number}").rstrip(b"\n").replace(b"\n", b"\r\n"))
            return Shown(screen, states[number].bells)

    def states(self) -> dict[int, ConsoleState]:
        """The consoles that are allocated, by their numbers, as soon as all programs wait."""
        __tracebackhide__ = True
        self.settle()
        return self._states()

    def processes(self) -> list[Client]:
        """The processes that have made a request or opened a console, as soon as all programs wait."""
        __tracebackhide__ = True
        self.settle()
        return [client_of(line) for line in self._ask("processes").decode("utf-8", "replace").splitlines()]

    @property
    def journal(self) -> str:
        """All calls so far, in the form of vt-journal(5), a line each. After `close` it is whole."""
        return self._vtrun.journal() if self._vtrun else ""

    @property
    def session(self) -> str:
        """The session of the journal in the form of vt-session(5), after `close`; before it is empty. `vt check` and
        `vt explain` read both, the session first."""
        return self._vtrun.session if self._vtrun else ""

    def settle(self, timeout: float | None = None) -> None:
        """Waits until all programs wait for input or for each other."""
        __tracebackhide__ = True
        limit = self.timeout if timeout is None else timeout
        if not self._calm(limit):
            advice = "wait_text can wait for a text of such a program"
            raise self._failure(f"the programs didn't come to rest within {limit:g} s ({advice})")

    def report(self) -> str:
        """The console in front, the screens that aren't blank, and the last calls of the journal."""
        if not self._vtrun or not self._vtrun.is_open:
            return "closed\n" + last_calls(self.journal)
        front = int(self._ask("front"))
        lines = [f"console {front} is in front, {time.monotonic() - self._start:.1f} s after the start"]
        for number in self._states():
            shown = self.now(number)
            if number == front or shown.text.strip():
                lines += [f"console {number}", shown.framed()]
        return "\n".join([*lines, last_calls(self.journal)])

    def close(self) -> None:
        """Ends all programs, and vtrun. `journal` stays."""
        vtrun = self._vtrun
        if vtrun is None or not vtrun.is_open:
            return
        _open.discard(self)
        vtrun.close()

    def __enter__(self) -> Consoles:
        return self

    def __exit__(self, *_: object) -> None:
        self.close()

    def __del__(self) -> None:
        if getattr(self, "_vtrun", None):
            self.close()

    # How it is done.

    def _opened(self) -> Vtrun:
        """vtrun, if it wasn't closed."""
        if self._vtrun is None or not self._vtrun.is_open:
            raise ValueError("these consoles were closed")
        return self._vtrun

    def _ask(self, line: str, body: bytes | None = None, limit: float = 0.0) -> bytes:
        """The answer of vtrun."""
        __tracebackhide__ = True
        try:
            return self._opened().ask(line, body, limit)
        except Ended as fault:
            raise Failed(str(fault)) from None

    def _status(self, number: int, limit: float) -> int | None:
        """The exit status of a program; None if it hasn't ended within the limit."""
        with contextlib.suppress(Refused):
            return int(self._ask(f"wait program {number} {int(1000 * limit)}", limit=limit))
        return None

    def _states(self) -> dict[int, ConsoleState]:
        """The consoles that are allocated."""
        states = [state_of(line) for line in self._ask("consoles").decode().splitlines()]
        return {state.number: state for state in states}

    def _failure(self, why: str) -> Failed:
        """A failure, with the screens and the last calls."""
        return Failed(f"{why}\n{self.report()}")

    def _rests(self, for_key: bool) -> bool:
        """Whether every thread waits, and did so for a while. For a key two looks without a change are enough."""
        vtrun = self._opened()
        if vtrun.has_ended():
            raise Failed(f"vtrun has ended\n{vtrun.log()}")
        look = vtrun.watch.look()
        if look is None or look != self._seen:
            self._seen, self._changed = look, time.monotonic()
            return False
        if for_key and not look.naps:
            return True
        return time.monotonic() > self._changed + max(QUIET, 2 * look.limit)

    def _calm(self, seconds: float, for_key: bool = False) -> bool:
        """Waits until all programs rest. Returns whether they do."""
        __tracebackhide__ = True
        until = time.monotonic() + seconds
        while not self._rests(for_key):
            if time.monotonic() > until:
                return False
            time.sleep(PAUSE)
        return True


def name_of(console: int) -> str:
    """A console in words."""
    return f"console {console}" if console else "the console in front"


def last_calls(journal: str) -> str:
    """The last calls of a journal, for a report."""
    lines = journal.splitlines()
    return "\n".join(["the last calls", *(f"    {line}" for line in lines[-LAST_CALLS:])])


@atexit.register
def _close_all() -> None:
    """Ends all programs at the end of Python."""
    for consoles in list(_open):
        consoles.close()
