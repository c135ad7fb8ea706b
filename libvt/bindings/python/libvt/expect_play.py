"""Plays a test file: on a console that gets its bytes, or on the terminal of a program that runs."""
from __future__ import annotations

import pathlib
import tempfile

from .calls import Bell, NotDrawable, Report, Screen
from .environment import settings_of
from .expect_faults import Looked, accepted_value, attr_lines, faults_of
from .expect_files import Check, File, Step
from .expect_values import Unknown
from .screen_files import saved, write_text
from .shown import Shown
from .terminal import Failed, Terminal

# Whether text is UTF-8, which no call of the library returns: é takes one column then, and two if it isn't. The text
# begins with ESC, which ends an unfinished sequence, and hides control characters.
UTF8 = b"\x1b[3l\x1b[H\xc3\xa9"


class Playing:
    """A test file that is played. A program runs in a new folder, which is also its HOME."""

    def __init__(self, file: File, limit: float, accepts: bool) -> None:
        self.file, self.limit, self.accepts = file, limit, accepts
        self.has_failed = False
        self.changes: dict[int, str] = {}  # lines as they have to be
        self._folder = tempfile.TemporaryDirectory(prefix="expect-")
        self._variables: dict[str, str] = {}
        self._console = Screen(*file.start)
        self._program: Terminal | None = None
        self._given, self._reports, self._bells = bytearray(), bytearray(), 0
        self._small, self._copied = Screen(4, 4), 0

    def close(self) -> None:
        """Ends the program, and removes its folder."""
        if self._program:
            self._program.close()
        self._console.close()
        self._small.close()
        self._folder.cleanup()

    def step(self, step: Step) -> None:
        """Does a step."""
        value = step.value
        if step.word in ("PUSH", "FILE"):
            self._push(value)
        elif step.word == "RESIZE":
            (self._program or self._console).resize(*value)
        elif step.word == "COPY":
            (pathlib.Path(self._folder.name) / value[0]).write_bytes(value[1])
        elif step.word == "ENV":
            self._variables[value[0]] = value[1]
        elif step.word == "LIMIT":
            self.limit = value
        elif step.word == "RUN":
            environment = {**settings_of(self._folder.name), **self._variables}
            self._program = Terminal(
                value, *self._console.size, env=environment, cwd=self._folder.name, timeout=self.limit)
        elif self._program and step.word == "KEYS":
            self._program.timeout = self.limit
            self._program.type(value)
        elif self._program and step.word == "WAIT":
            self._program.wait_for(value[0], self.limit if value[1] is None else value[1])

    def judge(self, check: Check) -> list[str]:
        """What is wrong with an assertion: nothing if it holds. A program has time to make it hold, unless an assertion
        before it has failed."""
        looked = self._looked(check)
        if self._program:
            try:
                if check.kind == "exit":
                    self._program.wait_exit(self.limit)
                self._program.settle(self.limit)
                if not self.has_failed and not is_unknown(check):
                    self._program.wait_for(lambda shown: not faults_of(check, self._looked(check, shown)), self.limit)
            except Failed:
                pass
            looked = self._looked(check)
        faults = faults_of(check, looked)
        self.has_failed = self.has_failed or bool(faults)
        if faults and self.accepts and not self._accept(check, looked):
            faults.append("accept   leaves this line as it is")
        if check.kind == "output":
            (self._program.reports if self._program else self._reports).clear()
        return faults

    def _push(self, given: bytes) -> None:
        """The console gets bytes."""
        self._given += given
        for event in self._console.feed(given):
            self._bells += isinstance(event, Bell)
            self._reports += event.text if isinstance(event, Report) else b""

    def _looked(self, check: Check, shown: Shown | None = None) -> Looked:
        """What an assertion sees, on this screen or on the one of now."""
        program = self._program
        shown = shown or (program.now() if program else Shown(self._console, self._bells))
        reports = bytes(program.reports if program else self._reports)
        status = program.exit_status if program else None
        mode = self._is_on(shown, str(check.at[0])) if check.kind == "mode" else False
        return Looked(shown, reports, status, mode)

    def _is_on(self, shown: Shown, name: str) -> bool:
        """Whether a mode is on."""
        if name == "visible":
            return shown.cursor.visible
        if name == "utf8":
            with Screen(4, 4) as other:
                other.write(self._modes() + UTF8)
                return other.cursor.column == 1
        return bool(getattr(shown.modes if name in shown.modes._fields else shown.settings, name))

    def _modes(self) -> bytes:
        """A text that gives a screen of 4 by 4 cells the modes of this one. A small screen gets the same bytes, since
        modes depend neither on the size nor on the cells; its text is short, if it has one."""
        given = self._program.output if self._program else self._given
        self._small.write(bytes(given[self._copied :]))
        self._copied = len(given)
        try:
            return self._small.redraw()
        except NotDrawable:
            return bytes(given)

    def _accept(self, check: Check, looked: Looked) -> bool:
        """Keeps what an assertion has to be, so that it holds. Returns whether it was written; otherwise only a person
        can write it."""
        if check.kind == "screen" and check.wanted is not None:
            write_text(check.wanted, saved(looked.shown))
            return True
        if check.kind == "screen":
            if not all(row.startswith("|") for _, row in check.rows):
                return False
            rows = looked.shown.rows
            last = max((row for row, line in enumerate(rows) if line), default=0)
            self.changes[check.line] = "\n".join(["?screen", *(f"|{row}|" for row in rows[: last + 1])])
            self.changes.update({line: "" for line, _ in check.rows})
            return True
        if check.kind == "attr":
            self.changes[check.line] = "\n".join(attr_lines(check, looked.shown))
            return True
        value = accepted_value(check, looked)
        if value is None:
            return False
        text = check.text[: check.start] if check.start >= 0 else f"{check.text} ="
        self.changes[check.line] = f"{text} {value}"
        return True


def is_unknown(check: Check) -> bool:
    """Whether the value of an assertion is `?`."""
    return check.wanted is Unknown or check.kind == "text" and check.wanted[1] is Unknown
