"""A program that runs on a console."""
from __future__ import annotations

import os
import signal
from typing import TYPE_CHECKING

from .waiting import Watch, fields_of

if TYPE_CHECKING:
    from .consoles import Consoles


class Program:
    """A program that Consoles.run started."""

    def __init__(self, consoles: Consoles, number: int, command: str, mark: str) -> None:
        self.command = command
        self._consoles, self._number, self._watch = consoles, number, Watch(mark, None)

    @property
    def exit_status(self) -> int | None:
        """The exit status, 128 + N if signal N ended the program, and None if it runs."""
        return self._consoles._status(self._number, 0.0)

    def wait_exit(self, timeout: float | None = None) -> int:
        """Waits until the program has ended. Returns its exit status, or 128 + N if signal N ended it."""
        __tracebackhide__ = True
        limit = self._consoles.timeout if timeout is None else timeout
        status = self._consoles._status(self._number, limit)
        if status is None:
            raise self._consoles._failure(f"{self.command} didn't end within {limit:g} s")
        return status

    @property
    def pid(self) -> int:
        """The process id of the program. A ProcessLookupError says that it has ended."""
        for process in self._watch.processes(anew=True):
            if fields_of(process)[3:4] == [process.encode()]:
                return int(process)
        raise ProcessLookupError(f"{self.command} has ended")

    def kill(self, number: int = signal.SIGTERM) -> None:
        """Sends the program a signal."""
        os.kill(self.pid, number)
