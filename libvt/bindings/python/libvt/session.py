"""A program in a session and on a pseudo-terminal of its own: its input, its output, and its end."""
from __future__ import annotations

import contextlib
import os
import select
import signal
import struct
import subprocess
import termios
import time
import uuid
from fcntl import ioctl
from os import PathLike
from typing import Callable, Mapping, Sequence

from .waiting import Look, Watch

MARK = "VT_TERMINAL"
IUTF8 = 0o40000
# How long output is drawn without a look at anything else, in seconds.
LONGEST_DRAWING = 0.05
# How long a program may take to end after the hangup, and how long killed processes may take, in seconds.
GRACE, LONGEST_CLOSING = 0.5, 2.0
# The signals that Python ignores; subprocess restores them.
OF_PYTHON = (signal.SIGPIPE, signal.SIGXFSZ)
# The shell is the first process of the session, so the terminal that it opens becomes the controlling one. Then it
# becomes the command.
START = ["/bin/sh", "-c", 'exec "$@" <>"$0" >&0 2>&1']


def default_signals() -> Callable[[], None] | None:
    """What a child does before it becomes a program, so that no signal is ignored: a shell without job control starts
    background commands with SIGINT ignored, and nohup with SIGHUP. None if none of them is ignored."""
    ignored = [number for number in signal.valid_signals() if signal.getsignal(number) == signal.SIG_IGN]
    kept = [number for number in ignored if number not in OF_PYTHON]

    def restore() -> None:
        for number in kept:
            signal.signal(number, signal.SIG_DFL)

    return restore if kept else None


def is_readable(descriptor: int, seconds: float) -> bool:
    """Whether a descriptor has something to read within that time."""
    poll = select.poll()
    poll.register(descriptor, select.POLLIN)
    return bool(poll.poll(1000 * seconds))


class Session:
    """A program on a pseudo-terminal. `status` is None until it has ended and its output was read; then it is the exit
    status, or -N if signal N ended it."""

    def __init__(
        self, words: Sequence[str], rows: int, cols: int, env: Mapping[str, str], cwd: str | PathLike[str] | None
    ) -> None:
        self.status: int | None = None
        self._process: subprocess.Popen[bytes] | None = None
        self._ended = -1
        mark = uuid.uuid4().hex
        self._master, self._slave = os.openpty()
        self._is_open = True
        try:
            os.set_blocking(self._master, False)
            settings = termios.tcgetattr(self._slave)
            settings[0] |= IUTF8
            termios.tcsetattr(self._slave, termios.TCSANOW, settings)
            self.resize(rows, cols)
            self._process = subprocess.Popen(
                [*START, os.ttyname(self._slave), *words], stdin=subprocess.DEVNULL, env={**env, MARK: mark}, cwd=cwd,
                start_new_session=True, preexec_fn=default_signals())  # fmt: skip
            self.watch = Watch(f"{MARK}={mark}", self._process.pid)
            self._ended = os.pidfd_open(self._process.pid)
        except BaseException:
            self.close()
            raise

    @property
    def is_open(self) -> bool:
        """Whether `close` wasn't called yet."""
        return self._is_open

    def resize(self, rows: int, cols: int) -> None:
        """Sets the terminal's size; the program gets SIGWINCH."""
        ioctl(self._master, termios.TIOCSWINSZ, struct.pack("HHHH", rows, cols, 0, 0))

    def write(self, text: bytes) -> int:
        """Gives the program input. Returns how many bytes the terminal took: 0 if it has no room."""
        try:
            return os.write(self._master, text)
        except BlockingIOError:
            return 0

    def pump(self, draw: Callable[[bytes], None], seconds: float) -> bool:
        """Passes the output that is there, or that comes within that time, to `draw`. Returns whether there was any."""
        if not self._is_open:
            return False
        poll = select.poll()
        poll.register(self._master, select.POLLIN)
        if self.status is None:
            poll.register(self._ended, select.POLLIN)
        ready = dict(poll.poll(1000 * seconds))
        has_ended = self._ended in ready
        until, is_any = time.monotonic() + LONGEST_DRAWING, False
        while is_readable(self._master, 0):
            piece = b""
            with contextlib.suppress(BlockingIOError):
                piece = os.read(self._master, 65536)
            if piece:
                draw(piece)
                is_any = True
            if time.monotonic() > until:
                return is_any
        # What the program wrote before its end was drawn.
        if has_ended and self._process is not None:
            self.status = self._process.poll()
            self.watch.forget_leader()
        return is_any

    def has_input(self) -> bool:
        """Whether there is input that the program hasn't read."""
        is_readable(self._slave, 0)  # makes the kernel hand over what was written
        return bytes(4) != ioctl(self._slave, termios.FIONREAD, bytes(4))

    def look(self) -> Look | None:
        """How the program's threads sleep."""
        return self.watch.look()

    def kill(self, number: int) -> None:
        """Sends the program a signal, if it hasn't ended."""
        if self.status is None and self._process is not None:
            os.kill(self._process.pid, number)

    def close(self) -> None:
        """Hangs up, and ends every process that the program left."""
        if not self._is_open:
            return
        self._is_open = False
        os.close(self._slave)
        os.close(self._master)
        if self._process is None:
            return
        if self._ended >= 0:
            is_readable(self._ended, GRACE)
        until = time.monotonic() + LONGEST_CLOSING
        # Until the first process is reaped no other session has its number.
        while self._kill_all() and time.monotonic() < until:
            time.sleep(0.005)
        with contextlib.suppress(subprocess.TimeoutExpired):
            self._process.wait(max(0.01, until - time.monotonic()))
        if self._ended >= 0:
            os.close(self._ended)

    def _kill_all(self) -> bool:
        """Kills the processes that are left. Returns whether there were any."""
        left = self.watch.processes(anew=True)
        for process in left:
            with contextlib.suppress(OSError):
                os.kill(int(process), signal.SIGKILL)
        return bool(left)
