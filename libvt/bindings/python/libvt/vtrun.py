"""vtrun, which runs programs on the consoles of a machine: where it is, how it is started, and its control socket.

docs/reference/vtrun.md has the requests of the socket. A request is a line, with bytes behind it if it ends with their
number; its answer is `ok` or `no` with a number, and that many bytes.
"""
from __future__ import annotations

import contextlib
import io
import os
import pathlib
import shutil
import signal
import socket
import subprocess
import sys
import tempfile
import time
import uuid
from os import PathLike
from typing import Mapping, Sequence

from .session import LONGEST_CLOSING, MARK, default_signals
from .waiting import Watch

# The command of vtrun: it lets console 1 go, makes a folder, and ends with this process. So vtrun does, too. Unless it
# gets a byte first, this process was killed, and it removes the folder of vtrun.
KEEPER = """
import fcntl, os, signal, sys, termios
signal.signal(signal.SIGHUP, signal.SIG_IGN)
fcntl.ioctl(os.open("/dev/tty", os.O_RDWR), termios.TIOCNOTTY)
os.mkdir(sys.argv[1])
if not os.read(0, 1):
    import shutil
    shutil.rmtree(os.path.dirname(sys.argv[1]), ignore_errors=True)
"""
# The status of vtrun if an option is wrong.
WRONG_WORD = 2
# How much longer than its own limit an answer may take, how long vtrun may take to end on a machine that is very busy,
# and the pause between two looks. All are seconds.
LATEST, LONGEST_END, PAUSE = 5.0, 30.0, 0.005


class Unavailable(OSError):
    """vtrun isn't installed, or can't run here. The text has the reason."""


class Refused(ValueError):
    """vtrun refuses a request. The text has its reason."""


class Ended(Exception):
    """vtrun has ended."""


def path_of_vtrun() -> str:
    """The path of vtrun: what VTRUN names, out/bin/vtrun of the clone that has this package, or vtrun in PATH."""
    clones = (str(folder / "out/bin/vtrun") for folder in pathlib.Path(__file__).resolve().parents)
    for place in (os.environ.get("VTRUN"), *clones, shutil.which("vtrun")):
        if place and shutil.which(place):
            return place
    raise Unavailable("vtrun isn't installed")


class Vtrun:
    """A vtrun that runs, and a connection to it. `folder` is removed at the end; then `session` has the session of the
    journal."""

    def __init__(
        self, options: Sequence[str], env: Mapping[str, str], cwd: str | PathLike[str] | None, limit: float
    ) -> None:
        self.folder = pathlib.Path(tempfile.mkdtemp(prefix="vtrun-"))
        self.is_open, self._journal, self.session = True, "", ""
        self._socket = socket.socket(socket.AF_UNIX, socket.SOCK_STREAM)
        self._stream: io.BufferedRWPair | None = None
        self._process: subprocess.Popen[bytes] | None = None
        mark = uuid.uuid4().hex
        try:
            path, ready, journal = (os.fspath(self.folder / name) for name in ("control", "ready", "journal"))
            words = [path_of_vtrun(), "--socket", path, "-j", journal, *options]
            words += ["--", sys.executable, "-S", "-E", "-c", KEEPER, ready]
            with open(self.folder / "log", "wb") as log:
                self._process = subprocess.Popen(
                    words, stdin=subprocess.PIPE, stdout=log, stderr=log, cwd=cwd, env={**env, MARK: mark},
                    start_new_session=True, preexec_fn=default_signals())  # fmt: skip
            self.watch = Watch(f"{MARK}={mark}", self._process.pid)
            self._connect(path, ready, limit)
        except BaseException:
            self.close()
            raise

    def _connect(self, path: str, ready: str, limit: float) -> None:
        """Connects to the socket as soon as the command of vtrun is ready."""
        until = time.monotonic() + limit
        while not os.path.exists(ready):
            if self.has_ended():
                is_word = self._process is not None and self._process.returncode == WRONG_WORD
                raise (ValueError if is_word else Unavailable)(self.log() or "vtrun ended at once")
            if time.monotonic() > until:
                raise Unavailable(f"vtrun didn't start within {limit:g} s")
            time.sleep(PAUSE)
        self._socket.connect(path)
        self._stream = self._socket.makefile("rwb")
        version = self.ask("hello", limit=limit)
        if version != b"vtrun 1\n":
            raise Unavailable(f"vtrun has another protocol: {version.decode('utf-8', 'replace').strip()}")

    def log(self) -> str:
        """What vtrun and its programs wrote to standard output and error."""
        with contextlib.suppress(OSError):
            return (self.folder / "log").read_text("utf-8", "replace").strip()
        return ""

    def has_ended(self) -> bool:
        """Whether vtrun has ended."""
        return self._process is None or self._process.poll() is not None

    def journal(self) -> str:
        """The journal so far; after the end the whole journal."""
        if self.is_open:
            with contextlib.suppress(Ended, ValueError):
                self.ask("journal")
            self._read_journal()
        return self._journal

    def _read_journal(self) -> None:
        """Reads the file of the journal, if it is there."""
        with contextlib.suppress(OSError):
            self._journal = (self.folder / "journal").read_text("utf-8", "replace")

    def ask(self, line: str, body: bytes | None = None, limit: float = 0.0) -> bytes:
        """The answer to a request, which may take this many seconds. With `body`, its length ends the line."""
        if not self.is_open or self._stream is None:
            raise ValueError("these consoles were closed")
        self._socket.settimeout(limit + LATEST)
        asked = line if body is None else f"{line} {len(body)}"
        try:
            self._stream.write(asked.encode() + b"\n" + (body or b""))
            self._stream.flush()
            word, _, length = self._stream.readline().strip().partition(b" ")
            answer = self._stream.read(int(length)) if length.isdigit() else b""
        except OSError as fault:
            raise Ended(f"vtrun doesn't answer: {fault}") from None
        if word == b"no":
            raise Refused(answer.decode("utf-8", "replace"))
        if word != b"ok":
            raise Ended(self.log() or "vtrun has ended")
        return answer

    def close(self) -> None:
        """Ends vtrun and all programs."""
        if not self.is_open:
            return
        with contextlib.suppress(Ended, Refused, ValueError):
            self.journal()
            self.ask("end")
        if self._stream:
            with contextlib.suppress(OSError):
                self._stream.close()
        self._socket.close()
        self._stream = None
        if self._process:
            self._end(self._process)
        self._read_journal()
        with contextlib.suppress(OSError):
            self.session = (self.folder / "journal.toml").read_text("utf-8", "replace")
        self.is_open = False
        shutil.rmtree(self.folder, ignore_errors=True)

    def _end(self, process: subprocess.Popen[bytes]) -> None:
        """Waits for the end of vtrun, and kills what is left after a while."""
        if process.stdin:
            with contextlib.suppress(OSError):
                process.stdin.write(b".")
                process.stdin.close()
        with contextlib.suppress(subprocess.TimeoutExpired):
            process.wait(LONGEST_END)
        until = time.monotonic() + LONGEST_CLOSING
        while self._kill_all() and time.monotonic() < until:
            time.sleep(PAUSE)
        with contextlib.suppress(subprocess.TimeoutExpired):
            process.wait(LONGEST_CLOSING)

    def _kill_all(self) -> bool:
        """Kills the processes that are left. Returns whether there were any."""
        left = self.watch.processes(anew=True)
        for process in left:
            with contextlib.suppress(OSError):
                os.kill(int(process), signal.SIGKILL)
        return bool(left)
