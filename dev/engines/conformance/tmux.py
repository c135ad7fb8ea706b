"""The engine tmux: a pane of the case's size, whose rows and cursor it captures.

The pane runs sleep(1), and the case is written to its terminal. A client in control mode is told each byte that the
server has read from the pane, so that a case is captured when all of it has been read. Colours, reports and bells
aren't asked for.
"""
import os
import re
import select
import shutil
import subprocess
import tempfile
import termios
import time
import tty

from .adapters import SECONDS, CaseFault, write_all
from .forms import Fault

ESCAPED = re.compile(rb"\\([0-7]{3})")
OPTIONS = ["status off", "window-size manual", "history-limit 0", "automatic-rename off"]
# How many seconds a pane, and with it the server, lives if this program is killed.
LIFE = 60
COLOURS = re.compile("\x1b\\[[0-9;:]*m")
# The VT100 graphics from ` to ~, as tmux shows them on a UTF-8 terminal.
GRAPHICS = dict(zip(range(0x60, 0x7F), "◆▒␉␌␍␊°±␤␋┘┐┌└┼⎺⎻─⎼⎽├┤┴┬│≤≥π≠£·", strict=True))


def row_of(line):
    """The characters of a captured row, which holds colours, and SO and SI around VT100 graphics."""
    parts = re.split("([\x0e\x0f])", COLOURS.sub("", line.decode("utf-8", "replace")))
    is_drawn, row = False, ""
    for part in parts:
        if part in ("\x0e", "\x0f"):
            is_drawn = part == "\x0e"
        else:
            row += part.translate(GRAPHICS) if is_drawn else part
    return row.rstrip(" ")


class Tmux:
    """A server of its own, with one window of one pane."""

    name = "tmux"

    def __init__(self, seconds=SECONDS):
        self.seconds = seconds
        if not shutil.which("tmux"):
            raise Fault("tmux: the program tmux was wanted (Debian's package tmux)")
        self.process, self.left, self.size, self.folder = None, b"", None, None

    def start(self):
        """Starts the server, whose socket and cases are in a folder of their own."""
        self.folder = tempfile.TemporaryDirectory()
        socket = f"{self.folder.name}/socket"
        words = ["tmux", "-S", socket, "-f", os.devnull, "-u", "-C", "new-session", f"sleep {LIFE}"]
        kept = {name: value for name, value in os.environ.items() if name not in ("TMUX", "TMUX_PANE")}
        pipes = {"stdin": subprocess.PIPE, "stdout": subprocess.PIPE, "stderr": subprocess.DEVNULL}
        self.process = subprocess.Popen(words, env={**kept, "LC_ALL": "C.UTF-8"}, bufsize=0, **pipes)
        self.left, self.size = b"", None
        for option in OPTIONS:
            self.command(f"set-option -g {option}")

    def stop(self):
        """Ends the server and removes its folder."""
        if not self.process:
            return
        try:
            self.process.stdin.write(b"kill-server\n")
            self.process.stdin.close()
            self.process.wait(self.seconds)
        except (OSError, subprocess.TimeoutExpired):
            self.process.kill()
            self.process.wait()
        self.process.stdout.close()
        self.process = None
        self.folder.cleanup()

    def line(self, until):
        """The next line that the client prints."""
        while b"\n" not in self.left:
            readable = select.select([self.process.stdout], [], [], max(until - time.monotonic(), 0))[0]
            read = os.read(self.process.stdout.fileno(), 65536) if readable else b""
            if not read:
                self.stop()
                raise CaseFault("died: its client ended" if readable else f"hangs: no answer within {self.seconds:g} s")
            self.left += read
        found, self.left = self.left.split(b"\n", 1)
        return found

    def command(self, words):
        """The lines that a command prints."""
        until, printed = time.monotonic() + self.seconds, None
        try:
            self.process.stdin.write(words.encode() + b"\n")
        except OSError:
            self.stop()
            raise CaseFault("died: its client ended") from None
        while True:
            line = self.line(until)
            if printed is None and re.fullmatch(rb"%begin \d+ \d+ 1", line):
                printed = []
            elif printed is not None and re.match(rb"%(end|error) \d+ \d+ 1$", line):
                if line.startswith(b"%error"):
                    raise CaseFault(f"refuses: {words}: {b' '.join(printed)!r}")
                return printed
            elif printed is not None:
                printed.append(line)

    def read_by_pane(self, count):
        """Waits until the server has read so many bytes from the pane."""
        until = time.monotonic() + self.seconds
        while count > 0:
            line = self.line(until)
            if line.startswith(b"%output "):
                data = line.split(b" ", 2)[2]
                count -= len(ESCAPED.sub(b".", data))

    def write(self, path, case):
        """Writes the case to the pane's terminal, in raw mode."""
        try:
            terminal = os.open(path, os.O_RDWR | os.O_NOCTTY)
            try:
                tty.setraw(terminal)
                for piece in case.pieces():
                    write_all(terminal, piece)
            finally:
                os.close(terminal)
        except (OSError, termios.error) as fault:
            raise CaseFault(f"refuses: {fault}") from None

    def ask(self, case):
        """What stands after one case: rows and cursor."""
        if not self.process:
            self.start()
        if self.size != (case.rows, case.columns):
            self.command(f"resize-window -x {case.columns} -y {case.rows}")
            self.size = (case.rows, case.columns)
        self.command(f"respawn-pane -k sleep {LIFE}")
        self.write(self.command("display-message -p '#{pane_tty}'")[0], case)
        self.read_by_pane(len(case.data))
        place = self.command("display-message -p '#{cursor_y} #{cursor_x}'")
        row, column = (int(number) for number in place[0].split())
        lines, drawn = self.command("capture-pane -p -e"), b""
        text = []
        for line in lines:
            text.append(row_of(drawn + line))  # graphics that a row ends with go on in the next one
            drawn = b"\x0e" if (drawn + line).rfind(b"\x0e") > (drawn + line).rfind(b"\x0f") else b""
        text += [""] * (case.rows - len(text))
        return {"text": text, "cursor": [row, min(column, case.columns - 1)]}

    def answers(self, cases):
        """The answer or the `CaseFault` of each case, in their order."""
        try:
            for case in cases:
                try:
                    yield self.ask(case)
                except CaseFault as fault:
                    yield fault
        finally:
            self.stop()
