"""libvt/examples/term.c on pseudo-terminals: what it draws, what it hands on, and how it leaves the terminal."""
import fcntl
import os
import pty
import select
import signal
import struct
import termios
import time

from programs import Missing, find

from .bench import EXAMPLES, SANITIZERS, TERM, TOP

LIMIT = 120  # seconds, far beyond what any of them takes
ROWS, COLS = 24, 80
# What it writes last: the wrap, the pen, the cursor and the screen as they were.
END = b"\x1b[?7h\x1b[0m\x1b[?25h\x1b[?1049l"
COLOURS = r"printf '\033[31mred\033[0m \033[1;44mbold\033[0m\r\n\303\251\344\270\255 \033[7mturned\033[0m"
COLOURS += r"\033[5;9H\033[32m\033[42mx y\033[0m'"
PALETTE = r"printf '\033]P1102030\033[31mown\033[0m\033[?5h\033[3;3H'"


class Terminal:
    """A program on a pseudo-terminal of its own."""

    def __init__(self, words, rows=ROWS, cols=COLS, name="xterm"):
        size = struct.pack("HHHH", rows, cols, 0, 0)
        self.child, self.master = pty.fork()
        if self.child == 0:
            fcntl.ioctl(0, termios.TIOCSWINSZ, size)
            os.environ.update(TERM=name, SHELL="/bin/sh")
            try:
                os.execv(words[0], [str(word) for word in words])
            finally:
                os._exit(99)
        self.output, self.status = b"", None

    def read(self, seconds):
        """What comes within the seconds; False at the end."""
        if not select.select([self.master], [], [], seconds)[0]:
            return True
        try:
            piece = os.read(self.master, 1 << 16)
        except OSError:
            piece = b""
        self.output += piece
        return bool(piece)

    def wait_for(self, text):
        """Reads until the text came; whether it did."""
        end = time.monotonic() + LIMIT
        while text not in self.output and time.monotonic() < end:
            if not self.read(0.1):
                break
        return text in self.output

    def type(self, keys):
        os.write(self.master, keys)

    def resize(self, rows, cols):
        fcntl.ioctl(self.master, termios.TIOCSWINSZ, struct.pack("HHHH", rows, cols, 0, 0))

    def end(self):
        """Reads to the end; the exit status, or a text if it doesn't end."""
        end = time.monotonic() + LIMIT
        while self.read(0.1):
            if time.monotonic() > end:
                os.kill(self.child, signal.SIGKILL)
                os.waitpid(self.child, 0)
                return "none"
        self.status = os.waitstatus_to_exitcode(os.waitpid(self.child, 0)[1])
        os.close(self.master)
        return self.status


def cells(vt, text, rows=ROWS, cols=COLS):
    """The cells of a screen on which the text was drawn, by the library itself."""
    with vt.Screen(rows, cols) as screen:
        screen.write(text)
        return [screen.cells(row) for row in range(rows)], screen.cursor


def check_drawing(bench, vt, program):
    """The outer terminal shows the cells that the command's screen has."""
    for number, (command, is_reversed) in enumerate([(COLOURS, False), (PALETTE, True)]):
        record, picture = bench.folder / "record", bench.folder / "picture.svg"
        words = [program, "--record", record, "--picture", picture, "sh", "-c", command + "; sleep 0.3; exit 7"]
        terminal = Terminal(words)
        bench.holds(terminal.end() == 7, f"term.c ends with the command's status: {terminal.status}")
        bench.holds(terminal.output.endswith(END), "term.c leaves the terminal as it was")
        written = record.read_bytes()
        inner, cursor = cells(vt, written)
        shown, outer_cursor = cells(vt, terminal.output[:-len(END)])
        if is_reversed:
            inner = [[cell._replace(attribute=turned(cell.attribute)) for cell in row] for row in inner]
            is_own = b"8;2;16;32;48" in terminal.output
            bench.holds(is_own, "a colour of the palette is drawn by its red, green and blue")
            codes = [[[cell.code for cell in row] for row in rows] for rows in (inner, shown)]
            is_same = codes[0] == codes[1]
        else:
            is_same = inner == shown
        bench.holds(is_same, f"screen {number} is drawn in the terminal as it is")
        bench.holds(cursor == outer_cursor, f"the cursor of screen {number}: {cursor}, {outer_cursor}")
        try:
            drawn = bench.run([find("picture"), ROWS, COLS], written).stdout
            bench.holds(picture.read_bytes() == drawn, f"the picture of screen {number} is that of picture")
        except Missing:
            bench.holds(picture.read_bytes().startswith(b"<svg "), "the picture is written")


def check_picture(bench, program):
    """The picture of a recording is the stored one, which crates/picture drew."""
    picture, recording = bench.folder / "files.svg", TOP / "examples/pictures/files"
    terminal = Terminal([program, "--picture", picture, "sh", "-c", f"stty -opost; cat {recording}"], 25, 80)
    bench.holds(terminal.end() == 0, "term.c draws a recording")
    stored = (TOP / "docs/files.svg").read_bytes()
    bench.holds(picture.read_bytes() == stored, "the picture of the recording is docs/files.svg")


def turned(attribute):
    """The attribute byte with its colours exchanged."""
    return attribute & 0x88 | (attribute & 7) << 4 | attribute >> 4 & 7


def check_hands(bench, program):
    """Reports go back, keys go on, and the command's terminal has the size of the outer one."""
    raw = "stty raw -echo; printf ready; dd bs=1 count=%d 2>/dev/null | od -An -tx1"
    ask = "stty raw -echo; printf '\\033[6n'; dd bs=1 count=6 2>/dev/null | od -An -tx1"
    terminal = Terminal([program, "sh", "-c", ask])
    bench.holds(terminal.wait_for(b"1b 5b 31 3b 31 52"), "a report of the cursor is written back")
    bench.holds(terminal.end() == 0, "the command that asked ends")
    keys = [(b"\x1bOP", "1b 5b 5b 41", 4), (b"\x1b[A", "1b 5b 41", 3), (b"a\x03", "61 03", 2)]
    keys += [(b"\x1b[21~", "1b 5b 32 31 7e", 5), (b"\x1b[H", "1b 5b 31 7e", 4)]
    # (kcbt, kf13 and kf17 of terminfo; Right with Control is Right on a console; a console has no report of focus)
    keys += [(b"\x1b[Z", "1b 09", 2), (b"\x1b[1;2P", "1b 5b 32 35 7e", 5), (b"\x1b[15;2~", "1b 5b 33 31 7e", 5)]
    keys += [(b"\x1b[1;5C", "1b 5b 43", 3), (b"\x1b[I", "1b 5b 49", 3)]
    for typed, wanted, count in keys:
        terminal = Terminal([program, "sh", "-c", raw % count])
        if bench.holds(terminal.wait_for(b"ready"), "the command waits for a key"):
            terminal.type(typed)
            bench.holds(terminal.wait_for(wanted.encode()), f"the key {typed} goes to the command as {wanted}")
        terminal.end()
    terminal = Terminal([program, "sh", "-c", "stty -echo; printf '\\033[?1h'; " + raw % 3])
    if bench.holds(terminal.wait_for(b"ready"), "the command sets DECCKM"):
        terminal.type(b"\x1b[A")
        bench.holds(terminal.wait_for(b"1b 4f 41"), "a cursor key with DECCKM goes as ESC O")
    terminal.end()
    terminal = Terminal([program, "sh", "-c", "stty size; echo TERM $TERM; read x; stty size; sleep 0.2"])
    bench.holds(terminal.wait_for(b"TERM linux"), "the command has TERM=linux")
    bench.holds(b"24 80" in terminal.output, "the command's terminal has the size of the outer one")
    terminal.resize(30, 90)
    time.sleep(0.3)
    terminal.type(b"\r")
    bench.holds(terminal.wait_for(b"30 90"), "a new size goes to the command")
    bench.holds(terminal.end() == 0, "the command that was resized ends")


def shown_rows(vt, terminal):
    """The rows of the outer terminal."""
    with vt.Screen(ROWS, COLS) as screen:
        screen.write(terminal.output)
        return [row.rstrip() for row in screen.rows()]


def check_consoles(bench, vt, program):
    """Several consoles: each has its program and its screen, keys go to the one in front, and the last row shows them."""
    terminal = Terminal([program, "--status", "sh", "-c", "echo fir''st; read x; echo $x got; read y; exit 5"])
    bench.holds(terminal.wait_for(b"first"), "the command runs on console 1")
    bench.holds(shown_rows(vt, terminal)[-1] == "[1]", f"the status shows one console: {shown_rows(vt, terminal)[-1]}")
    terminal.type(b"\x1b[1;3Q")
    terminal.type(b"stty size; echo sec''ond\r")
    bench.holds(terminal.wait_for(b"second"), "Alt+F2 starts a shell on console 2")
    bench.holds(b"23 80" in terminal.output, "the status has a row of its own")
    rows = shown_rows(vt, terminal)
    bench.holds(rows[-1] == " 1 [2]" and "first" not in rows, f"console 2 is in front: {rows}")
    terminal.type(b"\x1b\x5b1;3Pword\r")
    bench.holds(terminal.wait_for(b"word got"), "after Alt+F1 keys go to console 1")
    rows = shown_rows(vt, terminal)
    bench.holds(rows[0] == "first" and "second" not in rows, f"console 1 is drawn as it is: {rows}")
    before = len(terminal.output)
    terminal.type(b"\x1b[1;3C")
    terminal.type(b"exit\r")
    while terminal.read(1.0) and b"[1]" not in terminal.output[before:]:
        pass
    bench.holds(shown_rows(vt, terminal)[-1] == "[1]", "console 2 is closed with its shell")
    terminal.type(b"\r")
    bench.holds(terminal.end() == 5, f"the terminal ends with the status of the command: {terminal.status}")


def check_scrollback(bench, vt, program):
    """Shift+PageUp shows the rows that fell out at the top, half a screen at a time; Shift+PageDown or another key
    shows the screen again."""
    count = "i=0; while [ $i -lt %d ]; do i=$((i+1)); echo row $i; done; "
    terminal = Terminal([program, "sh", "-c", count % 60 + "read x; " + count % 3 + "echo la''st; read x"])
    bench.holds(terminal.wait_for(b"row 60"), "the command writes 60 rows")
    # 37 of them fell out: 24 rows of the screen are the others and the cursor's.
    steps = [(b"\x1b[5;2~", "row 26"), (b"\x1b[5;2~", "row 14"), (b"\x1b[5;2~", "row 2"), (b"\x1b[5;2~", "row 1")]
    steps += [(b"\x1b[6;2~", "row 13"), (b"\x1b[5;2~", "row 1"), (b"z", "row 38"), (b"\x1b[6;2~", "row 38")]
    for typed, wanted in steps:
        terminal.type(typed)
        end = time.monotonic() + LIMIT
        while terminal.read(0.1) and shown_rows(vt, terminal)[0] != wanted and time.monotonic() < end:
            pass
        rows = shown_rows(vt, terminal)
        bench.holds(rows[0] == wanted, f"after {typed} the first row is {wanted}: {rows[0]}")
    terminal.type(b"\x1b[5;2~")
    wanted = [f"row {n}" for n in range(26, 38)]
    end = time.monotonic() + LIMIT
    while shown_rows(vt, terminal)[:12] != wanted and time.monotonic() < end and terminal.read(0.1):
        pass
    rows = shown_rows(vt, terminal)
    bench.holds(rows[:12] == wanted, f"above the screen are the rows that fell out: {rows}")
    terminal.type(b"\r")
    bench.holds(terminal.wait_for(b"last"), "a key shows the screen again")
    terminal.type(b"\r")
    bench.holds(terminal.end() == 0, f"the terminal ends with the command: {terminal.status}")


def check_asked_consoles(bench, vt, program):
    """A text may ask for a console (ESC [ 12 ; N ]); the terminal ends with its last console."""
    terminal = Terminal([program, "--status", "sh", "-c", "printf '\\033[12;3]'; exit 4"])
    bench.holds(terminal.wait_for(b"[3]"), "the status shows the console")
    terminal.type(b"echo thi''rd\r")
    bench.holds(terminal.wait_for(b"third"), "a text brings console 3 to the front")
    terminal.type(b"exit 9\r")
    bench.holds(terminal.end() == 4, f"the status is that of the command: {terminal.status}")
    terminal = Terminal([program, "sh", "-c", "echo ready; sleep 60"])
    if bench.holds(terminal.wait_for(b"ready"), "the command runs"):
        terminal.type(b"\x1b[1;3Q")
        terminal.type(b"echo sec''ond\r")
        terminal.wait_for(b"second")
        os.kill(terminal.child, signal.SIGTERM)
    bench.holds(terminal.end() == 128 + signal.SIGTERM, "a signal ends all consoles")


def check_ends(bench, program):
    """Each way to end: the status, and the terminal as it was."""
    for number in (signal.SIGTERM, signal.SIGHUP, signal.SIGINT):
        terminal = Terminal([program, "sh", "-c", "stty -echo; echo ready; sleep 60"])
        if bench.holds(terminal.wait_for(b"ready"), "the command runs"):
            os.kill(terminal.child, number)
        bench.holds(terminal.end() == 128 + number and terminal.output.endswith(END), f"{number.name} ends it well")
    shell = Terminal(["/bin/sh", "-c", f"stty -a > {bench.folder}/a; {program} true; stty -a > {bench.folder}/b"])
    bench.holds(shell.end() == 0, "a shell runs term.c")
    same = (bench.folder / "a").read_bytes() == (bench.folder / "b").read_bytes()
    bench.holds(same, "the terminal's modes are those of before")
    for words, status in (
        ([program, "/nowhere/none"], 127), ([program, "/dev/null"], 126), ([program, "--nothing"], 1),
        ([program, "--record"], 1), ([program, "--record", "/nowhere/none", "true"], 2),
        ([program, "--picture", "/dev/full", "true"], 2), ([program, "--record", "/dev/full", "echo", "x"], 2),
        ([program, "--", "sh", "-c", "kill -9 $$"], 137),
    ):
        terminal = Terminal(words)
        bench.holds(terminal.end() == status, f"{words[1:]} ends with {status}, and not {terminal.status}")
    bench.holds(bench.run([program, "true"]).returncode == 1, "without a terminal the status is 1")
    terminal = Terminal([program])
    terminal.wait_for(b"\x1b[2J")
    terminal.type(b"exit 3\r")
    bench.holds(terminal.end() == 3, "without a command it runs the shell")
    flood = Terminal([program, "sh", "-c", "seq 100000; sleep 0.2"])
    is_short = flood.end() == 0 and len(flood.output) < 4_000_000
    bench.holds(is_short, f"much output ends: {len(flood.output)} bytes are drawn")


def check_terminal(bench, vt):
    """libvt/examples/term.c."""
    program = bench.compiled("term.san", [EXAMPLES / name for name in TERM], SANITIZERS)
    if program:
        check_drawing(bench, vt, program)
        check_picture(bench, program)
        check_hands(bench, program)
        check_consoles(bench, vt, program)
        check_scrollback(bench, vt, program)
        check_asked_consoles(bench, vt, program)
        check_ends(bench, program)
