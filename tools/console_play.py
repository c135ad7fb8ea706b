"""Plays calls on a console as a session of `vt play`, and gives what the console answered.

A session has one console, number 1. A dump (vcs(4)) shows its screen, and a read takes its reports. A session holds
10,240 calls a process, so the calls are shared out to as many processes as they need, one after another.
"""
import subprocess

from tool_files import Stop, reason

SECONDS = 120
CALLS = 10_000
# The words of the two dumps and of a read (docs/reference/journal.md): the calls whose answers are kept.
ATTRIBUTES, CODES, REPORTS = "dump 1 1", "dump 2 1", "read 0 4096"
KEPT = (ATTRIBUTES, CODES, REPORTS)
HALF = 0x110000


class Played:
    """What a session answered: all that is printed, and its dumps and reads in order."""

    def __init__(self, out, answers):
        self.out, self.answers = out, answers


class Console:
    """The program `vt`, to play sessions with."""

    def __init__(self, program):
        self.program = program

    def run(self, given):
        """What `vt play` prints."""
        words = [str(self.program), "play"]
        try:
            ran = subprocess.run(words, input=given, capture_output=True, timeout=SECONDS, check=False)
        except OSError as fault:
            raise Stop(3, f"{self.program}: {reason(fault)}") from None
        except subprocess.TimeoutExpired:
            raise Stop(3, f"{' '.join(words)} didn't end within {SECONDS} s") from None
        if ran.returncode:
            line = ran.stderr.decode("utf-8", "replace").strip()[:200]
            raise Stop(3, f"{' '.join(words)} ended with status {ran.returncode}: {line}")
        return ran.stdout

    def play(self, rows, cols, calls):
        """Plays the calls on a console of this size."""
        out, answers = self.run(session(rows, cols, calls)), []
        for line in out.split(b"\n"):
            call, _, answer = line.partition(b" = ")
            words = call.split(b" ", 2)
            if len(words) > 2 and words[2].decode("ascii", "replace") in KEPT:
                answers.append(answer)
        if len(answers) != sum(call in KEPT for call in calls):
            raise Stop(3, f"{self.program} play printed no whole play")
        return Played(out, answers)


def session(rows, cols, calls):
    """The text of a session."""
    turns, scripts = [], []
    for call in calls:
        if not scripts or len(scripts[-1]) > CALLS:
            scripts.append(["open 1"])
            turns.append(f"{len(scripts)},{len(scripts)},")
        scripts[-1].append(call)
        turns.append(f"{len(scripts)},{len(scripts)},")
    made = [f"rows = {rows}\ncols = {cols}\nevents = 1000000\nbytes = 1073741824\nturns = [{''.join(turns)}]\n"]
    for script in scripts:
        lines = ",".join(f'"{call}"' for call in script)
        made.append(f"[[process]]\nhome = 1\nprivileged = true\nscript = [{lines}]\n")
    return "".join(made).encode()


def bytes_of(answer):
    """The bytes of a dump, or of a read; a read of an empty queue has none."""
    return bytes.fromhex(answer[6:].decode("ascii")) if answer.startswith(b"bytes ") and answer != b"bytes -" else b""


def shown_character(code):
    """A cell as `vt screen` prints it: `?` if the code can't be shown, nothing for a right half."""
    if code == HALF:
        return ""
    is_shown = 0x20 <= code <= 0x7E or 0xA0 <= code <= 0xD7FF or 0xE000 <= code <= 0x10FFFF
    return chr(code) if is_shown else "?"
