"""Engines that are programs: cases go in as lines of JSON, what stands comes out as lines of JSON.

A line in has `case`, a number, `rows`, `columns`, and `pieces`, the text as it is written. A line out has the same
`case` and those of `text`, `cursor`, `attributes` or `pens`, `reports` and `bells` that the engine knows; or `fault`, a
text, if the engine failed. A case that isn't answered within the limit of seconds, or not by such a line, is a fault of
that case: the program is started again for the next.
"""
import json
import os
import select
import shlex
import signal
import subprocess
import time

from .forms import Fault, PARTS, fault_of_part, is_number
from .pens import attributes_of

SECONDS = 5
LONGEST_ANSWER = 4_000_000
HANGS_IN_A_ROW = 10


class CaseFault(Exception):
    """Why an engine has no answer to one case."""


def answer_of(line, number, case):
    """The parts that a line answers; a `CaseFault` where it isn't an answer to this case."""
    try:
        made = json.loads(line)
    except (ValueError, RecursionError):
        raise CaseFault(f"nonsense: a line of JSON was wanted, and there is {line[:60]!r}") from None
    if not isinstance(made, dict) or made.get("case") != number or not is_number(made["case"], 0, 2**53):
        raise CaseFault(f'nonsense: an object with "case": {number} was wanted, and there is {line[:60]!r}')
    if isinstance(made.get("fault"), str):
        raise CaseFault("fault: " + "".join(c if c.isprintable() else "?" for c in made["fault"][:200]))
    answer = {part: made[part] for part in PARTS if made.get(part) is not None}
    try:
        if made.get("pens") is not None:
            answer["attributes"] = attributes_of(made["pens"], case.rows, case.columns)
    except Fault as fault:
        raise CaseFault(f"nonsense: {fault}") from None
    for part, value in answer.items():
        why = fault_of_part(part, value, case.rows, case.columns)
        if why:
            raise CaseFault(f"nonsense: {why}")
    if not answer:
        raise CaseFault(f"nonsense: none of {', '.join(PARTS)} is answered")
    return {**answer, "text": [row.rstrip(" ") for row in answer["text"]]} if "text" in answer else answer


def write_all(terminal, data):
    """Writes all of the bytes to a terminal."""
    while data:
        data = data[os.write(terminal, data) :]


class Program:
    """An engine that is a program with the protocol of lines."""

    def __init__(self, name, words, seconds=SECONDS):
        self.name, self.words, self.seconds = name, words, seconds
        self.process, self.left, self.asked = None, b"", 0

    @classmethod
    def of_command(cls, command, seconds=SECONDS):
        """The engine of a command line."""
        try:
            words = shlex.split(command)
        except ValueError as fault:
            raise Fault(f"--command {command!r}: the words of a command were wanted: {fault}") from None
        if not words:
            raise Fault("--command: a program was wanted, and there is no word")
        return cls(os.path.basename(words[0]) if len(words) == 1 else command, words, seconds)

    def start(self):
        """Starts the program, in a group of its own."""
        pipes = {"stdin": subprocess.PIPE, "stdout": subprocess.PIPE}
        try:
            self.process = subprocess.Popen(self.words, start_new_session=True, bufsize=0, **pipes)
        except OSError as fault:
            raise Fault(f"{self.name}: a program was wanted as {self.words[0]}: {fault.strerror}") from None
        os.set_blocking(self.process.stdin.fileno(), False)
        self.left = b""

    def stop(self):
        """Ends the program and what it started."""
        if not self.process:
            return None
        try:
            os.killpg(self.process.pid, signal.SIGKILL)
        except ProcessLookupError:
            pass
        for pipe in (self.process.stdin, self.process.stdout):
            try:
                pipe.close()
            except OSError:
                pass
        status = self.process.wait()
        self.process = None
        return status

    def died(self):
        """The fault of a program that ended by itself."""
        try:
            status = self.process.wait(1)
        except subprocess.TimeoutExpired:
            status = "a closed output"
        self.stop()
        return CaseFault(f"died: it ended with {status}")

    def exchange(self, line, seconds=None):
        """Writes a line and reads one, within the program's limit or another one."""
        seconds = seconds or self.seconds
        until = time.monotonic() + seconds
        into, out = self.process.stdin.fileno(), self.process.stdout.fileno()
        while b"\n" not in self.left:
            rest = until - time.monotonic()
            readable, writable, _ = select.select([out], [into] if line else [], [], max(rest, 0))
            if not readable and not writable:
                self.stop()
                raise CaseFault(f"hangs: no answer within {seconds:g} s")
            try:
                if readable:
                    read = os.read(out, 65536)
                    self.left += read
                    if not read:
                        raise self.died()
                elif writable:
                    line = line[os.write(into, line) :]
            except BrokenPipeError:
                raise self.died() from None
            if len(self.left) > LONGEST_ANSWER:
                self.stop()
                raise CaseFault(f"nonsense: a line was wanted, and over {LONGEST_ANSWER} bytes have no end")
        found, self.left = self.left.split(b"\n", 1)
        return found.decode("utf-8", "replace")

    def ask(self, case):
        """What the engine answers to one case."""
        if not self.process:
            self.start()
        self.asked += 1
        pieces = [piece.decode("latin-1") for piece in case.pieces()]
        line = json.dumps({"case": self.asked, "rows": case.rows, "columns": case.columns, "pieces": pieces}) + "\n"
        try:
            return answer_of(self.exchange(line.encode()), self.asked, case)
        except CaseFault as fault:
            if str(fault).startswith("nonsense"):
                self.stop()
            raise

    def asked_in_turn(self, cases):
        """The answer or the `CaseFault` of each case, in their order; the program goes on."""
        hangs = 0
        for case in cases:
            if hangs == HANGS_IN_A_ROW:
                yield CaseFault(f"not run: it hung in {HANGS_IN_A_ROW} cases one after another")
                continue
            try:
                yield self.ask(case)
                hangs = 0
            except CaseFault as fault:
                hangs = hangs + 1 if str(fault).startswith("hangs") else 0
                yield fault

    def answers(self, cases):
        """The answer or the `CaseFault` of each case, in their order."""
        try:
            yield from self.asked_in_turn(cases)
        finally:
            self.stop()
