"""The real Linux console: a case is written to /dev/ttyN and read from /dev/vcsaN and /dev/vcsuN, as root."""
import errno
import fcntl
import os
import select
import struct
import termios
import time
import tty

from .adapters import CaseFault, write_all
from .forms import Fault
from .sequences import MACHINE_WIDE
from .vcs import answer_of

VT_DISALLOCATE = 0x5608
WAIT, TRIES = 0.05, 40


class Device:
    """A console that isn't in front: each case gets it anew, in its own size."""

    def __init__(self, number):
        self.name = f"device {number}"
        self.number = number
        if os.geteuid():
            raise Fault(f"{self.name}: root was wanted, who may write to a console that isn't the user's own")
        for path in ("/dev/tty0", self.path("tty"), self.path("vcsa"), self.path("vcsu")):
            if not os.path.exists(path):
                raise Fault(f"{self.name}: {path} of an allocated console was wanted, and there is none")

    def path(self, kind):
        """The file of this console."""
        return f"/dev/{kind}{self.number}"

    def ask(self, case):
        """What stands after one case: all but the bells, and nothing of a case that would change the machine."""
        if MACHINE_WIDE.search(case.data):
            return {}
        try:
            return self.answer(case)
        except (OSError, termios.error) as fault:
            raise CaseFault(f"refuses: {fault}") from None

    def answer(self, case):
        """Frees the console, opens it anew, writes the case and reads what stands."""
        self.free()
        console = os.open(self.path("tty"), os.O_RDWR | os.O_NOCTTY | os.O_NONBLOCK)
        try:
            tty.setraw(console)
            fcntl.ioctl(console, termios.TIOCSWINSZ, struct.pack("4H", case.rows, case.columns, 0, 0))
            self.codes()  # from the first time on the console keeps characters, beside what its font shows of them
            for piece in case.pieces():
                write_all(console, piece)
            reports = b""
            while select.select([console], [], [], WAIT)[0]:
                reports += os.read(console, 4096)
            with open(self.path("vcsa"), "rb") as file:
                shown = file.read()
            codes = self.codes()
        finally:
            os.close(console)
        return answer_of(case, shown, codes, reports)

    def free(self):
        """Frees the console, which takes a moment to be free after it was closed."""
        front = os.open("/dev/tty0", os.O_WRONLY | os.O_NOCTTY)
        try:
            for left in range(TRIES, 0, -1):
                try:
                    return fcntl.ioctl(front, VT_DISALLOCATE, self.number)
                except OSError as fault:
                    if fault.errno != errno.EBUSY or left == 1:
                        raise
                    time.sleep(WAIT)
        finally:
            os.close(front)

    def codes(self):
        """The characters, or None while text isn't UTF-8: the console doesn't know them then."""
        try:
            with open(self.path("vcsu"), "rb") as file:
                return file.read()
        except OSError as fault:
            if fault.errno == errno.ENODATA:
                return None
            raise

    def answers(self, cases):
        """The answer or the `CaseFault` of each case, in their order."""
        for case in cases:
            try:
                yield self.ask(case)
            except CaseFault as fault:
                yield fault
