"""Attaches to vtrun on a pseudo-terminal, switches by Alt and F2, gets another size, and leaves; prints whether each text was drawn."""
import fcntl
import os
import pty
import select
import struct
import termios
import time

SECONDS = 100
got = b""
pid, terminal = pty.fork()
if pid == 0:
    os.execvp("vtrun", ["vtrun", "attach"])


def until(text):
    """Reads what is drawn until a text is there."""
    global got
    end = time.monotonic() + SECONDS
    while text not in got and time.monotonic() < end:
        if select.select([terminal], [], [], 0.1)[0]:
            try:
                got += os.read(terminal, 65536)
            except OSError:
                break
    print(text.decode(), text in got)


until(b"first")
os.write(terminal, b"\x1b[1;3Q")
until(b"second")
got = b""
fcntl.ioctl(terminal, termios.TIOCSWINSZ, struct.pack("HHHH", 30, 90, 0, 0))
until(b"second")
os.write(terminal, b"\x1d")
until(b"1049l")
print(os.waitstatus_to_exitcode(os.waitpid(pid, 0)[1]))
