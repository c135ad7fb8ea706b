"""Attaches to a server of its own at moments that are rare: each line has what was seen, and True.

gone: the server closes the connection while a key is on its way; the terminal has to be as it was, and the status 0.
refused: after another size of the terminal the server refuses it; the reason stands on the screen that was there.
resized: the terminal gets another size while a text is written to it, and nothing follows.
"""
import contextlib
import fcntl
import os
import pty
import select
import signal
import socket
import struct
import tempfile
import termios
import time
import tty

SECONDS, PAUSE = 100, 0.5


def reads(terminal, text):
    """Reads what is drawn until a text is there."""
    got, end = b"", time.monotonic() + SECONDS
    while text not in got and time.monotonic() < end:
        if select.select([terminal], [], [], 0.1)[0]:
            try:
                got += os.read(terminal, 65536)
            except OSError:
                break
    return text in got


@contextlib.contextmanager
def attached():
    """A socket that listens, its first connection, and the terminal and the process of `vtrun attach` there."""
    with tempfile.TemporaryDirectory() as folder, socket.socket(socket.AF_UNIX) as server:
        server.bind(f"{folder}/control")
        server.listen()
        server.settimeout(SECONDS)
        pid, terminal = pty.fork()
        if pid == 0:
            signal.signal(signal.SIGPIPE, signal.SIG_DFL)
            os.execvp("vtrun", ["vtrun", "--socket", f"{folder}/control", "attach"])
        one, _ = server.accept()
        one.recv(100)
        one.sendall(b"ok 0\nshown")
        assert reads(terminal, b"shown")
        yield server, one, terminal, pid
        os.close(terminal)


def room_of_terminal():
    """How many bytes a terminal takes that nobody reads."""
    master, slave = pty.openpty()
    tty.setraw(slave)
    os.set_blocking(slave, False)
    count = 0
    with contextlib.suppress(BlockingIOError):
        while True:
            count += os.write(slave, bytes(4096))
    os.close(master)
    os.close(slave)
    return count


with attached() as (_, one, terminal, pid):
    os.kill(pid, signal.SIGSTOP)
    os.waitpid(pid, os.WUNTRACED)
    one.close()
    os.write(terminal, b"x")
    os.kill(pid, signal.SIGCONT)
    is_left = reads(terminal, b"\x1b[?1049l")
    print("gone", is_left, os.waitstatus_to_exitcode(os.waitpid(pid, 0)[1]))
with attached() as (server, one, terminal, pid):
    fcntl.ioctl(terminal, termios.TIOCSWINSZ, struct.pack("HHHH", 30, 90, 0, 0))
    again, _ = server.accept()
    again.recv(100)
    again.sendall(b"no 5\nnever")
    print("refused", reads(terminal, b"\x1b[?1049lvtrun: never"), os.waitstatus_to_exitcode(os.waitpid(pid, 0)[1]))
with attached() as (server, one, terminal, pid):
    one.sendall(b" " * room_of_terminal() + b"the end")
    time.sleep(PAUSE)
    fcntl.ioctl(terminal, termios.TIOCSWINSZ, struct.pack("HHHH", 30, 90, 0, 0))
    time.sleep(PAUSE)
    is_read = reads(terminal, b"the end")
    try:
        print("resized", is_read, server.accept()[0].recv(100) == b"attach 30 90\n")
    except TimeoutError:
        print("resized", is_read, "no request came")
