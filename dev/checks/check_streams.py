#!/usr/bin/env python3
"""Runs the built program over real files, pipes, sockets and terminals that fail, which no proof speaks of.

usage: check_streams.py [PROGRAM]

- An error in the middle of the input: the master of a pseudoterminal whose other side wrote some bytes and was closed
  gives them and then EIO; a directory fails at the first read, with EISDIR (read(2)). The status is 2, and nothing of
  the input is printed. `drill` reads nothing, so that a source that fails changes nothing for it.
- An interrupted call: a read or a write of a socket with a time limit ends with EINTR where the process is stopped and
  continued (signal(7), "Interruption of system calls and library functions by stop signals"). The program is stopped
  and continued while it waits, and the status is 0 with the whole text. That such a call is interrupted on this machine
  is tried first, on a call of the C library's; where it isn't, these runs are left out, and a line says so.
- A full output: /dev/full, and a pipe whose reader is gone. The status is 3, with its line on err unless err is full.

Prints a line for each run that ends otherwise, and last 'N passed, M failed'. Ends with status 1 if one fails, and 2 if
there is no program.
"""
import contextlib
import os
import pathlib
import pty
import signal
import socket
import struct
import subprocess
import sys
import time
import tty

sys.dont_write_bytecode = True
sys.path.insert(0, str(pathlib.Path(__file__).resolve().parents[1]))

from repository import TOP  # noqa: E402: after the folder that it stands in
from programs import find_for_check  # noqa: E402

SECONDS = 20
STOPS = 3
READ_FAULT = (2, b"", b"vt: read failed\n")
WRITE_FAULT = (3, b"", b"vt: write failed\n")

# What each command reads: some bytes of an input that would give status 0.
INPUTS = [
    ("screen 1 3", b"ab"),
    ("keys", b"keymaps 0\n"),
    ("dumpkeys", b"keymaps 0\n"),
    ("type", b"keys = '1e'\n"),
    ("play", b"cols = 4\n"),
    ("race", b"cols = 4\n"),
    ("check", b"cols = 4\n%journal 2\nk0 0 exit = ok\n%end 1 64\n"),
    ("review 7 0", b"cols = 4\n%journal 2\nk0 0 exit = ok\n%end 1 64\n"),
    ("explain", b"cols = 4\n%journal 2\nk0 0 exit = ok\n%end 1 64\n"),
    ("accept", b"cols = 4\n%journal 2\nk0 0 exit = ok\n%end 1 64\n%explain 0\n"),
    ("upgrade", b"%journal 1\n0 0 exit = ok\n%end 1 64\n"),
    ("cook", b"ab\n"),
]

# A call of the C library's that isn't tried again: it answers how a read of its input, or a write to its output, ended.
CONTROL = """
import ctypes, sys
libc = ctypes.CDLL(None, use_errno=True)
text = ctypes.create_string_buffer(1 << 20)
count = 0
while count >= 0:
    count = libc.read(0, text, 10) if sys.argv[1] == "read" else libc.write(1, text, 1 << 20)
sys.stderr.write(str(ctypes.get_errno()))
"""


def ended(program, words, **streams):
    """Status, out and err of a run over these streams."""
    ran = subprocess.run([program, *words.split()], stderr=subprocess.PIPE, timeout=SECONDS, check=False, **streams)
    return ran.returncode, ran.stdout or b"", ran.stderr


def broken_source(given):
    """A source that gives these bytes, and then fails: a master whose other side is closed."""
    master, other = pty.openpty()
    tty.setraw(other)
    os.write(other, given)
    os.close(other)
    return master


def state_of(process):
    """The letter of the process's state (proc(5)), or '' where it has ended."""
    try:
        return pathlib.Path(f"/proc/{process.pid}/stat").read_text(encoding="ascii").rsplit(")", 1)[1].split()[0]
    except (OSError, IndexError):
        return ""


def wait_for(process, states):
    """Waits until the process is in one of the states; whether it is."""
    end = time.monotonic() + SECONDS
    while time.monotonic() < end:
        if state_of(process) in states:
            return True
        time.sleep(0.002)
    return False


def stop_and_continue(process):
    """Stops the process and continues it while it waits in a call, some times; whether it waited each time."""
    for _ in range(STOPS):
        time.sleep(0.05)
        if not wait_for(process, "S"):
            return False
        process.send_signal(signal.SIGSTOP)
        stopped = wait_for(process, "T")
        process.send_signal(signal.SIGCONT)
        if not stopped:
            return False
    time.sleep(0.05)
    return True


def limited_pair(option):
    """Two ends of a stream; calls of the second one have a time limit, and so can be interrupted."""
    near, far = socket.socketpair()
    far.setsockopt(socket.SOL_SOCKET, option, struct.pack("ll", 2 * SECONDS, 0))
    return near, far


@contextlib.contextmanager
def started(words, **streams):
    """A process over these streams, which ends with this block at the latest."""
    with subprocess.Popen(words, stderr=subprocess.PIPE, **streams) as process:
        try:
            yield process
        finally:
            process.kill()


def interrupted_read(words, given):
    """Status, out and err of a run that is interrupted while it waits for its input, which then comes."""
    near, far = limited_pair(socket.SO_RCVTIMEO)
    with near, started(words, stdin=far, stdout=subprocess.PIPE) as process:
        far.close()
        if not stop_and_continue(process):
            process.kill()
        try:
            near.sendall(given)
            near.shutdown(socket.SHUT_WR)
        except OSError:
            pass  # it has ended: its status shows it
        out, err = process.communicate(timeout=SECONDS)
        return process.returncode, out, err


def interrupted_write(words, given):
    """The same of a run whose output is full while it is interrupted, and is read then."""
    near, far = limited_pair(socket.SO_SNDTIMEO)
    far.setsockopt(socket.SOL_SOCKET, socket.SO_SNDBUF, 4096)
    with near, started(words, stdin=subprocess.PIPE, stdout=far) as process:
        far.close()
        process.stdin.write(given)
        process.stdin.close()
        process.stdin = None
        if not stop_and_continue(process):
            process.kill()
        near.settimeout(SECONDS)
        out = b"".join(iter(lambda: near.recv(65536), b""))
        _, err = process.communicate(timeout=SECONDS)
        return process.returncode, out, err


def is_interrupted(kind):
    """Whether such a call of this machine ends with EINTR where nothing handles a signal."""
    words = [sys.executable, "-c", CONTROL, kind]
    ran = interrupted_read(words, b"") if kind == "read" else interrupted_write(words, b"")
    return ran[2] == b"4"


def failing_reads(program):
    """Each run whose source fails: its name, and how it ended and has to end."""
    for words, given in INPUTS:
        source = broken_source(given)
        yield f"{words}, error in mid-stream", ended(program, words, stdin=source, stdout=subprocess.PIPE), READ_FAULT
        os.close(source)
        source = os.open("/", os.O_RDONLY)
        yield f"{words}, a directory", ended(program, words, stdin=source, stdout=subprocess.PIPE), READ_FAULT
        os.close(source)
    source = os.open("/", os.O_RDONLY)
    wanted = (0, b"events 52\nbytes 3433\nhops 1\ndropped 0\ndisplay 6\n", b"")
    yield "drill 1 0, a directory", ended(program, "drill 1 0", stdin=source, stdout=subprocess.PIPE), wanted
    os.close(source)


def failing_writes(program):
    """The same of each run whose out or err is full or broken."""
    with open("/dev/full", "wb") as full:
        yield "/dev/full", ended(program, "screen 2 5", input=b"ab", stdout=full), WRITE_FAULT
        streams = {"input": b"ab", "stdout": subprocess.PIPE, "stderr": full, "timeout": SECONDS, "check": False}
        ran = subprocess.run([program, "foo"], **streams)
        yield "/dev/full as err", (ran.returncode, ran.stdout, b""), (3, b"", b"")
        ran = subprocess.run([program, "screen", "1", "3"], **streams)
        yield "/dev/full as an err without a line", (ran.returncode, ran.stdout, b""), (0, b"|ab |\n", b"")
    reader, writer = os.pipe()
    os.close(reader)
    yield "a pipe without a reader", ended(program, "screen 2 5", input=b"ab", stdout=writer), WRITE_FAULT
    os.close(writer)


def interrupted_runs(program):
    """The same of each run that is interrupted, where calls of this machine can be."""
    if is_interrupted("read"):
        ran = interrupted_read([program, "screen", "1", "3"], b"ab")
        yield "an interrupted read", ran, (0, b"|ab |\n", b"")
    else:
        print("left out: no read is interrupted here")
    if is_interrupted("write"):
        ran = interrupted_write([program, "screen", "255", "255"], b"ab")
        rows = b"|ab" + b" " * 253 + b"|\n" + (b"|" + b" " * 255 + b"|\n") * 254
        yield "an interrupted write", ran, (0, rows, b"")
    else:
        print("left out: no write is interrupted here")


def brief(ending):
    """A status, and the beginnings of out and err."""
    status, out, err = ending
    return f"status {status}, {out[:80]!r} and {err[:80]!r}"


def main():
    program = str(find_for_check("vt", sys.argv[1] if len(sys.argv) > 1 else None))
    passed = failed = 0
    for runs in (failing_reads, failing_writes, interrupted_runs):
        try:
            for name, got, wanted in runs(program):
                passed, failed = passed + (got == wanted), failed + (got != wanted)
                if got != wanted:
                    print(f"{name}: ended with {brief(got)}; wanted {brief(wanted)}")
        except (OSError, subprocess.SubprocessError) as fault:
            failed += 1
            print(f"{runs.__name__.replace('_', ' ')}: {fault}")
    print(f"{passed} passed, {failed} failed")
    return 1 if failed else 0


if __name__ == "__main__":
    sys.exit(main())
