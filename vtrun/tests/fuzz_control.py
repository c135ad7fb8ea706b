#!/usr/bin/env python3
"""Sends random requests to the control socket of the vtrun that it runs under.

usage: fuzz_control.py SEED SECONDS

Lines of the protocol (docs/reference/vtrun.md) with right and wrong words, cut and damaged ones, texts of random bytes,
connections that end at any time or read nothing. Prints how many requests were answered. Status 1: a connection that
keeps to the form got no answer.
"""
import os
import random
import signal
import socket
import sys
import time

FORMS = (
    "hello", "front", "consoles", "type {t}", "scan {h}", "snap {n}", "row {n} {m}", "redraw {n}", "svg {n}",
    "wait front {n} {s}", "wait text {n} {s} {t}", "wait program {n} {s}", "run {n} {t}", "run - {t}", "processes",
    "journal", "attach {m} {m}",
)  # fmt: skip
TEXTS = (b"abc", b"<A-F2>", b"<Enter>", b"<C-c>", b"\xc3\xa9", b"<lt>", b"<", b"true\0", b"sh\0-c\0echo hello\0", b"\x1b[A", b"")


def request(rng):
    """A request as it should be: its line and its text."""
    form = rng.choice(FORMS)
    text = rng.choice(TEXTS) if rng.random() < 0.8 else rng.randbytes(rng.randrange(200))
    words = {
        "n": rng.choice((0, 1, 2, 3, 63, 64, 99)), "m": rng.choice((0, 1, 5, 24, 80, 255, 99999)), "s": rng.randrange(50),
        "t": len(text), "h": " ".join(f"{rng.randrange(256):02x}" for _ in range(rng.randrange(6))),
    }  # fmt: skip
    return form.format(**words).encode() + b"\n", text if "{t}" in form else b""


def damaged(rng, line, text):
    """The same with a fault."""
    whole = bytearray(line + text)
    for _ in range(rng.randrange(1, 4)):
        at = rng.randrange(len(whole) + 1)
        what = rng.randrange(4)
        if what == 0:
            whole[at:at] = rng.randbytes(rng.randrange(1, 9))
        elif what == 1:
            del whole[at : at + rng.randrange(1, 5)]
        elif what == 2 and at < len(whole):
            whole[at] = rng.randrange(256)
        else:
            whole[at:at] = b"9" * rng.randrange(1, 30)
    return bytes(whole)


def connected():
    """A new connection."""
    one = socket.socket(socket.AF_UNIX)
    one.connect(os.environ["VTRUN_SOCKET"])
    one.settimeout(100)
    return one


def ask(stream, line, text):
    """Sends a request, and reads its answer."""
    stream.write(line + text)
    stream.flush()
    head = stream.readline().split()
    return len(stream.read(int(head[1]))) == int(head[1])


def main():
    # (what is typed on its terminal's console may stop it)
    for number in (signal.SIGINT, signal.SIGQUIT, signal.SIGTSTP):
        signal.signal(number, signal.SIG_IGN)
    rng, end, answered = random.Random(int(sys.argv[1])), time.monotonic() + float(sys.argv[2]), 0
    while time.monotonic() < end:
        one = connected()
        if rng.random() < 0.5:
            line, text = request(rng)
            one.sendall(damaged(rng, line, text))
            if rng.random() < 0.5:
                one.settimeout(0.01)
                try:
                    one.recv(65536)
                except OSError:
                    pass
            one.close()
            continue
        with one, one.makefile("rwb") as stream:
            for _ in range(rng.randrange(1, 6)):
                line, text = request(rng)
                if not ask(stream, line, text):
                    print(f"no whole answer to {line}")
                    return 1
                answered += 1
                if line.startswith(b"attach"):
                    break
    print(f"{answered} requests were answered")
    return 0


if __name__ == "__main__":
    sys.exit(main())
