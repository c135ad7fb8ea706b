#!/usr/bin/env python3
"""Writes a session for `vt play`, to measure it by.

usage: sessions.py [ITEMS] [SEED]

64 processes with ITEMS script items each (470 where none is given, which makes some 60,000 calls), on 8
consoles of 25 by 80, and as many scan bytes: writes, reads, requests, handshakes, waits, signals,
settings and their readers. Owners let the display go at signal 10. The same numbers give the same text.

    dev/bench/sessions.py > session.toml && time vt play < session.toml > journal.txt
"""
import random
import sys

PROCESSES, CONSOLES = 64, 8
# Words of items on descriptor 0, drawn alike often; {n} is a console, {s} a signal, {v} a small number.
WORDS = [
    "write 0 {text}", "write 0 {text}", "write 0 {text}", "write 0 {text}",
    "write 0 1b5b356e1b5b366e", "write 0 1b5b31323b3{n}5d", "write 0 1b5b33316d{text}1b5b6d",
    "read 0 64", "getstate 0", "activate 0 {n}", "setmode 0 1 0 10 12 0", "setmode 0 0 0 0 0 0",
    "reldisp 0 1", "reldisp 0 2", "getmode 0", "setkd 0 0", "getkd 0", "kill {p} {s}",
    "setkb 0 3", "getkb 0", "setled 0 {v}", "getled 0", "setflags 0 {v}", "getflags 0",
    "setent 0 0 30 2 97", "getent 0 0 30", "setfunc 0 {v} 1b5b41", "getfunc 0 {v}", "getcode 0 30",
    "openqry 0", "accept 0 {s}", "disallocate 0 {n}", "resize 0 25 80", "waitinput 0", "waitactive 0 {n}",
]


def session(processes, items, seed, out, events=1_000_000, deaths=False):
    """Writes a session of so many processes, with so many script items each, to this file. With deaths some calls kill
    a process, and some processes leave at signal 12."""
    draw = random.Random(seed)
    keys = " ".join("1e 9e" for _ in range(min(items, 100_000) // 2))
    print(f"consoles = [{', '.join(str(n) for n in range(1, CONSOLES + 1))}]", file=out)
    print(f"events = {events}\nbytes = 1073741824", file=out)
    print(f"keymap = 'keycode 30 = a'\nkeys = '{keys}'", file=out)
    for p in range(1, processes + 1):
        print(f"[[process]]\nhome = {1 + p % CONSOLES}\nprivileged = true\nscript = [", file=out)
        print(f"'open {1 + p % CONSOLES}',", file=out)
        for _ in range(items - 1):
            text = bytes(draw.randrange(0x20, 0x7F) for _ in range(16)).hex()
            words = draw.choice(WORDS).format(
                text=text, n=draw.randrange(1, CONSOLES + 1), v=draw.randrange(8),
                p=draw.randrange(1, processes + 1), s=draw.choice([10, 12]))
            if deaths and draw.random() < 0.05:
                words = f"kill {draw.randrange(1, processes + 1)} 9"
            print(f"'{words}',", file=out)
        leaves = deaths and draw.random() < 0.3
        print(f"]\nhooks = ['10 disp 0 1', '12 {'leave' if leaves else 'disp 0 2'}']", file=out)


def main():
    items = int(sys.argv[1]) if len(sys.argv) > 1 else 470
    seed = int(sys.argv[2]) if len(sys.argv) > 2 else 1
    session(PROCESSES, items, seed, sys.stdout)


if __name__ == "__main__":
    main()
