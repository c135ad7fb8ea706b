#!/usr/bin/env python3
"""Compares `vt drill N SEED` with `vt play` of the same session, which is made here by the rules of
docs/reference/sessions.md.

What `play` prints of it has four of the five numbers: entries, what they count for, what the queues dropped, and the
console in front. `vt check` has to find the journal legal, and `vt explain` and `vt review` find as many switches of
the display in it as the drill counts. Ends with status 1 where something differs, and 2 if there is no program.
"""
import pathlib
import re
import subprocess
import sys

sys.dont_write_bytecode = True
sys.path.insert(0, str(pathlib.Path(__file__).resolve().parents[1]))

import repository  # noqa: E402,F401: it has the folders of the modules below
from programs import find_for_check  # noqa: E402

DRILLS = [(1, 0), (1, 1), (3, 2**64 - 1), (100, 7), (300, 12345678901234567890)]


class Draws:
    def __init__(self, seed):
        self.x = seed

    def below(self, m):
        self.x = (self.x * 6364136223846793005 + 1442695040888963407) % 2**64
        return self.x // 2**33 % m


def write(data):
    return f"write 0 {data.hex()}"


def item(draws):
    kind = draws.below(8)
    if kind == 0:
        count = 1 + draws.below(32)
        return write(bytes(32 + draws.below(95) for _ in range(count)))
    if kind == 1:
        row = 1 + draws.below(25)
        column = 1 + draws.below(80)
        return write(b"\x1b[%d;%dH" % (row, column))
    if kind == 2:
        return f"activate 0 {1 + draws.below(8)}"
    if kind == 3:
        return "read 0 64"
    if kind == 4:
        return f"waitactive 0 {1 + draws.below(8)}"
    if kind == 5:
        return write(b"\x1b[%dm" % (30 + draws.below(8)))
    return "reldisp 0 1" if kind == 6 else write(b"\x1b[6n")


def session(n, seed):
    draws = Draws(seed)
    text = [
        "consoles = [1, 2, 3, 4, 5, 6, 7, 8]", "events = 1000000", "bytes = 1073741824", "keymap = 'keycode 30 = a'",
        f"keys = '{' '.join(['1e 9e'] * n)}'",
    ]  # fmt: skip
    for p in range(1, 9):
        script = [f"open {p}"] + (["setmode 0 1 0 10 12 0"] if p % 2 else [])
        script += [item(draws) for _ in range(n)]
        text += ["[[process]]", f"home = {p}", "privileged = true", "hooks = ['10 disp 0 1', '12 disp 0 2']"]
        text.append("script = [" + ", ".join(f"'{call}'" for call in script) + "]")
    return "\n".join(text) + "\n"


def run(words, given=b""):
    return subprocess.run([find_for_check("vt"), *words], input=given, capture_output=True, timeout=60, check=False)


def hops_of(given):
    """How often the display changed hands in the journal after a session; None where two commands differ in that."""
    explained = run(["explain"], given).stdout
    reviewed = run(["review", "1", "0"], given).stdout
    items = explained.count(b"\n") - 1
    is_one_count = explained.startswith(b"%%explain %d\n" % items) and reviewed.count(b"\n") == items
    return items if is_one_count else None


def fault_of(n, seed):
    """What is wrong with this drill, or None."""
    drilled = run(["drill", str(n), str(seed)])
    form = rb"events (\d+)\nbytes (\d+)\nhops (\d+)\ndropped (\d+)\ndisplay (\d+)\n"
    told = re.fullmatch(form, drilled.stdout)
    if drilled.returncode or drilled.stderr or not told:
        return f"status {drilled.returncode}, {drilled.stdout[:100]!r}"
    text = session(n, seed).encode()
    played = run(["play"], text)
    if played.returncode:
        return f"its session ends with status {played.returncode}, {played.stderr!r}"
    events, counted = re.search(rb"\n%end (\d+) (\d+)\n", played.stdout).groups()
    dropped = sum(int(count) for count in re.findall(rb"\n%queue \d+ (\d+) ", played.stdout))
    display = re.search(rb"\n%display (\d+)\n", played.stdout)[1]
    journal = played.stdout[: played.stdout.index(b"\n%display ") + 1]
    hops = hops_of(text + journal)
    wanted = [int(events), int(counted), hops, dropped, int(display)]
    if [int(number) for number in told.groups()] != wanted:
        return f"it prints {told.groups()}, and its session's play has {wanted}"
    judged = run(["check"], text + journal)
    if judged.stdout != b"legal %d\n" % int(events):
        return f"its journal is judged {judged.stdout + judged.stderr!r}"
    return None


def main():
    failed = 0
    for n, seed in DRILLS:
        why = fault_of(n, seed)
        failed += bool(why)
        if why:
            print(f"drill {n} {seed}: {why}")
    print(f"{len(DRILLS) - failed} passed, {failed} failed")
    return 1 if failed else 0


if __name__ == "__main__":
    sys.exit(main())
