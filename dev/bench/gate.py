#!/usr/bin/env python3
"""Runs the gate, and prints what each crate costs in processor time.

usage: gate.py [--log FILE] [COMMAND ..]

COMMAND is `.ci/run` (default), or another one, such as `rt ci`. Its output goes to FILE, or to standard output. Every
second the processor time of each of its provers is read from /proc; what a prover took is known to a second. The table
has a row for each crate: the seconds of one processor for its proof, for the proof of its tests and for its wrong
bodies (those of must-fail/ and of wrong/), the largest first. The last line has the sums, the time of all else
(programs, tests, linking, checks), and the time by the clock. What an earlier run on this machine kept is not done
again: with a toolchain that keeps what `rt ci` passed run it on a new machine, and set XDG_CACHE_HOME to an empty
folder, in which dev/checks/check_wrong_bodies.py keeps what passed.

The status is that of the command; 2 if it can't be started or the words are others.
"""
import argparse
import collections
import datetime
import os
import pathlib
import subprocess
import sys
import threading
import time

TICKS = os.sysconf("SC_CLK_TCK")
PROC = pathlib.Path("/proc")
KINDS = ("proof", "tests", "edits")


def processes():
    """Each process that can be read: its number, its parent's, its processor time in seconds, its words, its folder."""
    for folder in PROC.iterdir():
        if not folder.name.isdigit():
            continue
        try:
            fields = (folder / "stat").read_text().rpartition(")")[2].split()
            words = (folder / "cmdline").read_bytes().decode(errors="replace").split("\0")
            place = os.readlink(folder / "cwd")
        except (OSError, ValueError):
            continue                                # it has ended
        yield int(folder.name), int(fields[1]), (int(fields[11]) + int(fields[12])) / TICKS, words, place


def work_of(words, place):
    """The crate and the kind of work of a prover's words; none for another program. Wrong bodies are tried in folders
    of their own: those of `rt` begin with "rt-edit-", those of dev/checks/check_wrong_bodies.py with
    "wrong-bodies-"."""
    if not words or pathlib.Path(words[0]).name != "rattle" or "--crate-name" not in words[:-1]:
        return None
    crate = words[words.index("--crate-name") + 1]
    if "rt-edit-" in place or "wrong-bodies-" in place:
        return crate, "edits"
    return crate, "tests" if "--test" in words else "proof"


def below(root, found):
    """The processes that descend from `root`."""
    children = collections.defaultdict(list)
    for number, parent, *_ in found:
        children[parent].append(number)
    reached, left = set(), [root]
    while left:
        number = left.pop()
        if number not in reached:
            reached.add(number)
            left += children[number]
    return reached


def sample(root, ended, times):
    """Notes the processor time of each prover until the command has ended."""
    while not ended.wait(1):
        found = list(processes())
        own = below(root, found)
        for number, _, seconds, words, place in found:
            work = work_of(words, place)
            if number in own and work:
                times[number, work] = max(seconds, times.get((number, work), 0))


def table(times, whole, clock):
    """The lines of the table."""
    crates = collections.defaultdict(lambda: dict.fromkeys(KINDS, 0.0))
    for (_, (crate, kind)), seconds in times.items():
        crates[crate][kind] += seconds
    yield f"{'crate':<18}" + "".join(f"{kind:>8}" for kind in KINDS)
    for crate, row in sorted(crates.items(), key=lambda item: -sum(item[1].values())):
        yield f"{crate:<18}" + "".join(f"{row[kind]:8.0f}" for kind in KINDS)
    sums = {kind: sum(row[kind] for row in crates.values()) for kind in KINDS}
    minutes = ", ".join(f"{kind} {seconds / 60:.0f}" for kind, seconds in sums.items())
    other = max(0.0, whole - sum(sums.values())) / 60
    yield f"minutes of one processor: {whole / 60:.0f} ({minutes}, other {other:.0f}); by the clock: {clock / 60:.0f}"


def main():
    parser = argparse.ArgumentParser(usage=__doc__.split("usage: ")[1].split("\n")[0])
    parser.add_argument("--log")
    parser.add_argument("command", nargs=argparse.REMAINDER)
    given = parser.parse_args()
    command = given.command or [".ci/run"]
    load = os.getloadavg()[0]
    date = datetime.date.today().isoformat()
    print(f"{date}, {os.cpu_count()} processors, load {load:.1f}: {' '.join(command)}", flush=True)
    times, ended, start = {}, threading.Event(), time.monotonic()
    try:
        output = open(given.log, "wb") if given.log else None
        running = subprocess.Popen(command, stdout=output, stderr=subprocess.STDOUT if output else None)
    except OSError as fault:
        print(f"gate.py: {fault.filename}: {fault.strerror}", file=sys.stderr)
        return 2
    sampler = threading.Thread(target=sample, args=(running.pid, ended, times))
    sampler.start()
    try:
        _, status, used = os.wait4(running.pid, 0)
    except KeyboardInterrupt:
        running.terminate()
        _, status, used = os.wait4(running.pid, 0)
    finally:
        ended.set()
        sampler.join()
    for line in table(times, used.ru_utime + used.ru_stime, time.monotonic() - start):
        print(line)
    return os.waitstatus_to_exitcode(status) if os.WIFEXITED(status) else 1


if __name__ == "__main__":
    sys.exit(main())
