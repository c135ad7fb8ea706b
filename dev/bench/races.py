#!/usr/bin/env python3
"""Races sessions by the built program, and measures races beside plays.

usage: races.py soak PROGRAM [RACES] [SEED] [--busy N]
       races.py measure PROGRAM [RUNS] [PROCESSES ..] [--busy N] [--unproved]
       races.py runs PROGRAM [RUNS] [PROCESSES ..] [--busy N] [--unproved]

PROGRAM is the program `vt`, as crates/vt/out/vt; figures of one that tools/build.py made without proofs want
`--unproved`. With `--busy` N processes that compute run beside it. The first line has the date, the processors and the
load.

`soak` races the session that sessions.py writes, and then RACES sessions (200) of 2 to 64 processes: small ones of all
calls, half of them with processes that are killed or leave at a signal, and ones in which all processes except four
wait for input. It fails if a race takes more than two minutes, ends with a status other than Fine and JournalFull,
prints no journal that ends as its status requires, or one that `vt check` doesn't find legal.

`measure` prints the entries a second of `vt play` and `vt race` on sessions of 1, 4, 16 and 64 processes: the median,
the slowest and the quickest of RUNS runs (5). In the first kind of session every process writes; in the second all
processes except four of 16 and of 64 wait for input, which the keyboard sends. The time that the program takes to read
the session's text, which is the least of the plays with room for no entry, is taken off, up to nine tenths.

`runs` races sessions of 4 and 64 processes that write, and prints how many entries of one caller stand in a row in the
journal while another caller has calls to make: the median, the 99th of 100 and the longest, from the entry at which
every caller has made its first call; and the longest of the whole journal.
"""
import contextlib
import os
import pathlib
import random
import signal
import statistics
import subprocess
import sys
import tempfile
import time

sys.dont_write_bytecode = True
sys.path.insert(0, str(pathlib.Path(__file__).resolve().parents[1]))

import repository  # noqa: E402,F401: it has the folders of the modules below
import sessions  # noqa: E402
from programs import Missing, to_measure  # noqa: E402

FINE, JOURNAL_FULL = 0, 7
MOST_ITEMS = 10_000             # of one script
WRITES = 128_000                # of a session of writers, at most


def run(program, word, text, seconds=120):
    """Status, what was printed, and the time."""
    with open(text) as source:
        start = time.perf_counter()
        done = subprocess.run([program, word], stdin=source, capture_output=True, timeout=seconds)
        return done.returncode, done.stdout, time.perf_counter() - start


def journal_end(printed):
    """The last line of the journal, as words; none where there is none."""
    for line in printed.split(b"\n"):
        if line.startswith((b"%end ", b"%full ")):
            return line.split()
    return None


def judge(program, session, printed):
    """What `check` says of the journal that was printed."""
    journal = printed[: printed.find(b"\n%display ") + 1]
    done = subprocess.run([program, "check"], input=session + journal, capture_output=True, timeout=120)
    return done.stdout or done.stderr


def race(program, what, write):
    """Races the session that `write` writes into a file: its entries, and whether the journal was full."""
    with tempfile.NamedTemporaryFile("w", suffix=".toml") as text:
        write(text)
        text.flush()
        try:
            status, printed, _ = run(program, "race", text.name)
        except subprocess.TimeoutExpired:
            sys.exit(f"{what}: not over after two minutes")
        with open(text.name, "rb") as source:
            judged = judge(program, source.read(), printed)
    end = journal_end(printed)
    if status not in (FINE, JOURNAL_FULL) or end is None \
            or end[0] != (b"%end" if status == FINE else b"%full"):
        sys.exit(f"{what}: status {status}, {end}")
    if judged != b"legal %s\n" % end[1]:
        sys.exit(f"{what}: its journal is judged {judged}")
    return int(end[1]), status == JOURNAL_FULL


def soak(program, races, seed):
    draw = random.Random(seed)
    entries, full = race(program, "the session of sessions.py", lambda text: sessions.session(64, 470, 1, text))
    for n in range(races):
        processes, items = draw.randrange(2, 65), draw.randrange(1, 40)
        events = draw.choice([1_000_000, 1_000_000, draw.randrange(0, 40 * processes)])
        kind = draw.choice(["calls", "deaths", "deaths", "waiters"])
        own = draw.randrange(1 << 30)
        what = f"race {n}: {kind}, {processes} processes, {items} items, room for {events}, seed {own}"

        def write(text):
            if kind == "waiters":
                waiters(processes, text, events, items)
            else:
                sessions.session(processes, items, own, text, events, kind == "deaths")

        made, ended = race(program, what, write)
        entries += made
        full += ended
        if n % 100 == 99 or n + 1 == races:
            print(f"{n + 2:,} races, {entries:,} entries, {full} journals full", flush=True)


def writers(processes, out, events):
    """Every process writes 16 bytes again and again."""
    print(f"events = {events}\nbytes = 1073741824", file=out)
    for p in range(processes):
        print("[[process]]\nhome = 1\nscript = ['open 1',", file=out)
        for _ in range(min(MOST_ITEMS, WRITES // processes)):
            print(f"'write 0 {'68656c6c6f20' * 2}0a0d0a0d',", file=out)
        print("]", file=out)


def waiters(processes, out, events, items=500):
    """All but four processes wait for input, read it, and wait again; the keyboard sends it."""
    print(f"events = {events}\nbytes = 1073741824\nkeymap = 'keycode 30 = a'", file=out)
    print(f"keys = '{' '.join(['1e 9e'] * (40 * items))}'", file=out)
    for p in range(processes):
        print("[[process]]\nhome = 1\nscript = ['open 1',", file=out)
        for _ in range(items):
            print("'write 0 6869'," if p < 4 else "'waitinput 0', 'read 0 1',", file=out)
        print("]", file=out)


def measure(program, runs, counts):
    print("session, processes: entries played a second; entries raced a second (entries of a race)", flush=True)
    for kind in (writers, waiters):
        for processes in counts:
            if kind is waiters and processes < 16:
                continue
            with tempfile.NamedTemporaryFile("w", suffix=".toml") as text, \
                    tempfile.NamedTemporaryFile("w", suffix=".toml") as none:
                kind(processes, text, 1_000_000)
                kind(processes, none, 0)
                text.flush()
                none.flush()
                read = min(run(program, "play", none.name)[2] for _ in range(runs))
                speeds = {"play": [], "race": []}
                for _ in range(runs):
                    for word, all_speeds in speeds.items():
                        status, printed, taken = run(program, word, text.name, 600)
                        if status != FINE:
                            sys.exit(f"{word}: status {status}")
                        entries = int(journal_end(printed)[1])
                        all_speeds.append(entries / max(taken - read, taken / 10))
                figures = "; ".join(f"{statistics.median(it):,.0f} ({min(it):,.0f} to {max(it):,.0f})"
                                    for it in speeds.values())
                print(f"{kind.__name__}, {processes}: {figures} ({entries:,})", flush=True)


def in_a_row(printed):
    """How many entries of one caller stand in a row in a journal while another caller has entries to come: of each such
    run the length, and whether it began after every caller's first entry."""
    callers = []
    for line in printed.split(b"\n"):
        if line.startswith((b"%end ", b"%full ")):
            break
        if line and not line.startswith(b"%"):
            callers.append(line.split(b" ", 1)[0])
    left = {}
    for caller in callers:
        left[caller] = left.get(caller, 0) + 1
    fresh, found, length = set(left), [], 0
    for place, caller in enumerate(callers):
        if length == 0:
            all_began = not fresh
        length += 1
        left[caller] -= 1
        fresh.discard(caller)
        if left[caller] == 0:
            del left[caller]
        if place + 1 == len(callers) or callers[place + 1] != caller:
            if any(other != caller for other in left):
                found.append((length, all_began))
            length = 0
    return found


def runs_in_a_row(program, runs, counts):
    print("processes: entries in a row, once every caller began: median, 99th of 100, longest; longest of all",
          flush=True)
    for processes in counts:
        with tempfile.NamedTemporaryFile("w", suffix=".toml") as text:
            writers(processes, text, 1_000_000)
            text.flush()
            for _ in range(runs):
                status, printed, _ = run(program, "race", text.name, 600)
                if status != FINE:
                    sys.exit(f"race: status {status}")
                found = in_a_row(printed)
                later = sorted(length for length, all_began in found if all_began) or [0]
                middle, most = statistics.median(later), later[len(later) * 99 // 100]
                longest = max((length for length, _ in found), default=0)
                print(f"{processes}: {middle:,.0f}, {most:,}, {later[-1]:,}; {longest:,} ({len(found):,} runs)",
                      flush=True)


@contextlib.contextmanager
def beside(busy):
    """So many processes that compute, while the block runs."""
    computing = [subprocess.Popen([sys.executable, "-c", "while True: pass"]) for _ in range(busy)]
    try:
        if busy:
            time.sleep(2)
        yield
    finally:
        for process in computing:
            process.kill()
            process.wait()


def main():
    words, busy = [word for word in sys.argv[1:] if word != "--unproved"], 0
    try:
        if "--busy" in words:
            at = words.index("--busy")
            busy = int(words[at + 1])
            del words[at : at + 2]
        numbers = [int(word) for word in words[2:]]
    except (ValueError, IndexError):
        sys.exit(__doc__)
    if words[:1] not in (["soak"], ["measure"], ["runs"]) or len(words) < 2 or busy < 0 \
            or words[0] == "soak" and len(numbers) > 2:
        sys.exit(__doc__)
    if not os.access(words[1], os.X_OK):
        sys.exit(f"{words[1]}: no program that runs")
    try:
        to_measure(words[1], words[0] == "soak" or "--unproved" in sys.argv)
    except Missing as missing:
        sys.exit(f"races.py: {missing}")
    signal.signal(signal.SIGTERM, lambda *_: sys.exit(143))     # so that the processes beside it end too
    with beside(busy):
        print(f"{time.strftime('%d %B %Y %H:%M UTC', time.gmtime())}, {os.cpu_count()} processors, "
              f"load {os.getloadavg()[0]:.1f}, {busy} busy", flush=True)
        if words[0] == "soak":
            soak(words[1], *(numbers + [200, 1][len(numbers):]))
        elif words[0] == "measure":
            measure(words[1], *(numbers[:1] or [5]), numbers[1:] or [1, 4, 16, 64])
        else:
            runs_in_a_row(words[1], *(numbers[:1] or [3]), numbers[1:] or [4, 64])
        print(f"load {os.getloadavg()[0]:.1f} at the end", flush=True)


if __name__ == "__main__":
    main()
