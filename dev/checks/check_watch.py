#!/usr/bin/env python3
"""Compares `watch json` of generated sessions with a second reader of journals (dev/checks/second_reader.py).

usage: check_watch.py [COUNT] [--from SEED] [--free N] [--watch PATH] [--vt PATH]

COUNT sessions (200) are made by dev/checks/switch_sessions.py from the seeds SEED (0) on. Each is played by `vt play`,
and every fifth is raced by `vt race` as well; the journals are also given to `watch` behind the session without its
turns, whose schedule is another. The second reader goes through the journal by the rules of
docs/reference/switching.md, and every object of `watch json` has to be the one that it expects: what the entry did, and
who is in front, who owns which console, what is pending since when, and who waits after it. The sessions of
examples/switches and the tour are read too. In the form for a person each entry has to have the same facts. Damaged
inputs have to end with a status of `vt check` and its line. The lines of `watch` that docs/guide/display-server.md
quotes have to stand below their entry, in the session named before them, and its commands have to print what it shows.

N free journals (300) are made by dev/checks/free_journals.py, whose second machine answers calls that any caller makes
at any time, and so many more are damaged: `watch free` has to accept exactly those that the second machine finds legal,
show what it expects of them, and name the same first entry and reason of the others.

Three sessions of dev/checks/race_sessions.py are compared in the same way and raced several times: one of 64 processes,
of which 60 wait, one whose last call ends a wait, and one whose journal is full while one waits. A race has SECONDS
(60) to end: if a caller whose wait has ended isn't woken, it never does. Races on one processor show that the callers take turns: a caller has at most MOST_IN_A_ROW
(200) entries in a row while another one has calls to make. Of five races the middle one by this number counts.

Prints a line for each difference and last 'N passed, M failed'. Ends with status 1 if one fails, 2 if a program is
missing or the words are wrong.
"""
import argparse
import functools
import json
import os
import pathlib
import random
import re
import subprocess
import sys

sys.dont_write_bytecode = True
sys.path.insert(0, str(pathlib.Path(__file__).resolve().parents[1]))

from repository import TOP  # noqa: E402: after the folder that it stands in
from check_hostile import mutated  # noqa: E402
from check_pages import differences, examples  # noqa: E402
from free_journals import damaged, end_of, journal, text_of, verdict  # noqa: E402
from programs import find_for_check, search_path  # noqa: E402
from race_sessions import full_session, last_call_session, longest_row, waiting_session, writing_session  # noqa: E402
from second_reader import Disagrees, Reader, Unread, entries_of  # noqa: E402
from switch_sessions import session  # noqa: E402
from tool_files import Stop  # noqa: E402
from watch_json import read_watch  # noqa: E402

GUIDE = TOP / "docs/guide/display-server.md"
SECONDS = 60
RACES, MOST_IN_A_ROW = 5, 200
ERRORS = {
    "err 1": "EPERM", "err 3": "ESRCH", "err 4": "EINTR", "err 6": "ENXIO", "err 9": "EBADF", "err 11": "EAGAIN",
    "err 16": "EBUSY", "err 22": "EINVAL", "err 25": "ENOTTY",
}  # fmt: skip
# The statuses of `vt check`, with the lines on standard error.
LINES = {
    0: rb"", 5: rb"watch: refused \d+ at \d+:\d+\n", 6: rb"watch: input too long\n", 8: rb"watch: illegal \d+ \d+\n",
}  # fmt: skip


class Late(Stop):
    """A program that didn't end in time."""


def run(command, given, **how):
    try:
        return subprocess.run(command, input=given, capture_output=True, timeout=SECONDS, check=False, **how)
    except subprocess.TimeoutExpired:
        raise Late(2, f"{' '.join(map(str, command))}: it didn't end within {SECONDS} s") from None


def order_of(caller):
    return int(caller[1:])


def did_objects(reader, caller):
    """What an entry did, as `watch json` has it: first the marks in order, then the waits that ended."""
    ended = {}
    for kind, words in reader.did:
        if kind == "asked":
            yield {"what": "request", "caller": caller, "console": words[0]}
        elif kind == "signal":
            yield {"what": "signal", "signal": words[1], "to": words[0]}
        elif kind == "ended":
            yield {"what": "end", "caller": words[0]}
        elif kind == "switch":
            names = ("owner", "asked", "signal")
            cause = dict(zip(names, words[3:]))
            yield {"what": "switch", "from": words[0], "to": words[1], "cause": words[2], **cause}
        else:
            ended[words[0]] = {"ok": "ok", "err 4": "EINTR", "gone": "gone"}[words[1]]
    for who in sorted(ended, key=order_of):
        yield {"what": "wait", "caller": who, "how": ended[who] if who in reader.alive else "gone"}


def wait_object(caller, wait):
    if wait.kind == "signal":
        return {"caller": caller, "for": "signal"}
    return {"caller": caller, "for": wait.kind, "console": wait.console}


def expected(text, journal):
    """The objects that the second reader expects, one an entry."""
    reader = Reader(text)
    for place, (caller, count, call, answer) in enumerate(entries_of(journal)):
        reader.step(caller, count, call, answer)
        pending = None if reader.pending is None else {"console": reader.pending, "since": reader.since}
        owners = [{"console": n, "owner": c.owner} for n, c in sorted(reader.consoles.items()) if c.owner is not None]
        waits = [wait_object(who, reader.waits[who]) for who in sorted(reader.waits, key=order_of)]
        yield {
            "entry": place, "caller": caller, "count": count, "call": call, "answer": answer,
            "error": ERRORS.get(answer), "did": list(did_objects(reader, caller)), "front": reader.front,
            "owners": owners, "pending": pending, "waits": waits,
        }  # fmt: skip


def lines_of(entry, before):
    """The lines of an entry in the form for a person, by docs/reference/watch.md."""
    yield f"{entry['caller']} {entry['count']} {entry['call']} = {entry['answer']}"
    if entry["error"]:
        yield f"    answer {entry['error']}"
    for did in entry["did"]:
        kind = did["what"]
        if kind == "request":
            yield f"    {did['caller']} requests console {did['console']}"
        elif kind == "signal":
            yield f"    signal {did['signal']} to {did['to']}"
        elif kind == "end":
            yield f"    {did['caller']} ends"
        elif kind == "wait":
            yield f"    wait of {did['caller']}: {did['how']}"
        else:
            why = {"free": "free", "released": "released by", "died": "died with"}[did["cause"]]
            if did["cause"] != "free":
                why += f" {did['owner']}, asked in entry {did['asked']} by signal {did['signal']}"
            yield f"    switch from {did['from']} to {did['to']}: {why}"
    now = now_line(entry)
    if now != before:
        yield f"    {now}"


def now_line(entry):
    owners = ", ".join(f"{owned['console']} {owned['owner']}" for owned in entry["owners"]) or "none"
    pending = entry["pending"]
    is_pending = f"{pending['console']} since {pending['since']}" if pending else "none"
    waits = [" ".join(map(str, wait.values())) for wait in entry["waits"]]
    return f"now: front {entry['front']}; owners {owners}; pending {is_pending}; waits {', '.join(waits) or 'none'}"


def first_difference(found, wanted):
    """The first object and member that differ, or None."""
    for one, other in zip(found, wanted):
        for name in other:
            if one.get(name) != other[name] or list(one) != list(other):
                words = f"{other['caller']} {other['count']} {other['call']}"
                return f"entry {other['entry']} ({words}): {name}: {one.get(name)}, not {other[name]}"
    if len(found) != len(wanted):
        return f"{len(found)} entries, not {len(wanted)}"
    return None


def faults_of(watch, given, text, printed, seen, words=()):
    """Why what `watch` prints of this input isn't that of the journal which `vt` printed, or None."""
    ran = run([watch, *words, "json"], given)
    if ran.returncode or ran.stderr:
        return f"status {ran.returncode}, {ran.stderr[:100]!r}"
    try:
        entries, final = read_watch(ran.stdout)
        wanted = list(expected(text, printed))
    except Stop as stop:
        return f"watch json: {stop}"
    except (Unread, Disagrees) as fault:
        return f"the second reader: {fault}"
    why = first_difference(entries, wanted)
    if why:
        return why
    if "\n%display " in printed and final != printed[printed.index("\n%display ") + 1 :]:
        return "another final text"
    shown = run([watch, *words], given).stdout.decode().split("\n")
    before = f"now: front {Reader(text).front}; owners none; pending none; waits none"
    lines = [before]
    for entry in wanted:
        lines += lines_of(entry, before)
        before = now_line(entry)
    lines.append("")
    if shown != lines:
        place = next((n for n, pair in enumerate(zip(shown, lines)) if pair[0] != pair[1]), min(len(shown), len(lines)))
        return f"line {place + 1} of the form for a person: {(shown + ['nothing'])[place]!r}"
    seen.append((len(entries), sum(did["what"] == "switch" for entry in entries for did in entry["did"])))
    return None


def journal_part(printed):
    end = re.search(r"(?m)^%(end|full) .*\n", printed)
    return printed[: end.end()]


def compare(watch, vt, name, text, races, seen):
    """Gives the result of each comparison of one session, which is played once and raced this many times."""
    for how in ["play", *["race"] * races]:
        try:
            played = run([vt, how], text.encode())
        except Late as late:
            yield f"{name}: {late}; is a caller asleep whose wait has ended?"
            return
        if played.returncode not in (0, 7):
            yield f"{name}: vt {how}: status {played.returncode}"
            continue
        printed = played.stdout.decode()
        if how == "play":
            why = faults_of(watch, text.encode(), text, printed, seen)
            yield f"{name}: {why}" if why else None
        # (without its turns the session has another schedule, and the journal is one that a race could make)
        given = re.sub(r"(?m)^turns = \[.*\]\n", "", text) + journal_part(printed)
        why = faults_of(watch, given.encode(), text, printed, [])
        yield f"{name}, with the journal of vt {how}: {why}" if why else None


def waking(watch, vt, seen):
    """Gives the result of each comparison of the sessions in which callers have to be woken."""
    yield from compare(watch, vt, "60 waiting processes", waiting_session(), RACES, seen)
    yield from compare(watch, vt, "a last call that ends a wait", last_call_session(), RACES, seen)
    yield from compare(watch, vt, "a journal that is full while one waits", full_session(), RACES, seen)


def taking_turns(vt):
    """Gives the result of races in which every caller has calls to make all the time. They run on one processor, where a
    worker that never lets the others go on makes thousands of calls in a row."""
    on_one = functools.partial(os.sched_setaffinity, 0, {min(os.sched_getaffinity(0))})
    text = writing_session(4, 3000).encode()
    rows = []
    for _ in range(RACES):
        raced = run([vt, "race"], text, preexec_fn=on_one)
        if raced.returncode:
            yield f"a race of four writing processes: status {raced.returncode}"
            return
        rows.append(longest_row(raced.stdout.decode()))
    is_so = 0 < sorted(rows)[RACES // 2] <= MOST_IN_A_ROW
    yield None if is_so else f"races of four writing processes: {rows} entries of one caller in a row"


def free_faults(watch, count, seen):
    """Gives the result of each free journal, and of each damaged one."""
    for seed in range(count):
        text, entries = journal(seed)
        for name, (made, last) in (("free", (entries, end_of(entries))), ("damaged", damaged(seed, entries))):
            written = text_of(made, last)
            try:
                failed = verdict(text, made, last)
            except Unread as fault:
                yield f"{name} journal {seed}: the second machine: {fault}"
                continue
            if failed is None:
                why = faults_of(watch, (text + written).encode(), text, written, seen, ["free"])
            else:
                ran = run([watch, "free"], (text + written).encode())
                line = "watch: illegal {} {}\n".format(*failed)
                is_so = (ran.returncode, ran.stdout, ran.stderr.decode()) == (8, b"", line)
                why = None if is_so else f"status {ran.returncode}, {ran.stderr[:100]!r}, not {line!r}"
            yield f"{name} journal {seed}: {why}" if why else None


def hostile(watch, vt, count):
    """Damaged inputs."""
    for number in range(count):
        chance = random.Random(f"watch {number}")
        text = session(chance.randrange(200))
        played = run([vt, "play"], text.encode()).stdout.decode()
        given = mutated(chance, (text + journal_part(played)).encode())
        words = chance.choice([[], ["json"], ["free"], ["free", "json"]])
        ran = run([watch, *words], given)
        line = LINES.get(ran.returncode)
        if line is None or not re.fullmatch(line, ran.stderr) or (ran.returncode and ran.stdout):
            yield f"damaged input {number}: status {ran.returncode}, {ran.stderr[:100]!r}"
        elif ran.returncode == 0 and "json" in words and not is_whole(ran.stdout):
            yield f"damaged input {number}: no JSON of the form"
        else:
            yield None


def quote_faults(watch):
    """Lines that the guide quotes below an entry, and that `watch` doesn't print there in this order."""
    names = {path.stem for path in (TOP / "examples/switches").glob("*.toml")}
    entries, below = [], None
    for number, line in enumerate(GUIDE.read_text(encoding="utf-8").split("\n"), 1):
        place = f"{GUIDE.name}:{number}"
        if re.fullmatch(r"    [kp]\d+ \d+ .* = .*", line):
            while entries and entries[0][0] != line.strip():
                entries.pop(0)
            below = entries.pop(0)[1:] if entries else []
        elif re.fullmatch(r"        [a-z].*", line) and below is not None:
            if line.strip() not in below:
                yield f"{place}: `watch` doesn't print this below the entry: {line.strip()}"
                continue
            below = below[below.index(line.strip()) + 1 :]
        else:
            below = None
            for name in [found for found in re.findall(r"`([a-z-]+)`", line) if found in names]:
                shown = run([watch], (TOP / f"examples/switches/{name}.toml").read_bytes()).stdout.decode()
                entries = [[part.strip() for part in text.split("\n")] for text in re.split(r"\n(?! )", shown)]


def guide_faults(vt, watch):
    """What the guide has of `watch` and isn't so."""
    yield from quote_faults(watch)
    commands = [(line, shown) for line, shown in examples(GUIDE.read_text(encoding="utf-8")) if "mine." not in line]
    yield from differences(GUIDE, commands, search_path(vt=vt, watch=watch))


def is_whole(printed):
    try:
        read_watch(printed)
    except Stop:
        return False
    return all(json.loads(line) for line in printed.splitlines())


def main():
    parser = argparse.ArgumentParser(description="Compares `watch json` with a second reader of journals.")
    parser.add_argument("count", nargs="?", type=int, default=200)
    parser.add_argument("--from", dest="first", type=int, default=0)
    parser.add_argument("--free", type=int, default=300)
    parser.add_argument("--watch")
    parser.add_argument("--vt")
    args = parser.parse_args()
    args.watch, args.vt = find_for_check("watch", args.watch), find_for_check("vt", args.vt)
    given = [(f"seed {seed}", session(seed), int(seed % 5 == 0)) for seed in range(args.first, args.first + args.count)]
    for path in [*sorted((TOP / "examples/switches").glob("*.toml")), TOP / "examples/tour.toml"]:
        given.append((path.name, path.read_text(encoding="utf-8"), 0))
    seen, passed, failed = [], 0, 0
    results = []
    for name, text, races in given:
        results += compare(args.watch, args.vt, name, text, races, seen)
    results += waking(args.watch, args.vt, seen)
    results += taking_turns(args.vt)
    results += free_faults(args.watch, args.free, seen)
    results += hostile(args.watch, args.vt, args.count)
    results += guide_faults(args.vt, args.watch)
    for why in results:
        passed, failed = passed + (why is None), failed + (why is not None)
        if why:
            print(why)
    entries, switches = sum(n for n, _ in seen), sum(n for _, n in seen)
    print(f"{passed} passed, {failed} failed; {len(seen)} sessions, {entries} entries, {switches} switches")
    return 1 if failed else 0


if __name__ == "__main__":
    try:
        sys.exit(main())
    except (Stop, OSError, ValueError) as fault:
        print(f"check_watch.py: {fault}", file=sys.stderr)
        sys.exit(2)
