"""Generated sessions that are called one by one through the library: the journal is that of `vt play`, byte for byte.
And calls in any order, without programs: `watch free` finds their journal legal, and one with another answer not."""
import concurrent.futures
import io
import os
import random
import re
import tomllib

import sessions
import switch_sessions

from programs import find_for_check

from .bench import TESTS

RUNS = 300
# Of so many sessions without programs, each with so many calls.
FREE_RUNS, FREE_CALLS = 40, 150
EVENTS = 20_000
CONSOLES = 6
# Every call that a script may have, with what its numbers are drawn from: f a descriptor, c a console, s a signal, p a
# process, v a small number, e an end of a range, b bytes.
CALLS = (
    "open {c}|close {f}|write {f} {b}|write {f} {b}|read {f} {v}|read {f} {e}|waitinput {f}|waitactive {f} {c}|waitsignal|"
    "activate {f} {c}|disallocate {f} {c}|openqry {f}|getstate {f}|resize {f} {v} {v}|resize {f} {e} {v}|lock {f}|"
    "unlock {f}|setkd {f} {v}|getkd {f}|setmode {f} 1 {v} {s} {s} {v}|setmode {f} 0 {v} {v} {v} {v}|getmode {f}|"
    "reldisp {f} {v}|setkb {f} {v}|getkb {f}|setmeta {f} {v}|getmeta {f}|setled {f} {v}|getled {f}|setflags {f} {e}|"
    "getflags {f}|setent {f} {v} 30 {v} 97|getent {f} {v} 30|getent {f} {e} {e}|setfunc {f} {v} {b}|getfunc {f} {v}|"
    "setdia {f} {d}|getdia {f}|setcode {f} {e} {e}|getcode {f} 30|accept {f} {s}|setmap {f} {m}|getmap {f}|"
    "setpal {f} {l}|getpal {f}|dump {v} {c}|kill {p} {s}").split("|")
TEXTS = (b"a", b"one\r\n", b"\x1b[6n", b"\x1b[c\x1b[5n", b"\x1b[12;2]", b"\x1b[15]", b"\a\a", b"\x1b[2q", "é中".encode(),
         b"\x1b%@\xe9\x9b", b"\x1b[?25l\x1b[31m", b"\x1b(K\x80", b"\x1b[1;1H\x1b[J", b"")
KEYMAP = """keymaps 0-2
keycode 30 = a A at
keycode 42 = Shift
keycode 56 = Alt
keycode 59 = F1
keycode 60 = Console_2
keycode 61 = Last_Console
keycode 62 = Incr_Console
keycode 63 = KeyboardSignal
keycode 64 = SAK
string F1 = "one"
compose '`' 'a' to U+00E0
"""
SCANS = "1e 9e 2a aa 3b bb 3c bc 3d bd 3e be 3f bf 40 e0 48 c8 38 b8".split()


def call(draw, processes):
    """A call with numbers within their ranges, at their ends, and sometimes past them."""
    words = draw.choice(CALLS)
    values = {
        "f": lambda: draw.choice([0, 0, 0, 1, 2, 15, 16]), "c": lambda: draw.choice([0, *range(1, CONSOLES + 1), 63, 64]),
        "s": lambda: draw.choice([10, 10, 12, 1, 64, 9, 0, 65]), "p": lambda: draw.randrange(processes + 2),
        "v": lambda: draw.choice([0, 1, 1, 2, 3, 4, 5, 9]),
        "e": lambda: draw.choice([0, 1, 30, 119, 127, 128, 129, 255, 256, 4096, 4097, 65535]),
        "b": lambda: draw.choice(TEXTS).hex() or "-", "d": lambda: (bytes([96, 0, 0, 0]) * draw.randrange(7)).hex() or "-",
        "m": lambda: (b"\x41\x00" * draw.choice([256, 256, 255])).hex(), "l": lambda: bytes(range(draw.choice([48, 48, 47]))).hex(),
    }  # fmt: skip
    return re.sub(r"\{(\w)\}", lambda found: str(values[found[1]]()), words)


def process(draw, number, processes):
    """A process with a script of every kind of call, and hooks."""
    script = [f"open {number % CONSOLES + 1}", *(call(draw, processes) for _ in range(draw.randrange(4, 40)))]
    hooks = ["10 disp 0 1", draw.choice(["12 disp 0 2", "12 leave", "12 put 0 61"])]
    privileged = "true" if draw.random() < 0.7 else "false"
    items = (", ".join(f"'{words}'" for words in row) for row in (script, hooks))
    return "[[process]]\nhome = {}\nprivileged = {}\nscript = [{}]\nhooks = [{}]\n".format(
        draw.choice([number % CONSOLES + 1, 0, 63]), privileged, *items)


def session_of_all_calls(seed):
    """A session in which every call is drawn alike often."""
    draw = random.Random(f"machines {seed}")
    processes, further = draw.randrange(1, 7), draw.choice([0, 0, 1, 3])
    keys = [" ".join(draw.choices(SCANS, k=draw.randrange(1, 30))) for _ in range(1 + further)]
    head = f"rows = {draw.choice([1, 2, 5])}\ncols = {draw.choice([1, 7, 12])}\nconsoles = [1, 3]\nkeys = '{keys[0]}'\n"
    more = f"more_keys = {keys[1:]}\n" if further else ""
    rows = [process(draw, number, processes) for number in range(1, processes + 1)]
    return f"{head}{more}keymap = '''\n{KEYMAP}'''\n" + "".join(rows)


def session(number):
    """The session of a run: of switches, of all calls, or of many processes that live and die."""
    if number % 3 == 0:
        return switch_sessions.session(number)
    if number % 3 == 1:
        return session_of_all_calls(number)
    text = io.StringIO()
    sessions.session(2 + number % 7, 40, number, text, events=EVENTS, deaths=True)
    return text.getvalue()


def words_of(text, keymap):
    """The words of machine_session.c for a session; its keymap goes into the file."""
    table = tomllib.loads(text)
    keymap.write_text(table.get("keymap", ""), encoding="utf-8")
    consoles = table.get("consoles", [1])
    mask, keyboards = sum(1 << n for n in consoles), 1 + len(table.get("more_keys", []))
    seats = [f"{it.get('home', 0)},{int(it.get('privileged', False))}" for it in table.get("process", [])]
    return [table.get("rows", 25), table.get("cols", 80), mask, table.get("front", min(consoles)), keyboards,
            table.get("events", 65536), keymap, *seats]


def end_of(text):
    """What follows the journal, with the length of a queue in place of what was dropped and its bytes."""
    def length(found):
        digits = found[2].decode().strip("-")
        return b"%%queue %s %d\n" % (found[1], len(digits) // 2)
    after = re.split(rb"^%end.*\n", text, maxsplit=1, flags=re.M)[1].replace(b"%done\n", b"")
    return re.sub(rb"^%queue (\d+) \d+ (\S+)\n", length, after, flags=re.M)


def compare(bench, program, number):
    """One session: what differs, or None; and the words of its calls."""
    text = session(number)
    played = bench.run([bench.vt, "play"], text.encode())
    if played.returncode:
        return f"vt play ends with {played.returncode}: {played.stderr}", []
    keymap = bench.folder / f"keymap.{number}"
    words = words_of(text, keymap)
    journal = re.match(rb"(?s).*?^%end[^\n]*\n", played.stdout, re.M)
    if not journal:
        return "the journal has no end", []
    wanted, end = journal[0], end_of(played.stdout)
    whole = bench.run([program, *words], wanted)
    lines = bench.run([program, "-l", *words], wanted)
    keymap.unlink()
    middle = b"".join(wanted.splitlines(keepends=True)[1:-1])
    calls = re.findall(rb"^\w+ \d+ (\w+)", middle, re.M)
    for ran, given in ((whole, wanted + end), (lines, middle + end)):
        if ran.returncode or ran.stdout != given:
            pairs = zip(given.splitlines(), ran.stdout.splitlines())
            first = next(((n, a, b) for n, (a, b) in enumerate(pairs) if a != b), "the lengths")
            return f"status {ran.returncode}, {ran.stderr}, {first}", calls
    return None, calls


def check_machines(bench):
    """Generated sessions of switches, of all calls, and of processes that live and die."""
    program = bench.compiled("machine_session", [TESTS / "machine_session.c"])
    if not program:
        return
    calls = set()
    with concurrent.futures.ThreadPoolExecutor(os.cpu_count()) as pool:
        for number, (found, made) in enumerate(pool.map(lambda n: compare(bench, program, n), range(RUNS))):
            bench.holds(found is None, f"session {number} through the library has the journal of vt play: {found}")
            calls.update(made)
    if RUNS >= 100:
        every = {words.split()[0].encode() for words in CALLS} | {b"scan", b"exit", b"waitend", b"signals"}
        bench.holds(calls == every, f"every call is made: {sorted(calls ^ every)}")
    check_free(bench, program)


def free_session(draw):
    """A start without scripts, and calls of its callers and of others in any order, as lines without true answers."""
    processes = draw.randrange(1, 6)
    head = f"rows = 3\ncols = 12\nconsoles = [1, 3]\nmore_keys = ['']\nkeymap = \'\'\'\n{KEYMAP}\'\'\'\n"
    rows = [f"[[process]]\nhome = {draw.choice([n, 0, 63])}\nprivileged = {draw.choice(['true', 'false'])}\n"
            for n in range(1, processes + 1)]
    lines, own = [], ["waitend", "signals", "signals", "exit"]
    for n in range(1, processes + 1):
        lines.append(f"p{n} 0 open {n} = ok")
    for _ in range(FREE_CALLS):
        if draw.random() < 0.2:
            words = draw.choice([f"scan {draw.choice(SCANS)}"] * 20 + ["exit"])
            lines.append(f"{draw.choice(['k0', 'k0', 'k1', 'k3'])} 0 {words} = ok")
        else:
            words = draw.choice(own) if draw.random() < 0.1 else call(draw, processes)
            lines.append(f"p{draw.randrange(1, processes + 2)} 0 {words} = ok")
    return head + "".join(rows), "\n".join(lines) + "\n"


def judged(bench, program, watch, number):
    """One session without programs: what is wrong, or None."""
    draw = random.Random(f"free {number}")
    text, lines = free_session(draw)
    keymap = bench.folder / f"free.{number}"
    ran = bench.run([program, *words_of(text, keymap)], lines.encode())
    keymap.unlink()
    journal = re.match(rb"(?s).*?^%end[^\n]*\n", ran.stdout, re.M)
    if ran.returncode or not journal or journal[0].count(b"\n") != lines.count("\n") + 2:
        return f"status {ran.returncode}, {ran.stderr}, {ran.stdout[-200:]}"
    said = bench.run([watch, "free"], text.encode() + journal[0])
    entries = journal[0].splitlines(keepends=True)
    at = draw.randrange(1, len(entries) - 1)
    entries[at] = entries[at].partition(b" = ")[0] + b" = num 77777\n"
    refused = bench.run([watch, "free"], text.encode() + b"".join(entries))
    if said.returncode or refused.returncode != 8 or b"illegal %d 3" % (at - 1) not in refused.stderr:
        return f"watch free ends with {said.returncode}: {said.stderr}; damaged at {at - 1}: {refused.stderr}"
    return None


def check_free(bench, program):
    """Calls in any order."""
    watch = find_for_check("watch")
    if b"free" not in bench.run([watch, "?"]).stderr:
        bench.skip("journals of calls in any order", "this watch has no form `free`")
        return
    for number in range(FREE_RUNS):
        found = judged(bench, program, watch, number)
        bench.holds(found is None, f"the journal of run {number} of calls in any order is legal: {found}")
