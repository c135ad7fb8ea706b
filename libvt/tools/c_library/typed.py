"""Keys typed by the library beside what `vt type` types."""
import concurrent.futures
import json
import os
import random
import re

from .bench import EXAMPLES, SANITIZERS, TESTS

RUNS = 1_000
# Of so many runs over several consoles, each with so many keys.
CONSOLE_RUNS, STROKES = 200, 80
SCANS = 150
KEYCODES = [*range(1, 89), 96, 97, 98, 99, 100, *range(102, 112), 119, 125, 126, 127]
# Symbols of keymaps(5), several of each kind.
SYMBOLS = (
    "a b c e A E one two space exclam U+00E9 U+20AC U+4E2D +a +e +U+00E9 Meta_a F1 F2 F20 "
    "Find Insert Remove Prior Next Macro KP_0 KP_5 KP_Add KP_Enter KP_Period KP_Comma Up Down Left Right "
    "dead_grave dead_acute dead_circumflex dead_tilde dead_diaeresis dead_cedilla Shift AltGr Control Alt ShiftL "
    "ShiftR CtrlL CtrlR Shift_Lock AltGr_Lock Control_Lock SShift SControl SAltGr Console_1 Console_12 Console_63 "
    "Return Caps_Lock Num_Lock Scroll_Lock Last_Console Incr_Console Decr_Console KeyboardSignal SAK Compose "
    "Bare_Num_Lock Caps_On Show_Memory Break Ascii_0 Ascii_1 Ascii_6 Ascii_9 VoidSymbol Escape Delete Tab "
    "BackSpace").split()
# Words that are no symbols: a keymap that has one of them is refused.
NO_SYMBOLS = ["U+1F600", "Meta_U+0041"]
REFUSED = 0.1
WEIGHTS = ["", "shift", "altgr", "control", "shift altgr", "alt", "shift control"]
TABLES = "keymaps 0-5,8"


def keymap_text(draw, refused=REFUSED):
    """A keymap of many kinds of keys, with a text to include. So often it has a fault."""
    lines = [TABLES, 'include "more"']
    for code in draw.sample(KEYCODES, 60):
        if draw.random() < 0.5:
            lines.append(f"keycode {code} = {' '.join(draw.choices(SYMBOLS, k=draw.randrange(1, 6)))}")
        else:
            lines.append(f"{draw.choice(WEIGHTS)} keycode {code} = {draw.choice(SYMBOLS)}".strip())
    for number in (1, 2, 20):
        lines.append(f'string F{number} = "{draw.choice(["", "one", "two three", "1" * 255])}"')
    if draw.random() < 0.5:
        lines.append("strings as usual")
    if draw.random() < 0.5:
        lines.append("compose as usual")
    lines.append("compose '`' 'a' to U+00E0")
    if draw.random() < refused:
        lines.insert(draw.randrange(2, len(lines)), f"keycode {draw.choice(KEYCODES)} = {draw.choice(NO_SYMBOLS)}")
    more = ["keycode 42 = Shift", "keycode 29 = Control", "keycode 56 = Alt", "compose '\"' 'e' to 'x'"]
    return "\n".join(lines) + "\n", "\n".join(more) + "\n"


def scans(draw):
    """Keys that go down and up, some of them held, and some bytes that are no keys."""
    found = []
    while len(found) < SCANS:
        how, code = draw.random(), draw.randrange(1, 89)
        if how < 0.6:
            found += [code, code | 0x80]
        elif how < 0.8:
            found += [draw.choice([code, 42, 29, 56])] * draw.randrange(1, 4)
        elif how < 0.9:
            found += [0xE0, draw.choice([0x1C, 0x48, 0x50, 0x4B, 0x53, 0x47, code]) | draw.choice([0, 0x80])]
        elif how < 0.95:
            found += [code | 0x80]
        else:
            found += draw.choices(range(256), k=3)
    return found[:SCANS]


def quoted(text):
    """A text as TOML has it."""
    return json.dumps(text)


def compare(bench, program, number):
    """One random run: what differs, or None; and whether the keymap has no fault."""
    draw = random.Random(f"keys {number}")
    text, more = keymap_text(draw)
    mode, typed = draw.choice([3, 3, 3, 1, 1, 2, 0, 4]), " ".join(f"{scan:02x}" for scan in scans(draw))
    table = f"mode = {mode}\nkeys = {quoted(typed)}\nkeymap = {quoted(text)}\n[include]\nmore = {quoted(more)}\n"
    names = bench.folder / f"map.{number}", bench.folder / f"more.{number}"
    for name, given in zip(names, (text, more), strict=True):
        name.write_text(given)
    wanted = bench.run([bench.vt, "type"], table.encode())
    ran = bench.run([program, mode, names[0], f"more={names[1]}"], typed.encode())
    for name in names:
        name.unlink()
    if wanted.returncode or ran.returncode:
        place = re.search(rb"at (\d+:\d+)", wanted.stderr)
        is_same = wanted.returncode == ran.returncode == 5 and place and place[0] in ran.stderr
        said = f"statuses {wanted.returncode}, {ran.returncode}: {wanted.stderr} {ran.stderr}"
        return None if is_same else said, False
    if wanted.stdout != ran.stdout or ran.stdout.count(b"\n") != SCANS:
        pairs = zip(wanted.stdout.split(b"\n"), ran.stdout.split(b"\n"))
        return next((f"line {n}: {a} and {b}" for n, (a, b) in enumerate(pairs, 1) if a != b), "lengths"), True
    return None, True


def check_keys(bench):
    """Random keymaps and keys."""
    program = bench.compiled("keys", [EXAMPLES / "keys.c"])
    if not program:
        return
    whole = 0
    with concurrent.futures.ThreadPoolExecutor(os.cpu_count()) as pool:
        for number, (found, is_whole) in enumerate(pool.map(lambda n: compare(bench, program, n), range(RUNS))):
            bench.holds(found is None, f"run {number} of keys is typed as vt type does: {found}")
            whole += is_whole
    bench.holds(whole >= RUNS * 3 // 4, f"{whole} of {RUNS} keymaps have no fault")
    for words, status in ((["3"], 1), (["5", "x"], 1), (["3", "/nowhere"], 2), (["3", "/dev/null", "x"], 1)):
        bench.holds(bench.run([program, *words]).returncode == status, f"keys.c ends with {status} for {words}")
    bench.holds(bench.run([program, 3, "/dev/null"], b"2").returncode == 5, "keys.c ends with 5 for half a byte")


def console_map(draw):
    """A keymap whose keys with Alt go to consoles; none ends a process."""
    text, more = keymap_text(draw, 0)
    text = text.replace('include "more"\n', more).replace(" SAK", " VoidSymbol").replace("1" * 255, "11")
    keys = [*(f"alt keycode {58 + n} = Console_{n}" for n in range(1, 8)), "alt keycode 66 = Last_Console",
            "alt keycode 67 = Incr_Console", "alt keycode 68 = Decr_Console", "keycode 56 = Alt"]
    return text + "\n".join(keys) + "\n"


def strokes(draw):
    """Keys of all kinds, many of them with Alt, which may stay down over a switch."""
    made = []
    for _ in range(STROKES):
        key = draw.randrange(59, 69)
        switch, typed = [56, key, key | 0x80, 56 | 0x80], scans(draw)[:8]
        made += draw.choice([switch, switch, [key, key | 0x80], [56], [56 | 0x80], [56 | 0x80], typed, typed, typed])
    return made


def console_lines(draw):
    """Consoles with their key states and texts, as consoles.c reads them and as items of a process."""
    lines, items = [], []
    for n in range(1, draw.randrange(3, 7)):
        mode = draw.choices([3, 1, 2, 0, 4], [8, 8, 1, 1, 1])[0]
        meta, flags, defaults = draw.choice([3, 4]), draw.randrange(8), draw.randrange(8)
        lights = draw.choice([255, 255, draw.randrange(8)])
        text = "".join(draw.sample(["\033[?1h", "\033=", "\033[?8l", "\033[20h", "x", "\033c"], 3)).encode().hex()
        lines.append(f"c {n} {mode} {meta} {flags} {defaults} {lights} {text}")
        items += [f"open {n}", f"write {n - 1} {text}", f"setkb {n - 1} {mode}", f"setmeta {n - 1} {meta}",
                  f"setflags {n - 1} {flags + 16 * defaults}", f"setled {n - 1} {min(lights, 8)}"]
    return lines, items


def played_consoles(bench, text, items, typed, consoles):
    """What `vt play` prints of it, in the form of consoles.c."""
    asks = [f"{call} {n}" for n in range(consoles) for call in ("getkb", "getmeta", "getled", "getflags")]
    script = ", ".join(f"'{item}'" for item in [*items, *asks])
    turns = [1] * (2 * len(items)) + [0] * len(typed)
    table = (f"rows = 3\ncols = 9\nconsoles = {list(range(1, consoles + 1))}\nkeys = '{' '.join(typed)}'\n"
             f"turns = {turns}\nkeymap = {quoted(text)}\n"
             f"[[process]]\nhome = 1\nprivileged = true\nscript = [{script}]\n")
    ran = bench.run([bench.vt, "play"], table.encode())
    said = ran.stdout.decode("utf-8", "replace")
    queues = re.findall(r"^%queue (\d+) 0 (\S+)$", said, re.M)
    states = [re.search(rf"^p1 \d+ {ask} = num (\d+)$", said, re.M) for ask in asks]
    if ran.returncode or len(queues) != consoles or None in states:
        return f"vt play ends with {ran.returncode}: {ran.stderr.decode()} {said[-300:]}"
    numbers = [it[1] for it in states]
    rows = [f"queue {n} {queue}\nstate {n} {' '.join(numbers[4 * at : 4 * at + 4])}\n"
            for at, (n, queue) in enumerate(queues)]
    return "".join(rows) + f"front {re.search('^%display ([0-9]+)', said, re.M)[1]}\n"


def compare_consoles(bench, programs, number):
    """One run over several consoles: what differs, or None; and how often a console got bytes."""
    draw = random.Random(f"consoles {number}")
    text, (lines, items) = console_map(draw), console_lines(draw)
    typed = [f"{scan:02x}" for scan in strokes(draw)]
    name = bench.folder / f"consoles.{number}"
    name.write_text(text)
    wanted = played_consoles(bench, text, items, typed, len(lines))
    given = "".join(f"{line}\n" for line in [*lines, f"k {' '.join(typed)}"]).encode()
    for program in programs:
        ran = bench.run([program, name], given)
        if ran.returncode or ran.stdout.decode() != wanted:
            return f"status {ran.returncode}: {ran.stdout.decode()[-900:]}, and not {wanted[-900:]}", 0
    name.unlink()
    return None, len(re.findall(r"^queue \d+ \w", wanted, re.M))


def check_consoles(bench):
    """Random keys over several consoles, each with its key state and modes."""
    source = [TESTS / "consoles.c"]
    programs = [bench.compiled("consoles", source), bench.compiled("consoles.san", source, SANITIZERS)]
    if None in programs:
        return
    typed_into = 0
    with concurrent.futures.ThreadPoolExecutor(os.cpu_count()) as pool:
        ran = pool.map(lambda n: compare_consoles(bench, programs, n), range(CONSOLE_RUNS))
        for number, (found, count) in enumerate(ran):
            bench.holds(found is None, f"run {number} of keys over consoles is typed as vt play types it: {found}")
            typed_into += count
    bench.holds(typed_into >= CONSOLE_RUNS, f"{typed_into} consoles get bytes")
    bench.holds(bench.run([programs[0]]).returncode == 1, "consoles ends with 1 without words")


def check_faults(bench):
    """Damaged keymaps: the kind, line and column of the first fault are those of `vt keys`."""
    program = bench.compiled("keys", [EXAMPLES / "keys.c"])
    if not program:
        return
    draw, seen = random.Random("faults"), set()
    for number in range(400):
        text = keymap_text(draw)[0].replace('include "more"\n', "").encode()
        for _ in range(draw.randrange(1, 3)):
            at = draw.randrange(len(text))
            damage = draw.choice([b"", b"x", b'"', b"\xff", b" ", b"\n", b"= ", b"999"])
            text = text[:at] + damage + text[at + draw.randrange(3):]
        name = bench.folder / "map"
        name.write_bytes(text)
        wanted = bench.run([bench.vt, "keys"], text)
        ran = bench.run([program, 3, name])
        fault = re.search(rb"refused (\d+) at (\d+:\d+)", wanted.stderr)
        line = b"keys: the keymap has fault: %s at %s\n" % fault.groups() if fault else b""
        seen.add(fault and fault[1])
        is_same = ran.stderr == line and ran.returncode == (5 if fault else 0)
        bench.holds(is_same, f"keymap {number}: {wanted.stderr}, {ran.stderr}")
    bench.holds(len(seen) > 4, f"several kinds of faults were tried, and not {seen}")
    name.write_bytes(b"keycode 30 = a\n")
    folder = os.open(bench.folder, os.O_RDONLY)
    ran = bench.run([program, 3, name], None, stdin=folder)
    os.close(folder)
    bench.holds(ran.returncode == 2, f"keys of an input that can't be read end with status 2, not {ran.returncode}")
