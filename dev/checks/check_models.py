#!/usr/bin/env python3
"""Runs Spin on the models of dev/models (dev/models/README.md), if it is installed.

usage: check_models.py [--long]
       check_models.py --sums

Every row of the table has to come out as it states: a model is right, or Spin finds the mistake that was planted in
it. The functions that the models were made from have to be those of dev/models/functions: the tool names each one that
differs. `--long` also runs the rows that take more than some seconds. `--sums` writes the sums of the functions as they
stand into dev/models/functions, after the model was compared with them.

Ends with status 1 if a row or a function differs, and 2 if a model can't be made. If spin or gcc is missing, it prints
that it skips the models, and compares the functions all the same.
"""
import hashlib
import pathlib
import re
import shutil
import subprocess
import sys
import tempfile

sys.dont_write_bytecode = True
sys.path.insert(0, str(pathlib.Path(__file__).resolve().parents[1]))

from repository import TOP  # noqa: E402: after the folder that it stands in

MODELS = TOP / "dev/models"
SUMS = MODELS / "functions"
RIGHT, WRONG = "right", "wrong"
SECONDS = 900                   # of one row, at most

# Model, definitions, what has to come of it, and whether it runs without --long.
ROWS = [
    ("turn_lock", "CALLERS=2", RIGHT, True),
    ("turn_lock", "CALLERS=3", RIGHT, True),
    ("turn_lock", "MUTATION=NO_EXCHANGE", WRONG, True),
    ("turn_lock", "MUTATION=NO_RING_AT_THE_DOOR", WRONG, True),
    ("turn_lock", "MUTATION=DOOR_LOOKS_FIRST", WRONG, True),
    ("turn_lock", "MUTATION=LOCK_BEFORE_NUMBER", WRONG, True),
    ("turn_lock", "MUTATION=FREE_CALLS_NOBODY", WRONG, True),
    ("turn_lock", "MUTATION=LEAVE_CALLS_NOBODY", WRONG, True),
    ("turn_lock", "MUTATION=NO_RING_FOR_A_TICKET", WRONG, True),
    ("turn_lock", "MUTATION=TICKET_LOOKS_FIRST", WRONG, True),
    ("turn_lock", "MUTATION=CALLS_NOW_AND_THEN", WRONG, True),
    ("turn_lock", "MUTATION=RING_BEFORE_SERVING", WRONG, True),
    ("turn_lock", "MUTATION=CALL_BEFORE_SERVING", WRONG, True),
    ("turn_lock", "MUTATION=ENTERED_NOT_COUNTED", WRONG, True),
    ("turn_lock", "DIES=1", WRONG, True),
    ("turn_lock", "MUTATION=NEXT_BEFORE_SERVING", RIGHT, False),
    ("turn_lock", "MUTATION=DUE_WITH_NOBODY_COMING", RIGHT, False),
    ("turn_lock", "CALLERS=2 WAITS=1 SEALS=1", RIGHT, True),
    ("turn_lock", "WAITS=2 SEALS=1 MUTATION=SEAL_RINGS_NOBODY", WRONG, True),
    ("turn_lock", "WAITS=2 SEALS=1 MUTATION=HUB_LOOKS_FIRST", WRONG, True),
    ("turn_lock", "WAITS=2 SEALS=1", RIGHT, False),
    ("event_count", "WAITERS=2 SPURIOUS=2", RIGHT, True),
    ("event_count", "WAITERS=3 SPURIOUS=2", RIGHT, False),
    ("event_count", "MUTATION=RING_BEFORE_WORD", WRONG, True),
    ("event_count", "MUTATION=LOOK_BEFORE_ANNOUNCED", WRONG, True),
    ("event_count", "MUTATION=EPOCH_READ_LATE", WRONG, True),
    ("event_count", "MUTATION=NO_EPOCH", WRONG, True),
    ("event_count", "MUTATION=PARK_DOES_NOT_COMPARE", WRONG, True),
    ("display", "", RIGHT, True),
    ("display", "MUTATION=STAYS_PENDING", WRONG, True),
    ("display", "NEVER_ENDS_ON=1", WRONG, True),
    ("display", "NEVER_ENDS_ON=2", WRONG, True),
    ("display", "NEVER_ENDS_ON=3", WRONG, True),
]

# The functions that the models were made from.
FUNCTIONS = [
    ("crates/turn_lock/src/lock.rt", ["enter", "stand_aside", "is_busy", "idle", "take", "announced"]),
    ("crates/turn_lock/src/held.rt", ["leave"]),
    ("crates/turn_lock/src/door.rt", ["visit", "wait", "since", "is_due", "call"]),
    ("crates/turn_lock/src/bells.rt", ["announced", "ring", "bell"]),
    ("crates/vt_hub/src/hub.rt", ["wait_end", "turn"]),
    ("crates/vt_hub/src/wake_ups.rt", ["prepare_wait", "wake", "ring", "wake_all"]),
]


class Stop(Exception):
    """Why the tool ends: a status and its message."""

    def __init__(self, status, message):
        super().__init__(message)
        self.status = status


def body(text, name, path):
    """The code of a function, without comments, clauses and spaces."""
    text = re.sub(r"//[^\n]*", "", text)
    found = re.search(rf"\bfn {name}\b", text)
    if not found:
        raise Stop(1, f"{path}: there is no function `{name}`, which a model was made from")
    start = text.find("\n    {\n", found.end())
    inline = re.compile(r"[^{};]*\{").match(text, found.end())
    if inline and "requires" not in inline.group() and "ensures" not in inline.group():
        start = inline.end() - 1
    depth = 0
    for place in range(start, len(text)):
        depth += {"{": 1, "}": -1}.get(text[place], 0)
        if depth == 0 and text[place] == "}":
            return "".join(text[start : place + 1].split())
    raise Stop(1, f"{path}: `{name}` has no end")


def sums():
    """A line for each function: its file, its name, and the sum of its code."""
    lines = []
    for path, names in FUNCTIONS:
        try:
            text = (TOP / path).read_text(encoding="utf-8")
        except (OSError, UnicodeDecodeError) as fault:
            raise Stop(1, f"{path}: {getattr(fault, 'strerror', None) or fault}") from None
        for name in names:
            code = body(text, name, path)
            lines.append(f"{path} {name} {hashlib.sha256(code.encode()).hexdigest()[:16]}")
    return lines


def compare():
    """Names the functions that aren't those of dev/models/functions; whether there are none."""
    try:
        stored = SUMS.read_text(encoding="utf-8").split("\n")
    except (OSError, UnicodeDecodeError) as fault:
        raise Stop(1, f"{SUMS}: {getattr(fault, 'strerror', None) or fault}") from None
    stored = [line for line in stored if line and not line.startswith("#")]
    now = sums()
    for line in now:
        if line not in stored:
            path, name, _ = line.split()
            print(f"{path}: `{name}` isn't the function that the model was made from: compare it with the model, "
                  "and then run dev/checks/check_models.py --sums")
    for line in stored:
        if line not in now and line.rsplit(" ", 1)[0] not in [it.rsplit(" ", 1)[0] for it in now]:
            print(f"dev/models/functions: `{line}` is a line of no function")
    return stored == now


def command(words, folder, seconds=SECONDS):
    """What a command prints."""
    try:
        done = subprocess.run(words, cwd=folder, capture_output=True, text=True, errors="replace", timeout=seconds)
    except OSError as fault:
        raise Stop(2, f"{words[0]}: {fault.strerror}") from None
    except subprocess.TimeoutExpired:
        raise Stop(2, f"{' '.join(words)}: not over after {seconds} seconds") from None
    if done.returncode != 0:
        raise Stop(2, f"{' '.join(words)}: {(done.stderr or done.stdout).strip()}")
    return done.stdout


def run(name, definitions, is_long_search):
    """Whether Spin finds the model right, and how many states it has."""
    with tempfile.TemporaryDirectory() as folder:
        shutil.copy(MODELS / f"{name}.pml", folder)
        command(["spin", "-a", *(f"-D{it}" for it in definitions.split()), f"{name}.pml"], folder)
        level = "-O2" if is_long_search else "-O0"
        command(["gcc", level, "-w", "-DSAFETY", "-DCOLLAPSE", "-o", "pan", "pan.c"], folder)
        # A caller may wait for an event that nobody brings, so Spin's own check of ends is off (-E): the models have
        # theirs.
        printed = command(["./pan", "-E", "-m4000000"], folder)
    errors = re.search(r"errors: (\d+)", printed)
    states = re.search(r"(\d+) states, stored", printed)
    unread = re.search(r"max search depth too small|out of memory|interrupted", printed)
    if not errors or not states or unread:
        raise Stop(2, f"dev/models/{name}.pml, {definitions}: the search isn't whole")
    return errors.group(1) == "0", int(states.group(1))


def check(is_long):
    whole = compare()
    for tool in ("spin", "gcc"):
        if not shutil.which(tool):
            print(f"skipped: the models: {tool} isn't installed")
            return whole
    rows = 0
    for name, definitions, wanted, is_short in ROWS:
        if not is_short and not is_long:
            continue
        rows += 1
        is_right, states = run(name, definitions, wanted == RIGHT)
        if is_right != (wanted == RIGHT):
            found = "no mistake" if is_right else "a mistake"
            print(f"dev/models/{name}.pml, {definitions}: Spin found {found} in {states:,} states")
            whole = False
    if whole:
        print(f"{rows} rows came out as they should, and the functions are those of the models")
    return whole


def main():
    words = sys.argv[1:]
    try:
        if words == ["--sums"]:
            head = "# The functions that the models were made from, by dev/checks/check_models.py --sums.\n"
            SUMS.write_text(head + "\n".join(sums()) + "\n", encoding="utf-8")
        elif words in ([], ["--long"]):
            sys.exit(0 if check(words == ["--long"]) else 1)
        else:
            sys.exit(__doc__)
    except Stop as stop:
        print(stop, file=sys.stderr)
        sys.exit(stop.status)
    except KeyboardInterrupt:
        sys.exit(130)


if __name__ == "__main__":
    main()
