"""What stands on the proved machine's screen: cases are played by `vt play`, a console for each.

A session has a process for each of up to 63 cases of one size. It opens a console of its own, writes the case's pieces,
and dumps the attributes and the characters; the text after the journal has the cursor, the bells and the reports.
"""
import re
import subprocess
from concurrent.futures import ThreadPoolExecutor

from .forms import Fault

CONSOLES = 63
LONGEST_WRITE = 4096
MOST_ITEMS = 10_000
HALF = 0x110000
PLAIN = 7
AT_ONCE = 2
SECONDS = 600


def writes_of(case):
    """The case's pieces, none longer than a call takes."""
    return [piece[at : at + LONGEST_WRITE] for piece in case.pieces() for at in range(0, len(piece), LONGEST_WRITE)]


def session_of(cases):
    """The session that gives each case a console, in their order from 1."""
    consoles = ", ".join(str(n) for n in range(1, len(cases) + 1))
    text = [f"rows = {cases[0].rows}", f"cols = {cases[0].columns}", f"consoles = [{consoles}]"]
    text += ["events = 1000000", "bytes = 1073741824"]
    for n, case in enumerate(cases, 1):
        items = [f"open {n}", *(f"write 0 {piece.hex()}" for piece in writes_of(case)), f"dump 1 {n}", f"dump 2 {n}"]
        script = ",".join(f"'{item}'" for item in items)
        text += ["[[process]]", f"home = {n}", "privileged = true", f"script = [{script}]"]
    return "\n".join(text) + "\n"


def runs_of(attributes, columns):
    """The runs of cells whose byte isn't that of the start screen, row by row."""
    runs = []
    for place, byte in enumerate(attributes):
        row, column = divmod(place, columns)
        if byte == PLAIN:
            continue
        last = runs[-1] if runs else None
        if last and last[0] == row and last[1] + last[2] == column and last[3] == byte:
            last[2] += 1
        else:
            runs.append([row, column, 1, byte])
    return runs


def text_of(codes, rows, columns):
    """The rows as strings, without the blanks at their ends; a wide character's second cell has no part in them."""
    cells = [int.from_bytes(codes[at : at + 4], "little") for at in range(0, len(codes), 4)]
    shown = [cells[row * columns : (row + 1) * columns] for row in range(rows)]
    return ["".join(chr(code) for code in row if code != HALF).rstrip(" ") for row in shown]


def afters_of(printed, cases):
    """What stands after each case, by what the play of their session printed."""
    dumped = re.findall(r" dump (\d) (\d+) = bytes (\w+)\n", printed)
    dumps = {(int(kind), int(n)): bytes.fromhex(given) for kind, n, given in dumped}
    screens = re.findall(r"^%screen (\d+) \d+ \d+ (\d+) (\d+) (\d+)$", printed, re.M)
    queues = dict(re.findall(r"^%queue (\d+) 0 (\S+)$", printed, re.M))
    told = {int(n): ([int(y), int(x)], int(bells)) for n, x, y, bells in screens}
    afters = []
    for n, case in enumerate(cases, 1):
        if (1, n) not in dumps or (2, n) not in dumps or n not in told or str(n) not in queues:
            raise Fault(f"{case.name}: vt play printed no dump, screen or queue of it")
        queue = queues[str(n)]
        afters.append({
            "text": text_of(dumps[2, n], case.rows, case.columns), "cursor": told[n][0],
            "attributes": runs_of(dumps[1, n][5::2], case.columns),
            "reports": "" if queue == "-" else bytes.fromhex(queue).decode("latin-1"), "bells": told[n][1],
        })  # fmt: skip
    return afters


def play(program, cases):
    """What stands after each of these cases of one size."""
    words = [str(program), "play"]
    try:
        ran = subprocess.run(words, input=session_of(cases).encode(), capture_output=True, timeout=SECONDS, check=False)
    except subprocess.TimeoutExpired:
        raise Fault(f"{program}: the play of {cases[0].name} and {len(cases) - 1} more took over {SECONDS} s") from None
    except OSError as fault:
        raise Fault(f"{program}: the program vt was wanted there, or by --vt: {fault.strerror}") from None
    if ran.returncode:
        raise Fault(f"{program}: the play of {cases[0].name} ended with {ran.returncode}: {ran.stderr[:200]!r}")
    return afters_of(ran.stdout.decode("ascii", "replace"), cases)


def batches_of(cases):
    """Places of the cases, in batches of one size that a session can hold."""
    batches, open_ones = [], {}
    for place, case in enumerate(cases):
        size = (case.rows, case.columns)
        batch, items = open_ones.get(size, (None, 0))
        if batch is None or len(batch) == CONSOLES or items + len(case.cuts) > 20 * MOST_ITEMS:
            batch, items = [], 0
            batches.append(batch)
        if len(writes_of(case)) > MOST_ITEMS:
            raise Fault(f"{case.name}: at most {MOST_ITEMS} writes were wanted, and it has {len(writes_of(case))}")
        batch.append(place)
        open_ones[size] = (batch, items + len(case.cuts))
    return batches


def judge(program, cases):
    """What stands after each case, in their order."""
    batches, afters = batches_of(cases), [None] * len(cases)
    with ThreadPoolExecutor(AT_ONCE) as pool:
        played = pool.map(lambda batch: play(program, [cases[n] for n in batch]), batches)
        for batch, found in zip(batches, played, strict=True):
            for place, after in zip(batch, found, strict=True):
                afters[place] = after
    return afters
