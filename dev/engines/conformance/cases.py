"""The cases of the corpus: each sequence by classes of parameters and states of the screen, pairs of them, and cuts.

`stored` makes the families of the stored corpus, by the names of their files; `random_case` makes any number more.
"""
import itertools
import random

from . import characters, pens_cases
from .forms import OWN_RULES, TOP, Case, paragraph
from .sequences import MACHINE_WIDE, NUMERIC, PLAIN
from .states import COLUMNS, OWN, ROWS, STATES, before

COUNT = 3000
RECORDINGS = ("listing", "pager", "editor", "monitor", "dialog", "progress")
OWN_CLASSES = {"many": "over 16 parameters"}
# The sequences after which blanks stand, or in which blanks come in by what is written after them.
BLANKING = {"ICH", "ED", "EL", "IL", "DL", "DCH", "ECH", "DECSTBM", "DECALN", "default-pair"}


def tried(sequence, name, state, *own):
    """A case of a sequence in a state of the screen."""
    data = before(state, sequence.at) + sequence.before + sequence.data + sequence.probe
    rule = OWN.get(state) if state != "pen" or sequence.name in BLANKING else None
    return Case(f"{name}/{state}", paragraph(sequence.of_page, sequence.own, rule, *own), ROWS, COLUMNS, data)


def numeric_cases():
    """Each control sequence with numbers, by classes of parameters and by states."""
    for row in NUMERIC:
        for kind, numbers in row.forms().items():
            own = [OWN_CLASSES.get(kind)]
            if row.name == "DECSTBM" and kind in ("1", "above"):
                own.append("a region that is refused")
            if row.name == "ED" and kind == "greatest":
                own.append("nothing scrolls back")
            for state in STATES:
                yield tried(row.sequence(numbers), f"{row.name}/{kind}", state, *own)


def plain_cases():
    """Each other sequence by states of the screen."""
    for sequence in PLAIN:
        for state in STATES:
            own = "CPR in origin mode" if (sequence.name, state) == ("CPR", "origin") else None
            yield tried(sequence, f"{sequence.name}/plain", state, own)


def all_sequences():
    """One form of each sequence."""
    return [row.sequence(row.middle) for row in NUMERIC] + PLAIN


def cut_cases():
    """Each sequence written byte by byte, and with a control character, CAN and another ESC inside."""
    for sequence in all_sequences():
        if len(sequence.data) < 2:
            continue
        whole = tried(sequence, f"{sequence.name}/cut", "pen")
        at = len(before("pen", sequence.at) + sequence.before)
        cuts = tuple(range(at + 1, at + len(sequence.data)))
        yield Case(whole.name, whole.paragraph, ROWS, COLUMNS, whole.data, cuts)
    inside = {"backspace": b"\b", "cancelled": b"\x18", "begun-again": b"\x1b[2"}
    for row in NUMERIC:
        sequence = row.sequence(row.middle)
        for kind, put in inside.items():
            data = sequence.data[:-1] + put + sequence.data[-1:]
            text = before("home", sequence.at) + b"\x1b[3;6H" + data + b"x"
            yield Case(f"{row.name}/{kind}/home", paragraph(sequence.of_page, sequence.own), ROWS, COLUMNS, text)


def circuit(pairs):
    """A closed walk in which each of these ordered pairs stands once."""
    left = {}
    for first, second in random.Random(0).sample(pairs, len(pairs)):
        left.setdefault(first, []).append(second)
    walk, stack = [], [pairs[0][0]]
    while stack:
        if left[stack[-1]]:
            stack.append(left[stack[-1]].pop())
        else:
            walk.append(stack.pop())
    return walk[::-1]


def parts_of_walk(pairs, count):
    """The walk over these pairs in so many parts; each begins with the sequence that ends the one before."""
    walk = circuit(pairs)
    ends = [len(pairs) * n // count for n in range(count + 1)]
    return [walk[start : end + 1] for start, end in itertools.pairwise(ends)]


def pair_cases(count):
    """Each ordered pair of sequences once, in so many cases: a letter is printed after each sequence.

    The pairs with a sequence that changes the machine come last, so that a Linux console can be asked about the others.
    """
    pairs = list(itertools.product(all_sequences(), repeat=2))
    changing = [pair for pair in pairs if any(MACHINE_WIDE.search(sequence.data) for sequence in pair)]
    others = [pair for pair in pairs if not any(MACHINE_WIDE.search(sequence.data) for sequence in pair)]
    last = count * len(changing) // len(pairs)
    parts = parts_of_walk(others, count - last) + parts_of_walk(changing, last)
    for number, part in enumerate(parts, 1):
        data = before("home", 0) + b"\x1b[3;6H"
        data += b"".join(sequence.data + bytes([97 + place % 26]) for place, sequence in enumerate(part))
        names = ", ".join(dict.fromkeys(sequence.name for sequence in part))
        rules = paragraph(f"console_codes(4): {names}", "the pending wrap")
        yield Case(f"pairs/{number}", rules, ROWS, COLUMNS, data)


def recording_cases():
    """What six programs wrote to a terminal."""
    for name in RECORDINGS:
        data = (TOP / "examples" / "recordings" / name).read_bytes()
        yield Case(f"recordings/{name}", "console_codes(4): what a program writes (examples/recordings)", 25, 80, data)


def stored():
    """The files of the stored corpus, each with its cases: COUNT of them together."""
    files = {
        "numbers": list(numeric_cases()), "sequences": list(plain_cases()), "pens": list(pens_cases.cases()),
        "characters": list(characters.cases()), "cuts": list(cut_cases()), "recordings": list(recording_cases()),
    }  # fmt: skip
    files["pairs"] = list(pair_cases(COUNT - sum(len(cases) for cases in files.values())))
    return files


def random_sequence(rng):
    """A sequence with numbers of any class, another one, an SGR, or some text."""
    how = rng.randrange(8)
    if how < 3:
        row = rng.choice(NUMERIC)
        return row.sequence(rng.choice(list(row.forms().values()))).data
    if how < 5:
        return rng.choice(PLAIN).data
    if how < 6:
        return b"\x1b[" + b";".join(rng.choice(pens_cases.WORDS).encode() for _ in range(rng.randint(1, 3))) + b"m"
    return rng.choice(characters.TEXTS)


def random_case(seed, number):
    """One of the cases beyond the stored corpus, by the seed and its number."""
    rng = random.Random(f"{seed} {number}")
    data = before(rng.choice(STATES), rng.randrange(3))
    data += b"".join(random_sequence(rng) + rng.choice([b"", b"x", b"yz"]) for _ in range(rng.randint(1, 8)))
    cuts = tuple(sorted(rng.sample(range(1, len(data)), rng.choice([0, 0, 1, 3]))))
    return Case(f"more-{seed}/{number}", f"{OWN_RULES}, with console_codes(4)", ROWS, COLUMNS, data, cuts)
