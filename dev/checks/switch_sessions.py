"""Makes sessions about switches from numbers: servers, requests, signals, waits, locks, deaths and keys.

`session(seed)` is the text of one, always the same for a seed. It holds only what dev/checks/second_reader.py reads.
"""
import random

KEYMAP = """
keymaps 0,8
keycode 30 = a
keycode 56 = Alt
keycode 88 = SAK
alt keycode 59 = Console_1
alt keycode 60 = Console_2
alt keycode 61 = Console_3
alt keycode 62 = Console_4
alt keycode 63 = Console_5
alt keycode 64 = Last_Console
alt keycode 65 = Incr_Console
alt keycode 66 = Decr_Console
alt keycode 67 = KeyboardSignal
"""
ALT, LETTER, SAK, UP = 0x38, 0x1E, 0x58, 0x80
MOST = 6


def strokes(chance, count):
    """Scan bytes of so many keys, each with Alt or alone; now and then a key stays down."""
    made = []
    for _ in range(count):
        kind = chance.randrange(20)
        if kind < 13:
            key = chance.randrange(0x3B, 0x44)
            made += [ALT, key, key + UP, ALT + UP]
        elif kind < 17:
            made += [LETTER, LETTER + UP]
        elif kind == 17:
            made += [SAK, SAK + UP]
        else:
            made.append(chance.choice([ALT, ALT + UP, chance.randrange(0x3B, 0x44), LETTER]))
    return " ".join(f"{byte:02x}" for byte in made)


def sequence(chance):
    """The bytes of a write: a text, a request for a console, or a query that is answered."""
    number = chance.randrange(8)
    request = b"\x1b[12;%d]" % number
    return chance.choice([b"a", request, b"\x1b[15]", b"\x1b[6n", b"\x1b[5n", b"x" + request + b"y"]).hex()


def call(chance, processes):
    """One item of a script."""
    fd = chance.choice([0, 0, 0, 0, 1])
    number = chance.randrange(1, MOST + 1)
    kinds = [
        (12, f"activate {fd} {number}"),
        (6, f"reldisp {fd} 1"),
        (2, f"reldisp {fd} 0"),
        (1, f"reldisp {fd} {chance.randrange(2, 4)}"),
        (7, f"waitactive {fd} {number}"),
        (6, "waitsignal"),
        (2, f"waitinput {fd}"),
        (4, f"setmode {fd} 1 0 {chance.choice([10, 10, 10, 20, 9])} {chance.choice([12, 12, 22])} 0"),
        (2, f"setmode {fd} 0 0 0 0 0"),
        (3, f"setkd {fd} {chance.randrange(2)}"),
        (1, f"setkb {fd} {chance.choice([0, 2, 3, 3, 4])}"),
        (1, f"lock {fd}"),
        (1, f"unlock {fd}"),
        (3, f"kill {chance.randrange(1, processes + 1)} {chance.choice([10, 12, 15, 15, 9])}"),
        (1, f"accept {fd} {chance.choice([10, 15])}"),
        (2, f"open {chance.randrange(MOST + 1)}"),
        (1, f"close {fd}"),
        (2, f"disallocate {fd} {chance.randrange(MOST + 1)}"),
        (4, f"getstate {fd}"),
        (4, f"write {fd} {sequence(chance)}"),
        (1, f"read {fd} 64"),
    ]
    return chance.choices([words for _, words in kinds], [weight for weight, _ in kinds])[0]


def process(chance, number, processes):
    """One process: in half of them it owns its console and answers by hooks."""
    home = chance.choice([number, number, chance.randrange(MOST + 1)]) % (MOST + 1)
    script = [f"open {home}"]
    if chance.randrange(2):
        script.append("setmode 0 1 0 10 12 0")
    if chance.randrange(4) == 0:
        script.append("setkd 0 1")
    script += [call(chance, processes) for _ in range(chance.randrange(2, 24))]
    hooks = [
        chance.choice(["10 disp 0 1", "10 disp 0 1", "10 disp 0 1", "10 disp 0 0", "10 leave", "10 nothing"]),
        "12 disp 0 2",
        chance.choice(["15 leave", "15 nothing", "15 put 0 61"]),
    ]
    lines = ["[[process]]", f"home = {home}", f"privileged = {'true' if chance.randrange(3) else 'false'}"]
    lines.append("script = [" + ", ".join(f'"{words}"' for words in script) + "]")
    lines.append("hooks = [" + ", ".join(f'"{words}"' for words in chance.sample(hooks, chance.randrange(4))) + "]")
    return lines


def session(seed):
    """The session of a number."""
    chance = random.Random(f"switches {seed}")
    consoles = sorted({1, *(chance.randrange(1, MOST + 1) for _ in range(chance.randrange(4)))})
    processes = chance.randrange(1, 9)
    further = [strokes(chance, chance.randrange(6)) for _ in range(chance.choice([0, 0, 0, 1, 2, 3]))]
    lines = ["rows = 2", "cols = 10", f"consoles = {consoles}", f"front = {chance.choice(consoles)}"]
    lines.append(f'keys = "{strokes(chance, chance.randrange(12))}"')
    if further:
        lines.append("more_keys = [" + ", ".join(f'"{text}"' for text in further) + "]")
    callers = [0, *range(1, processes + 1), *range(65, 65 + len(further))]
    turns = [chance.choice(callers) for _ in range(chance.choice([0, 20, 100]))]
    lines += [f"turns = {turns}", f"keymap = '''{KEYMAP}'''"]
    for number in range(1, processes + 1):
        lines += process(chance, number, processes)
    return "\n".join(lines) + "\n"
