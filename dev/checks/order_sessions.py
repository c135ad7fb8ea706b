"""Makes small sessions and questions about them from numbers, for dev/checks/check_explore.py.

`session(seed)` is the text of a session, always the same for a seed; `questions(seed, count)` are questions about it,
each with the same written without names (docs/reference/explore.md, "Questions").
"""
import random

KEYMAP = '''keymap = """
keymaps 0,8
keycode 56 = Alt
keycode 88 = SAK
alt keycode 59 = Console_1
alt keycode 60 = Console_2
alt keycode 61 = Console_3
"""
'''
STROKES = ["38 3b", "38 3c", "38 3d", "58"]
SIGNALS = [10, 12, 15]
CONSOLES = [1, 2, 3]


def item(chance, processes):
    """One item of a script."""
    n, other = chance.choice(CONSOLES), chance.choice(CONSOLES)
    kinds = [
        (8, f"activate 0 {n}"), (5, f"waitactive 0 {n}"), (4, f"setmode 0 1 0 {chance.choice((10, 12))} 12 0"),
        (1, "setmode 0 0 0 0 0 0"), (4, f"setkd 0 {chance.randrange(2)}"), (4, "waitsignal"),
        (3, f"reldisp 0 {chance.choice((0, 1, 1, 2))}"), (1, "lock 0"), (1, "unlock 0"), (2, "getstate 0"),
        (2, f"kill {chance.randint(1, processes)} {chance.choice((*SIGNALS, 9))}"), (1, f"open {other}"),
        (1, f"activate 1 {n}"),
    ]  # fmt: skip
    return chance.choices([words for _, words in kinds], [weight for weight, _ in kinds])[0]


def hooks(chance):
    acts = ["disp 0 1", "disp 0 1", "disp 0 2", "disp 0 0", "nothing", "leave"]
    return [f"{number} {chance.choice(acts)}" for number in SIGNALS if chance.random() < 0.6]


def session(seed):
    chance = random.Random(seed)
    processes = chance.choice([2, 2, 3])
    lines = ["rows = 2", "cols = 10", f"consoles = {CONSOLES[:chance.randint(2, 3)]}"]
    if chance.random() < 0.25:
        lines += [f'keys = "{chance.choice(STROKES)}"', KEYMAP]
    for n in range(1, processes + 1):
        script = [f"open {n}", *(item(chance, processes) for _ in range(chance.randint(1, 5 - processes + 1)))]
        lines += ["[[process]]", f"home = {n}"]
        lines += ["privileged = true"] if chance.random() < 0.4 else []
        lines += [f"script = {script}".replace("'", '"'), f"hooks = {hooks(chance)}".replace("'", '"')]
    return "\n".join(lines) + "\n"


def condition(chance, caller, n):
    """A condition, and the same without names."""
    s = chance.choice(SIGNALS)
    call = chance.choice(["waitend", "activate", f"activate * {n}", "reldisp * 1", "kill", "exit", "setkd 0 1", "signals"])
    answer = chance.choice(["ok", "err", "err 22", "err 4", "wait", "num 0", "sigs", f"sigs {1 << (s - 1)}", f"state {n}"])
    plain = chance.choice([
        f"by {caller}", f"call {call}", f"= {answer}", f"front {n}", f"pending {n}", "pending", f"graphics {n}",
        f"owner {n} {caller}", f"owner {n}", "locked", f"lives {caller}", f"waiting {caller}", f"signals {caller}",
        f"signals {caller} {s}", f"open {caller} {n}", "ended", "stuck",
    ])  # fmt: skip
    named = [
        (f"waits {caller}", f"by {caller} and call waitend and = err 4 and not signals {caller}"),
        (f"ends {n}", f"ended and front {n}"),
        (f"refused {caller}", f"by {caller} and = err *"),
        (f"refused {caller} ebusy", f"by {caller} and = err 16"),
        (f"refused {caller} einval reldisp", f"by {caller} and = err 22 and call reldisp * *"),
        (f"false-ack {caller} {n}", f"by {caller} and call reldisp * 2 and = ok and not front {n}"),
    ]
    kind = chance.random()
    if kind < 0.3:
        return chance.choice(named)
    return (f"not {plain}", f"not {plain}") if kind < 0.5 else (plain, plain)


def questions(seed, count):
    chance = random.Random(-seed - 1)
    made = []
    for _ in range(count):
        caller = chance.choice(["p1", "p2", "p2", "k0"])
        parts = [condition(chance, caller, chance.choice(CONSOLES)) for _ in range(chance.choice((1, 2, 2, 3)))]
        made.append((" and ".join(text for text, _ in parts), " and ".join(plain for _, plain in parts)))
    return made
