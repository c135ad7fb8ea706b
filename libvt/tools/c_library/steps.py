"""Texts and resizes on a screen, a step at a time: the screen after each is that of a console of `vt play`."""
import concurrent.futures
import os
import random

from check_redraw import stream, writes_of
from console_play import ATTRIBUTES, CODES, Console, bytes_of

from .bench import SANITIZERS, TESTS

RUNS = 200
SIZES = [(1, 1), (1, 9), (2, 2), (3, 7), (5, 17), (6, 80), (25, 80), (40, 132)]


def steps(draw):
    """The lines of a run, and the calls of a process that does the same."""
    lines, calls = [], []
    for _ in range(draw.randrange(2, 12)):
        if draw.random() < 0.3:
            rows, cols = draw.choice([*SIZES, (draw.randrange(1, 60), draw.randrange(1, 100))])
            lines.append(f"r {rows} {cols}")
            calls.append(f"resize 0 {rows} {cols}")
        else:
            text = stream(draw)
            lines.append(f"w {text.hex()}")
            calls += writes_of(text)
        calls += [ATTRIBUTES, CODES]
    return lines, calls


def line_of(attributes, codes):
    """The line of a step, of the two dumps of a console."""
    rows, cols, x, y = attributes[:4]
    numbers = [int.from_bytes(codes[at : at + 4], "little") for at in range(0, len(codes), 4)]
    return f"{rows} {cols} {x} {y} {attributes[5::2].hex()} {''.join(f'{it:06x}' for it in numbers)}"


def compare(bench, programs, number):
    """One run: what differs, or None; and how often it was resized."""
    draw = random.Random(f"steps {number}")
    rows, cols = draw.choice(SIZES)
    lines, calls = steps(draw)
    answers = [bytes_of(it) for it in Console(bench.vt).play(rows, cols, calls).answers]
    wanted = [line_of(*answers[at : at + 2]) for at in range(0, len(answers), 2)]
    resizes = sum(line.startswith("r") for line in lines)
    for program in programs:
        ran = bench.run([program, rows, cols], "".join(f"{line}\n" for line in lines).encode())
        found = ran.stdout.decode("utf-8", "replace").splitlines()
        if ran.returncode or found != wanted:
            pairs = enumerate(zip(wanted, found))
            first = next((f"step {at}: {a[:300]} and {b[:300]}" for at, (a, b) in pairs if a != b), "the lengths")
            return f"status {ran.returncode}, {ran.stderr[-500:]}, {first}", resizes
    return None, resizes


def check_steps(bench):
    """Random texts and resizes, plainly and with sanitizers."""
    programs = [bench.compiled("steps", [TESTS / "steps.c"]), bench.compiled("steps.san", [TESTS / "steps.c"], SANITIZERS)]
    if None in programs:
        return
    resizes = 0
    with concurrent.futures.ThreadPoolExecutor(os.cpu_count()) as pool:
        for number, (found, count) in enumerate(pool.map(lambda n: compare(bench, programs, n), range(RUNS))):
            bench.holds(found is None, f"run {number} of texts and resizes leaves the screens of vt play: {found}")
            resizes += count
    bench.holds(resizes >= RUNS, f"{resizes} resizes are made")
    for words in (["5"], ["0", "5"], ["5", "256"]):
        bench.holds(bench.run([programs[0], *words]).returncode == 1, f"steps ends with 1 for {words}")
