"""The shortest text that still differs: parts are left out of a case as long as engine and machine differ.

First whole sequences and characters of the text go, as many at once as can be, and then bytes inside of a sequence, as
long as it stays that sequence. The same parts of the screen go on to differ, so that one cause isn't lost for another.
"""
from dataclasses import replace

from .compare import compared
from .judge import judge
from .words import UNITS

ROUNDS = 400


def atoms_of(data):
    """The sequences and control characters of a text, and its other characters one by one."""
    atoms, at = [], 0
    for found in UNITS.finditer(data):
        atoms += [data[at : found.start()]] if found.start() > at else []
        unit = found[0]
        if unit < b" " or unit[:1] == b"\x7f" or unit[:2] == b"\xc2\x9b":
            atoms.append(unit)
        else:
            atoms += [it.encode("utf-8", "surrogateescape") for it in unit.decode("utf-8", "surrogateescape")]
        at = found.end()
    return atoms + ([data[at:]] if at < len(data) else [])


def kinds_of(data):
    """What stays of a text that is cut inside of its sequences: how each begins and ends."""
    units = [found[0] for found in UNITS.finditer(data)]
    return [(unit[:2], unit[-1:]) if unit[:1] == b"\x1b" else unit[:1] < b" " for unit in units]


def still_differing(program, engine, candidates, parts):
    """The first of the candidates in which the engine differs in these parts, or None."""
    if not candidates:
        return None
    afters = judge(program, candidates)
    cases = [replace(case, after=after) for case, after in zip(candidates, afters, strict=True)]
    results = [compared(*it) for it in zip(cases, engine.answers(cases), strict=True)]
    return next((it for it in results if it.parts == parts), None)


def without(atoms, size):
    """The texts that lack so many atoms, at each place, and that are not empty."""
    made = [b"".join(atoms[:at] + atoms[at + size :]) for at in range(0, len(atoms), size)]
    return [data for data in made if data]


def lessened(program, engine, result, atoms_in, keeps):
    """The result of a text of which no atom can be left out."""
    size = max(len(atoms_in(result.case.data)) // 2, 1)
    for _ in range(ROUNDS):
        texts = [data for data in without(atoms_in(result.case.data), size) if keeps(data, result.case.data)]
        candidates = [result.case.with_data(data) for data in texts]
        found = still_differing(program, engine, candidates, result.parts)
        if found:
            result = found
        elif size == 1:
            break
        else:
            size = max(size // 2, 1)
    return result


def cut_down(program, engine, result):
    """The result of the case's shortest text."""
    whole = still_differing(program, engine, [result.case.with_data(result.case.data)], result.parts)
    if whole is None:
        return result  # it is its cuts that make it differ
    result = lessened(program, engine, whole, atoms_of, lambda _data, _old: True)
    bytes_in = lambda data: [bytes([byte]) for byte in data]  # noqa: E731
    return lessened(program, engine, result, bytes_in, lambda data, old: kinds_of(data) == kinds_of(old))
