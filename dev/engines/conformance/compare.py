"""Answers beside what has to stand, and the table of sequences and engines."""
from dataclasses import dataclass, field

from .adapters import CaseFault
from .forms import PARTS
from .sequences import CONTROLS, ESCAPES, NUMERIC, REST, SWITCHES
from .vcs import ALONE

SAME, LINUX, NOT_COMPARED = "same", "linux", "not compared"
# The kinds of results, in the order of the table: a case that differs is of its source's kind, or of LINUX.
KINDS = (SAME, "page", "own", LINUX, NOT_COMPARED)
DIFFERING = KINDS[1:4]
PAGE_KINDS = (SAME, "page", NOT_COMPARED)
HEADS = {SAME: "same", "page": "page", "own": " own", LINUX: "linux", NOT_COMPARED: "not"}
NOTHING = {"attributes": [], "reports": "", "bells": 0}
ORDER = {sequence.name: place for place, sequence in enumerate([*CONTROLS, *ESCAPES, *NUMERIC, *REST, *SWITCHES])}


@dataclass
class Result:
    """One case and one engine: what it answered, in which parts that differs, and which parts it left out."""

    case: object
    answer: object
    parts: list = field(default_factory=list)
    left_out: list = field(default_factory=list)

    @property
    def fault(self):
        """Why there is no answer, or None."""
        return str(self.answer) if isinstance(self.answer, CaseFault) else None

    @property
    def kind(self):
        """Whether the case is the same, isn't compared whole, or by which source it differs.

        It is LINUX if a Linux console has another value too in each part that differs.
        """
        if self.parts and set(self.parts) <= set(self.case.linux or ()):
            return LINUX
        if self.fault or self.parts:
            return self.case.source
        return NOT_COMPARED if self.left_out else SAME

    @property
    def is_as_linux(self):
        """Whether a case that differs is as the Linux console shows it, whose marks of halves no engine has."""
        if self.kind != LINUX:
            return False
        shown = {**self.case.linux, "text": [row.replace(ALONE, "") for row in self.case.linux.get("text", [])]}
        return all(self.answer[part] in (shown[part], self.case.linux[part]) for part in self.parts)


def compared(case, answer):
    """The result of one case. A part that is left out matters where something has to stand in it."""
    result = Result(case, answer)
    if not result.fault:
        result.parts = [part for part in PARTS if part in answer and answer[part] != case.after[part]]
        result.left_out = [part for part in PARTS if part not in answer and case.after[part] != NOTHING.get(part)]
    return result


def counts_of(results):
    """How many of the results are of each kind."""
    kinds = [result.kind for result in results]
    return {kind: kinds.count(kind) for kind in KINDS}


def differing(results):
    """How many of the results differ."""
    return sum(result.kind in DIFFERING for result in results)


def groups_of(cases):
    """The sequences that cases are about, in the order of console_codes(4), and then what is of no sequence."""
    return sorted(dict.fromkeys(case.group for case in cases), key=lambda group: ORDER.get(group, len(ORDER)))


def table(cases, results, kinds=KINDS):
    """The lines of the table: a row for each sequence, the count of each kind for each engine, and the sums."""
    width = max(len(group) for group in [*groups_of(cases), "sequence"])
    heads = " ".join(HEADS[kind] for kind in kinds)
    rows = [["sequence", *results], ["", *[heads] * len(results)]]
    for group in [*groups_of(cases), "all"]:
        cells = []
        for found in results.values():
            counts = counts_of([it for it in found if group in ("all", it.case.group)])
            cells.append(" ".join(f"{counts[kind]:{len(HEADS[kind])}}" for kind in kinds))
        rows.append([group, *cells])
    return [f"{row[0]:{width}}" + "".join(f"  {cell:{len(heads)}}" for cell in row[1:]).rstrip() for row in rows]


def notes(name, found):
    """The lines after the table for one engine: parts that weren't compared, those that differ, and named faults."""
    left_out = {part: sum(part not in it.answer for it in found if not it.fault) for part in PARTS}
    told = [f"{part} of {count} cases" for part, count in left_out.items() if count]
    lines = [f"{name}: not compared: {', '.join(told)}"] if told else []
    differs = {part: sum(part in it.parts for it in found) for part in PARTS}
    told = [f"{part} in {count}" for part, count in differs.items() if count]
    lines += [f"{name}: differs: {', '.join(told)}"] if told else []
    count, alike = sum(it.kind == LINUX for it in found), sum(it.is_as_linux for it in found)
    lines += [f"{name}: as the Linux console: {alike} of the {count} cases in linux"] if count else []
    return [*lines, *faults_of(name, found)]


def faults_of(name, found):
    """The faults of an engine, each kind once, with the cases that have it: the first three by their names."""
    kinds = {}
    for it in found:
        if it.fault:
            kinds.setdefault(it.fault, []).append(it.case.name)
    for fault, names in kinds.items():
        more = f" and {len(names) - 3} more" if len(names) > 3 else ""
        yield f"{name}: {fault}: {', '.join(names[:3])}{more}"


def agreed(results):
    """The lines of the cases in which two or more engines answer a part alike, and otherwise than wanted."""
    lines = []
    for found in zip(*results.values(), strict=True):
        case = found[0].case
        for part in PARTS:
            told = [it.answer[part] for it in found if not it.fault and part in it.answer]
            if len(told) > 1 and told[0] != case.after[part] and all(it == told[0] for it in told):
                lines.append(f"{len(told)} engines agree, and not with the corpus: {case.name}: {part}")
    return lines
