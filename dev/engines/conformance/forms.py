"""The form of the corpus: one case a line of JSON, and what has to stand on the screen after it.

examples/conformance/README.md describes the form. A line that is not of it is a `Fault`, with its file, its line and
what was wanted there.
"""
import json
import pathlib
from dataclasses import dataclass, replace

from programs import TOP

CORPUS = TOP / "examples" / "conformance"
# The kernel whose console was recorded.
RECORDED_ON = CORPUS / "linux.txt"

# The five parts of what stands after a case, in the order in which they are compared.
PARTS = ("text", "cursor", "attributes", "reports", "bells")
# Those that are recorded of a Linux console, which has no file that counts bells.
RECORDED = PARTS[:4]

# Where the rule of a case is: in a manual page or a standard, or here alone. The paragraph of the latter begins so.
PAGE, OWN = "page", "own"
OWN_RULES = "this project's own"


def paragraph(of_page, *own):
    """The paragraph of the page, or the rules of this project's own that decide with it."""
    rules = ", ".join(dict.fromkeys(rule for rule in own if rule))
    return f"{OWN_RULES} ({rules}), with {of_page}" if rules else of_page


class Fault(Exception):
    """A bad input or a missing program: the message is what the user reads."""


@dataclass(frozen=True)
class Case:
    """A text for a screen of one size, the places where it is cut into writes, and what stands after it.

    `linux` has the parts that a Linux console shows otherwise, or is None if none was asked.
    """

    name: str
    paragraph: str
    rows: int
    columns: int
    data: bytes
    cuts: tuple = ()
    after: dict | None = None
    linux: dict | None = None

    @property
    def source(self):
        """Where the rule that decides is."""
        return OWN if self.paragraph.startswith(OWN_RULES) else PAGE

    @property
    def group(self):
        """The sequence that the case is about: the first part of its name."""
        return self.name.split("/", 1)[0]

    def pieces(self):
        """The text as it is written: one piece, or one more than there are cuts."""
        ends = [0, *self.cuts, len(self.data)]
        return [self.data[a:b] for a, b in zip(ends, ends[1:], strict=False)]

    def bytewise(self):
        """The same case, written byte by byte."""
        return replace(self, cuts=tuple(range(1, len(self.data))))

    def with_data(self, data):
        """A case of another text in one write, of which nothing was recorded."""
        return replace(self, data=data, cuts=(), linux=None)

    def recorded(self):
        """The parts that the Linux console showed, or None if it wasn't asked."""
        if self.linux is None:
            return None
        return {part: self.linux.get(part, self.after[part]) for part in RECORDED}

    def with_recorded(self, shown):
        """The case with what a Linux console showed: the parts in which that differs are kept."""
        return replace(self, linux={part: shown[part] for part in RECORDED if shown[part] != self.after[part]})

    def line(self):
        """The case as a line of a corpus, without its line feed."""
        made = {"name": self.name, "source": self.source, "paragraph": self.paragraph}
        made |= {"rows": self.rows, "columns": self.columns}
        made["bytes"] = self.data.decode("latin-1")
        if self.cuts:
            made["cuts"] = list(self.cuts)
        made["after"] = self.after
        if self.linux is not None:
            made["linux"] = self.linux
        return json.dumps(made, separators=(", ", ": "))


def is_number(value, low, high):
    """Whether the value is a whole number between these two."""
    return isinstance(value, int) and not isinstance(value, bool) and low <= value <= high


def is_bytes(value):
    """Whether the value is a string that stands for bytes: each of its characters is below U+0100."""
    return isinstance(value, str) and all(ord(c) < 256 for c in value)


def is_run(run, rows, columns):
    """Whether this is a run of cells in one row, and the byte of their attributes."""
    if not isinstance(run, list) or len(run) != 4 or not all(is_number(it, 0, 255) for it in run):
        return False
    return run[0] < rows and run[2] > 0 and run[1] + run[2] <= columns


def fault_of_part(part, value, rows, columns):
    """What was wanted of this part of an answer, or None where it is right."""
    if part == "text":
        if not isinstance(value, list) or len(value) != rows or not all(isinstance(row, str) for row in value):
            return f'"text" has to be {rows} strings, one for each row'
    elif part == "cursor":
        bounds = (rows, columns)
        is_right = isinstance(value, list) and len(value) == 2
        if not is_right or not all(is_number(it, 0, bound - 1) for it, bound in zip(value, bounds, strict=True)):
            return f'"cursor" has to be a row below {rows} and a column below {columns}'
    elif part == "attributes":
        if not isinstance(value, list) or not all(is_run(run, rows, columns) for run in value):
            return '"attributes" has to be runs of a row, a column, a count and a byte, within the screen'
    elif part == "reports":
        if not is_bytes(value):
            return '"reports" has to be a string of bytes'
    elif not is_number(value, 0, 2**32):
        return '"bells" has to be a number'
    return None


def case_of(made):
    """The case of a decoded line; a `Fault` with what was wanted."""
    if not isinstance(made, dict):
        raise Fault("an object was wanted")
    for key in ("name", "paragraph"):
        if not isinstance(made.get(key), str) or not made[key] or not made[key].isprintable():
            raise Fault(f'"{key}" has to be a text of printed characters')
    source = OWN if made["paragraph"].startswith(OWN_RULES) else PAGE
    if made.get("source") != source:
        raise Fault(f'"source" has to be "{source}", by the first words of the paragraph')
    for key in ("rows", "columns"):
        if not is_number(made.get(key), 1, 255):
            raise Fault(f'"{key}" has to be a number from 1 to 255')
    if not is_bytes(made.get("bytes")):
        raise Fault('"bytes" has to be a string whose characters are below U+0100, one for each byte')
    data, cuts = made["bytes"].encode("latin-1"), made.get("cuts", [])
    are_inside = isinstance(cuts, list) and all(is_number(it, 1, len(data) - 1) for it in cuts)
    if not are_inside or sorted(set(cuts)) != cuts:
        raise Fault('"cuts" has to be rising places inside the bytes')
    after = made.get("after")
    if not isinstance(after, dict) or set(after) != set(PARTS):
        raise Fault(f'"after" has to be an object with {", ".join(PARTS)}')
    linux = made.get("linux", {})
    if not isinstance(linux, dict) or set(linux) - set(RECORDED):
        raise Fault(f'"linux" has to be an object with some of {", ".join(RECORDED)}')
    for part, value in [*after.items(), *linux.items()]:
        why = fault_of_part(part, value, made["rows"], made["columns"])
        if why:
            raise Fault(why)
    unknown = set(made) - {"name", "source", "paragraph", "rows", "columns", "bytes", "cuts", "after", "linux"}
    if unknown:
        raise Fault(f'"{min(unknown)}" is no key of a case')
    size = made["rows"], made["columns"]
    return Case(made["name"], made["paragraph"], *size, data, tuple(cuts), after, made.get("linux"))


def read_file(path):
    """The cases of one file of a corpus."""
    try:
        lines = path.read_text(encoding="utf-8").split("\n")
    except (OSError, UnicodeDecodeError) as fault:
        raise Fault(f"{path}: a file of cases was wanted: {fault}") from None
    if lines.pop() or not lines:
        raise Fault(f"{path}:{len(lines) + 1}: a line feed was wanted at the end of each case")
    cases = []
    for number, line in enumerate(lines, 1):
        try:
            cases.append(case_of(json.loads(line)))
        except ValueError as fault:
            raise Fault(f"{path}:{number}: a case as one line of JSON was wanted: {fault}") from None
        except RecursionError:
            raise Fault(f"{path}:{number}: a case as one line of JSON was wanted: it is nested too deep") from None
        except Fault as fault:
            raise Fault(f"{path}:{number}: {fault}") from None
    return cases


def read_corpus(paths):
    """The cases of all these files, or of the stored corpus; no two have one name."""
    files = [pathlib.Path(path) for path in paths] or sorted(CORPUS.glob("*.jsonl"))
    if not files:
        raise Fault(f"{CORPUS}: files of cases were wanted: dev/gen/make_conformance.py writes them")
    cases, seen = [], {}
    for path in files:
        for number, case in enumerate(read_file(path), 1):
            if case.name in seen:
                raise Fault(f'{path}:{number}: another name than "{case.name}" was wanted, which {seen[case.name]} has')
            seen[case.name] = f"{path}:{number}"
            cases.append(case)
    return cases
