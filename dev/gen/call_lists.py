#!/usr/bin/env python3
"""Writes the lists that follow from the variants of calls in crates/vt_events/src/event.rt.

usage: dev/gen/call_lists.py [--check]

The doc comment of a variant of `Event` begins with the words of its call: the name, then a word for each field (HH is
u8, B is `Bytes`, any other word is u16). Each list that these words determine is written into its file. The rows of the
test of all words are written by hand: a row stays, and only a call without one gets a generated row. If a row has the
word of no call or of another row, nothing is written, and the status is 1.

--check only compares, apart from blanks, commas and ends of lines, and names each list that differs. It also compares
the words of each call with the table of calls in docs/reference/journal.md. If anything differs, the status is 1. Run
`rt fmt` in vt_events and call_tests afterwards. The checker proves that the lists are equal to the definitions.
"""
import pathlib
import re
import sys
import textwrap

sys.dont_write_bytecode = True
sys.path.insert(0, str(pathlib.Path(__file__).resolve().parents[1]))

from repository import TOP  # noqa: E402: after the folder that it stands in

CRATES = TOP / "crates"
EVENT = CRATES / "vt_events/src/event.rt"
PAGE = TOP / "docs/reference/journal.md"
BLANK_LINE = "\n\n"
TYPES = {"HH": "u8", "B": "Bytes"}


class Call:
    """A variant of `Event`: its name, the word of its calls, and the names of its fields."""

    def __init__(self, words, name, fields):
        self.name = name
        self.words = words
        self.word, *places = words.split()
        self.fields = [it.lower() for it in places]
        self.numbers = [it.lower() for it in places if it not in TYPES]
        self.held = next((it.lower() for it in places if it in TYPES), None)
        if [TYPES.get(it, "u16") for it in places] != fields:
            sys.exit(f"the fields of {name} are {fields}, and its words are {words!r}")
        if self.numbers + [self.held] * (self.held is not None) != self.fields:
            sys.exit(f"the bytes of {name} aren't its one last field")

    def code(self, enum, fields):
        return f"{enum}::{self.name}" + (f"({', '.join(fields)})" if fields else "")

    def made(self):
        places = [f"n[{at}]" for at in range(len(self.numbers))]
        held = {"hh": ["b.as_slice()[0]"], "b": ["b"]}.get(self.held, [])
        return f"Kind::{self.name} => {self.code('Event', places + held)},"

    def taken(self):
        held = {"hh": "Some(array::from_ref(hh))", "b": "Some(b.as_slice())"}.get(self.held, "None")
        numbers = ", ".join(f"*{it}" for it in self.numbers)
        return f"{self.code('Event', self.fields)} => make_parts(Kind::{self.name}, &[{numbers}], {held}),"

    def form(self):
        held = str(self.held is not None).lower()
        numbers = len(self.numbers)
        return f'CallForm {{ kind: Kind::{self.name}, name: b"{self.word}", numbers: {numbers}, bytes: {held} }},'

    def call_of(self):
        places = [f"(at n {at})" for at in range(len(self.numbers))]
        held = {"hh": ["(at b 0)"], "b": ["(text b)"]}.get(self.held, [])
        return " ".join([f"call_of kind.{self.name} n b = event.{self.name}", *places, *held])

    def parts_of(self):
        given = f"(event.{' '.join([self.name, *self.fields])})" if self.fields else f"event.{self.name}"
        numbers = " ∷ ".join([*self.numbers, "[]"])
        numbers = f"({numbers})" if self.numbers else numbers
        held = {"hh": "(Some (hh ∷ []))", "b": "(Some b.bytes)"}.get(self.held, "None")
        return f"parts_of {given} = make_parts kind.{self.name} {numbers} {held}"

    def name_of(self):
        return f'name_of kind.{self.name} = codes "{self.word}"'

    def row(self):
        """Returns a row of the test of all words, for a call that has none."""
        words = {"hh": "e0", "b": "6869"}
        values = {"hh": "224", "b": ""}
        numbers = [str(at + 1) for at in range(len(self.numbers))]
        held = [] if self.held is None else [self.held]
        text = " ".join([self.word, *numbers, *[words[it] for it in held]])
        printed = ", ".join([*numbers, *[values[it] for it in held]])
        printed = f"{self.name}({printed}" + ("" if self.held == "b" else ")") if self.fields else self.name
        return f'(b"{text}", "{printed}"),'


def calls():
    """Returns the calls, in the order of their variants."""
    body = EVENT.read_text().split("pub enum Event {\n")[1].split("\n}\n")[0]
    variant = re.compile(r"    /// `([^`]+)`.*\n(?:    ///.*\n)*    (\w+)(?:\((.*)\))?,")
    found = [Call(it[1], it[2], (it[3] or "").split(", ") if it[3] else []) for it in variant.finditer(body)]
    variants = re.findall(r"^    (\w+)", body, re.M)
    if [it.name for it in found] != variants:
        sys.exit(f"variants without the words of a call: {[it for it in variants if it not in [c.name for c in found]]}")
    return found


def guesses(calls, file):
    """Returns the table of guesses by the sum of the file; the first call with an index has it."""
    text = file.read_text()
    sum = r"(\d+) \* first \+ (\d+) \* last \+ (\d+) \* fourth \+ (\d+) \* long"
    first, last, fourth, long = map(int, re.search(sum, text).groups())
    places = ["Scan"] * int(re.search(r"const GUESS_PLACES: usize = (\d+);", text)[1])
    for call in reversed(calls):
        word = call.word.encode()
        if len(word) >= 4:
            places[(first * word[0] + last * word[-1] + fourth * word[3] + long * len(word)) % len(places)] = call.name
    return textwrap.wrap(" ".join(f"Kind::{name}," for name in places), 112)


def all_words(calls, file):
    """Returns the rows of the test of all words: those that it has, and one for each call that has none."""
    body = file.read_text().split("const CALLS: &[(&[u8], &str)] = &[\n")[1].split("];\n")[0]
    rows = [(re.match(r'\(b"(\w+)', line.strip())[1], line.strip()) for line in body.splitlines()]
    words, known = [word for word, _ in rows], [it.word for it in calls]
    wrong = [word for word in words if word not in known or words.count(word) > 1]
    if wrong:
        sys.exit(f"{file.relative_to(TOP)}: rows with the word of no call, or of another row: {', '.join(wrong)}")
    return [dict(rows).get(it.word) or it.row() for it in calls]


def lists(calls):
    """Yields for each list its file, the text before and after it, the indentation of its lines, and its lines."""
    events = CRATES / "vt_events"
    each = lambda line: [line(it) for it in calls]
    kind, forms, guess = events / "src/kind.rt", events / "src/forms.rt", events / "src/kind_guess.rt"
    yield kind, "pub enum Kind {\n", "}\n", 4, [f"{it.name}," for it in calls]
    call = "        ensures { result ≡ call_of self n.now b.bytes }\n    {\n        match self {\n"
    yield kind, call, "        }\n", 12, each(Call.made)
    yield events / "src/parts.rt", "        match e {\n", "        }\n    }\n", 12, each(Call.taken)
    yield forms, "static FORMS: [CallForm; KIND_COUNT] = [\n", "];\n", 4, each(Call.form)
    yield forms, "/// How many kinds there are.\n", BLANK_LINE, 0, [f"const KIND_COUNT: usize = {len(calls)};"]
    yield guess, "static LIKELY: [Kind; GUESS_PLACES] = [\n", "];\n", 4, guesses(calls, guess)
    parts = "abbrev pub parts_of : Event → PartsView\n"
    yield events / "specs/Calls.antt", parts, BLANK_LINE, 0, each(Call.parts_of)
    yield events / "specs/Kinds.antt", "abbrev pub name_of : Kind → List ℕ\n", BLANK_LINE, 0, each(Call.name_of)
    made = "abbrev pub call_of : Kind → List ℕ → List ℕ → Event\n"
    yield events / "specs/Kinds.antt", made, BLANK_LINE, 0, each(Call.call_of)
    proofs = events / "proofs/Calls.antt"
    found = f"each_kind kind.{calls[0].name} = (0, ltb-true 0 {len(calls)} refl, refl)"
    other = f"(position_or_len (is_named (name_of k)) kinds, ltb-true _ {len(calls)} refl, refl)"
    yield proofs, "pub each_kind : (k : Kind) → Contains kinds k\n", BLANK_LINE, 0, [found, f"each_kind k = {other}"]
    kinds = textwrap.wrap(" ".join(f"kind.{it.name}+∷" for it in calls) + " []", 96)
    yield proofs, "kinds =\n", BLANK_LINE, 4, [line.replace("+", " ") for line in kinds]
    words = CRATES / "call_tests/src/tests/journals/all_words.rt"
    yield words, "const CALLS: &[(&[u8], &str)] = &[\n", "];\n", 4, all_words(calls, words)


def page_differences(calls):
    """Returns a line for each call whose words differ from the table of calls of the page."""
    table = PAGE.read_text().split("### The words of calls\n")[1].split("\n##")[0]
    rows = [row for row in table.splitlines() if row.startswith("| `")]
    on_page = [words for row in rows for words in re.findall(r"`([^`]+)`", row.split(" | ")[0])]
    in_code = [it.words for it in calls]
    place = PAGE.relative_to(TOP)
    missing = [f"{place}: the table of calls lacks `{words}`" for words in in_code if words not in on_page]
    unknown = [f"{place}: `{words}` has the words of no call" for words in on_page if words not in in_code]
    twice = [f"{place}: `{words}` is there twice" for words in sorted(set(on_page)) if on_page.count(words) > 1]
    return missing + unknown + twice


def bare(text):
    """Returns the text without what `rt fmt` adds and removes."""
    return re.sub(r"[\s{},]", "", text)


def main(words):
    is_right = True
    known = calls()
    # All lists are made before the first one is written.
    for file, before, after, depth, lines in list(lists(known)):
        text = file.read_text()
        begin = text.index(before) + len(before)
        end = text.index(after, begin) + (after == BLANK_LINE)
        written = "".join(" " * depth + line + "\n" for line in lines)
        if bare(text[begin:end]) == bare(written):
            continue
        is_right = False
        if "--check" in words:
            place = f"{file.relative_to(TOP)}: the list after {before.splitlines()[-1].strip()!r}"
            print(f"{place} differs from the words of calls")
        else:
            file.write_text(text[:begin] + written + text[end:])
    for line in page_differences(known) if "--check" in words else []:
        is_right = False
        print(line)
    return 0 if is_right or "--check" not in words else 1


sys.exit(main(sys.argv[1:]))
