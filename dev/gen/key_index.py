#!/usr/bin/env python3
"""Writes the packed tables of the key symbols from their definition, crates/key_syms/specs/Symbols.antt.

usage: dev/gen/key_index.py [--check]

The names stand by hand in that file alone. It is evaluated here: its lists as they are written, and the words that make
families of names by the functions of `WORDS`. Written are src/table.rt, the text of all names, and src/index.rt, where
each name lies, their order, and the kind and the value of each. --check only compares these files with what would be
written, and ends with status 1 if one differs. The prover holds both to the definition: a wrong table is not proved.
A file that can't be read, or a line of another form, is named on err, with status 2.
"""
import collections
import pathlib
import re
import sys

sys.dont_write_bytecode = True
sys.path.insert(0, str(pathlib.Path(__file__).resolve().parents[1]))

from repository import TOP  # noqa: E402: after the folder that it stands in

CRATE = TOP / "crates/key_syms"
SYMBOLS = CRATE / "specs/Symbols.antt"
KINDS = CRATE / "specs/Kinds.antt"
TOKENS = re.compile(r'\s*("[^"]*"|\+\+|[()]|[\w.]+)')
WIDTH = 96

Symbol = collections.namedtuple("Symbol", "name kind value")
Definition = collections.namedtuple("Definition", "parameters tokens")
Token = collections.namedtuple("Token", "word line")

# What the words of the definition make, each as its equation in the file says.
WORDS = {
    "codes": lambda text: text,
    "names_in": lambda text: text.split(" "),
    "with_before": lambda text, names: [text + name for name in names],
    "with_after": lambda text, names: [name + text for name in names],
    "own_names": lambda first, count: [chr(first + i) for i in range(count)],
    "names_with_numbers": lambda text, first, count: [f"{text}{first + i}" for i in range(count)],
    "lower_case_names": lambda names: [name.lower() for name in names],
    "run_of": lambda kind, first, names: [Symbol(name, kind, first + i) for i, name in enumerate(names)],
}


class Wrong(Exception):
    """What stands where something else was wanted."""


def read(file):
    """Returns the text of a file."""
    try:
        return file.read_text(encoding="utf-8")
    except (OSError, UnicodeError) as why:
        raise Wrong(f"{file}: wanted a text that can be read: {why}") from why


def wrong(line, wanted):
    """Returns the error of a line of the definition."""
    return Wrong(f"{SYMBOLS}:{line}: wanted {wanted}")


def kinds():
    """Returns the number of each kind, by its name."""
    found = {name: int(number) for name, number in re.findall(r"^([A-Z]+) = (\d+)$", read(KINDS), re.M)}
    if not found:
        raise Wrong(f"{KINDS}: wanted lines of the form NAME = NUMBER")
    return found


def tokens_of(text, line):
    """Returns the tokens of a line of an equation."""
    found, at = [], 0
    text = text.rstrip()
    while at < len(text):
        token = TOKENS.match(text, at)
        if not token:
            raise wrong(line, f"a word, a text, `++` or a parenthesis in {text[at:].strip()!r}")
        found.append(Token(token[1], line))
        at = token.end()
    return found


def definitions():
    """Returns the equations that aren't words of their own, by their names."""
    found, current = {}, None
    for line, text in enumerate(read(SYMBOLS).splitlines(), 1):
        head = re.match(r"(\w+)((?: \w+)*) =(.*)", text)
        if head and head[1] not in WORDS:
            current = found[head[1]] = Definition(head[2].split(), tokens_of(head[3], line))
        elif text.startswith("    ") and current:
            current.tokens.extend(tokens_of(text, line))
        else:
            current = None
    return found


class Evaluation:
    """The values of the definition: texts, numbers, lists of names and lists of symbols."""

    def __init__(self):
        self.definitions = definitions()
        self.kinds = kinds()
        self.open = []

    def value(self, name, arguments, line):
        """Returns the value of a name that is given arguments."""
        if name in WORDS:
            try:
                return WORDS[name](*arguments)
            except (TypeError, AttributeError, ValueError) as why:
                raise wrong(line, f"arguments that fit `{name}`: {why}") from why
        if name in self.kinds and not arguments:
            return self.kinds[name]
        if name not in self.definitions or name in self.open:
            raise wrong(line, f"a definition of `{name}` above this line")
        parameters, tokens = self.definitions[name]
        if len(parameters) != len(arguments):
            raise wrong(line, f"{len(parameters)} arguments of `{name}`")
        self.open.append(name)
        rest = list(tokens)
        value = self.sum(rest, dict(zip(parameters, arguments)), line)
        self.open.pop()
        if rest:
            raise wrong(rest[0].line, f"the end of `{name}` before `{rest[0].word}`")
        return value

    def sum(self, rest, given, line):
        """Takes applications with `++` between from the tokens, and returns what they make together."""
        value = self.application(rest, given, line)
        while rest and rest[0].word == "++":
            line = rest.pop(0).line
            more = self.application(rest, given, line)
            if type(value) is not type(more) or isinstance(value, int):
                raise wrong(line, "two lists or two texts beside `++`")
            value = value + more
        return value

    def application(self, rest, given, line):
        """Takes a name with its arguments, or one value, from the tokens."""
        if not rest or rest[0].word in ("++", ")"):
            raise wrong(rest[0].line if rest else line, "a value")
        head = rest[0]
        if not re.match(r"[A-Za-z_]", head.word) or head.word in given:
            return self.atom(rest, given, line)
        rest.pop(0)
        arguments = []
        while rest and rest[0].word not in ("++", ")"):
            arguments.append(self.atom(rest, given, head.line))
        return self.value(head.word, arguments, head.line)

    def atom(self, rest, given, line):
        """Takes one value from the tokens."""
        word, line = rest.pop(0)
        if word == "(":
            value = self.sum(rest, given, line)
            if not rest or rest.pop(0).word != ")":
                raise wrong(line, "a `)` for each `(`")
            return value
        if word.startswith('"'):
            return word[1:-1]
        if re.fullmatch(r"0x[0-9A-Fa-f]+|[0-9]+", word):
            return int(word, 16 if word.startswith("0x") else 10)
        return given[word] if word in given else self.value(word, [], line)


def symbols():
    """Returns the symbols of the definition, in order."""
    found = Evaluation().value("symbols", [], 1)
    if not found or not all(isinstance(it, Symbol) and re.fullmatch(r"[!-~]+", it.name) for it in found):
        raise wrong(1, "`symbols` to be a list of symbols whose names are visible characters of ASCII")
    return found


def table(found):
    """Returns the text of table.rt: how many names there are, and their text."""
    lines = ["   "]
    for symbol in found:
        if len(lines[-1]) + len(symbol.name) + 1 > WIDTH:
            lines.append("   ")
        lines[-1] += " " + symbol.name
    rows = " \\\n".join(lines)
    size = sum(len(symbol.name) + 1 for symbol in found)
    return (
        "//! Written by dev/gen/key_index.py: the names of the symbol table, proved equal to those of the definition.\n"
        f"\n/// The number of names.\npub(crate) const NAME_COUNT: usize = {len(found)};\n"
        f"\n/// The number of bytes of the text of the names.\npub(crate) const NAMES_SIZE: usize = {size};\n"
        "\n/// The names in order, with a blank after each.\n#[rattlefmt::skip]\n"
        f'pub(crate) static NAMES: [u8; NAMES_SIZE] = *b"\\\n{rows} ";\n'
    )


def static(doc, name, element, numbers):
    """Returns the text of an array, with as many numbers a line as fit."""
    lines = ["   "]
    for number in numbers:
        word = f" {number},"
        if len(lines[-1]) + len(word) > WIDTH:
            lines.append("   ")
        lines[-1] += word
    rows = "\n".join(lines)
    return f"\n/// {doc}\n#[rattlefmt::skip]\npub(crate) static {name}: [{element}; NAME_COUNT] = [\n{rows}\n];\n"


def index(found):
    """Returns the text of index.rt."""
    names, kind_numbers, values = zip(*found)
    starts = [sum(len(name) + 1 for name in names[:place]) for place in range(len(names))]
    order = sorted(range(len(names)), key=lambda place: names[place].encode())
    return (
        "//! Written by dev/gen/key_index.py: the places of the names of the symbol table, their order and their actions,\n"
        "//! proved to be those of the definition.\n"
        "\nuse crate::table::NAME_COUNT;\n"
        + static("The place at which each name starts in the table's text.", "STARTS", "u16", starts)
        + static("The number of bytes of each name.", "LENGTHS", "u8", map(len, names))
        + static("The places of the names, in the order of their bytes.", "ORDER", "u16", order)
        + static("The kind of each name's action.", "KINDS", "u8", kind_numbers)
        + static("The value of each name's action.", "VALUES", "u16", values)
    )


def put(file, text, is_check):
    """Writes a file, or compares it; returns whether it is as it should be."""
    if is_check:
        is_same = read(file) == text
        if not is_same:
            print(f"{file.relative_to(TOP)} isn't of its definition: run dev/gen/key_index.py")
        return is_same
    try:
        file.write_text(text, encoding="utf-8")
    except OSError as why:
        raise Wrong(f"{file}: wanted a file that can be written: {why}") from why
    return True


def main(words):
    if words not in ([], ["--check"]):
        print("usage: dev/gen/key_index.py [--check]", file=sys.stderr)
        return 2
    try:
        found = symbols()
        files = [("table.rt", table(found)), ("index.rt", index(found))]
        is_right = [put(CRATE / "src" / name, text, bool(words)) for name, text in files]
    except Wrong as why:
        print(f"dev/gen/key_index.py: {why}", file=sys.stderr)
        return 2
    return 0 if all(is_right) else 1


if __name__ == "__main__":
    sys.exit(main(sys.argv[1:]))
