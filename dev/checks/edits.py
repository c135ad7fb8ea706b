"""Edits, each a wrong body for a function, and the functions of the source files that they change.

An edit is a file of lines: `file: src/NAME.rt`, then pairs of `old: TEXT` and `new: TEXT`, each TEXT one line. The old
text stands once in that file; a later pair applies to what the earlier ones made. Other lines are remarks.
"""
import dataclasses
import difflib
import pathlib
import re

HEAD = re.compile(r'( *)(?:pub(?:\([^)]*\))? )?(const )?(?:unsafe )?(?:extern "C" )?fn (\w+)')
OWNER = re.compile(r"(?:pub )?(?:unsafe )?(impl|trait)\b")
TYPE = re.compile(r"^(?:pub(?:\([^)]*\))? )?(?:struct|enum|union|trait) (\w+)", re.M)
TEST_MODULE = re.compile(r"#\[cfg\(test\)\]\n(?:#\[[^\n]*\]\n)*(?:pub )?mod (\w+)( \{)?")


class BadEdit(Exception):
    """Why an edit can't be tried: a kind, as the verdicts name it, and a sentence."""

    def __init__(self, kind, message):
        super().__init__(message)
        self.kind = kind


@dataclasses.dataclass(frozen=True)
class Function:
    """A function of a source file: its path in the crate, as the checker prints it, and its lines, from 0 on."""

    path: str
    head: int  # the line with `fn`
    opens: int  # the line that ends in the body's `{`, or that has the whole of an empty body
    closes: int  # the line of the body's `}`
    is_const: bool
    is_of_trait: bool  # whether it stands in an `impl` of a trait, or in a trait
    in_cycle: bool  # whether it names a cycle of calls, which has one proof


def pairs_of(text):
    """The file's name and its pairs of texts."""
    file, old, pairs = None, None, []
    for line in text.splitlines():
        if line.startswith("file: "):
            file = line[6:].strip()
        elif line.startswith("old: "):
            old = line[5:]
        elif line.startswith("new:"):
            if file is None or old is None:
                raise BadEdit("BAD FORM", "a line `new:` stands before any `file:` or `old:`")
            pairs.append((file, old, line[4:].removeprefix(" ")))
            old = None
    if not pairs:
        raise BadEdit("BAD FORM", "it has no pair of `old:` and `new:`")
    return pairs


def edited_texts(crate, text):
    """The files that an edit changes, by their path in the crate's folder: the text as it stands, and the edited one."""
    texts = {}
    for file, old, new in pairs_of(text):
        if not file.startswith("src/") or ".." in file or not (crate / file).is_file():
            raise BadEdit("BAD FORM", f"there is no file {file} of code")
        first, now = texts.setdefault(file, ((crate / file).read_text(encoding="utf-8"),) * 2)
        found = now.count(old)
        if found != 1:
            kind = "CHANGES TWO PLACES" if found else "NOT FOUND"
            raise BadEdit(kind, f"{file} has the old text {found} times: {old.strip()}")
        texts[file] = first, now.replace(old, new)
    if all(before == after for before, after in texts.values()):
        raise BadEdit("BAD FORM", "it changes no line")
    return texts


def owner_of(header):
    """The name that an `impl` or a trait gives its functions' paths, and whether it is one of a trait."""
    found = OWNER.match(header)
    rest, parameters = header[found.end() :].strip(), ""
    if rest.startswith("<"):
        place = past_brackets(rest)
        rest, parameters = rest[place:].strip(), rest[:place]
    if found[1] == "trait" or " for " not in rest:
        return type_name(rest, ""), found[1] == "trait"
    trait, _, of = rest.partition(" for ")
    taken = re.search(r"From<(?:\w+::)*(\w+)", trait)
    named = re.match(r"(?:\w+::)*(\w+)", trait.strip())[1]
    of_trait = "" if named == "Drop" else named + (taken[1] if taken else "")
    return type_name(of, parameters) + of_trait, True


def type_name(text, parameters):
    """The name of a type or trait in a function's path: of `io::Error` IoError, of `u8` U8, of a parameter Any."""
    path = re.match(r"[&'_ ]*(\w+(?:::\w+)*)", text.strip())[1]
    if re.search(rf"[<, ]{path}\b", parameters):
        return "Any"
    return "".join(it[0].upper() + it[1:] for it in path.split("::")[-2:])


def past_brackets(text):
    """The place after the brackets with which a text begins."""
    depth = 0
    for place, sign in enumerate(text):
        depth += (sign == "<") - (sign == ">" and text[place - 1] != "-")
        if depth == 0:
            return place + 1
    return len(text)


def module_of(file):
    """The path of a file's module in its crate."""
    parts = list(pathlib.PurePath(file).with_suffix("").parts[1:])
    return [] if parts in (["lib"], ["main"]) else parts


def types_of(crate):
    """The module of each type of a crate: the path of an inherent function begins with it, wherever its `impl` stands."""
    found = {}
    for file in sorted((crate / "src").rglob("*.rt")):
        for name in TYPE.findall(file.read_text(encoding="utf-8")):
            found[name] = module_of(file.relative_to(crate))
    return found


def functions_of(file, text, types):
    """The functions of a source file that have a body, in their order."""
    lines, module, owner, found, row = text.split("\n"), module_of(file), None, [], 0
    while row < len(lines):
        line = lines[row]
        if line.startswith("}"):
            owner = None
        elif line.startswith("#[cfg(test)]") and re.match(r"(?:pub )?mod \w+ \{", lines[row + 1]):
            row = lines.index("}", row)
        elif OWNER.match(line) and not line.endswith("{}"):
            end = next(at for at in range(row, len(lines)) if lines[at].endswith("{"))
            owner = owner_of(" ".join(lines[row : end + 1]))
        head = HEAD.match(line)
        opens = opening(lines, row, head[1]) if head else None
        if opens is not None:
            closes = opens if lines[opens].endswith("}") else lines.index(head[1] + "}", opens)
            name, of_trait = owner or (None, False)
            names = [*(module if of_trait or not owner else types.get(name, module)), *([name] if owner else []), head[3]]
            in_cycle = any(it.lstrip().startswith("#[cycle") for it in attributes(lines, row))
            found.append(Function("::".join(names), row, opens, closes, bool(head[2]), of_trait, in_cycle))
            row = closes
        row += 1
    return found


def attributes(lines, row):
    """The lines of attributes above a function."""
    first = row
    while first > 0 and re.match(r"\s*(#\[|[\w:, ]|\)\]|//)", lines[first - 1]) and not lines[first - 1].startswith("}"):
        first -= 1
    return lines[first:row]


def opening(lines, row, indent):
    """The line that opens the body of the function at a line, or has the whole of it; None if it has no body."""
    for at in range(row, len(lines)):
        line = lines[at]
        of_head = at == row or line in (indent + "{", indent + "{}") or line.startswith(indent + ")")
        if of_head and line.endswith(("{", "}")):
            return at
        if not line or of_head and line.endswith(";"):
            return None
    return None


def test_modules(crate):
    """The modules of a crate that are compiled for its tests alone."""
    for file in sorted((crate / "src").rglob("*.rt")):
        for name, is_here in TEST_MODULE.findall(file.read_text(encoding="utf-8")):
            if not is_here:
                yield "::".join([*module_of(file.relative_to(crate)), name])


def changed_lines(before, after):
    """The lines of a text that differ in another one, as pairs of the first and the one past the last."""
    rows = difflib.SequenceMatcher(None, before.split("\n"), after.split("\n"), autojunk=False).get_opcodes()
    return [(first, last) for tag, first, last, _, _ in rows if tag != "equal"]


def functions_changed(file, before, after, types):
    """The functions whose bodies have the lines that differ; None if a line outside of every body differs."""
    functions, found = functions_of(file, before, types), []
    for first, last in changed_lines(before, after):
        inside = [it for it in functions if it.opens < first and last <= it.closes]
        if not inside:
            return None
        found += [it for it in inside if it not in found]
    return found
