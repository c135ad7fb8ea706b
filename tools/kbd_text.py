"""Reads a keymap as loadkeys(1) of kbd takes it, with the files that it includes, into lines of words.

A part of tools/keymap.py. `lines_of` gives each logical line with its file and line number. A file is read as
Latin-1, so that each byte is one character; the character set decides later what a byte means.
"""
import bz2
import collections
import difflib
import gzip
import lzma
import os
import pathlib
import re
import zlib

from tool_files import shown

# Where kbd and console-data keep keymaps, and below these the folders of what a keymap includes.
FOLDERS = ["/usr/share/keymaps", "/usr/share/kbd/keymaps", "/lib/kbd/keymaps"]
COMMON = ["include", "i386/include", "mac/include"]
OPENERS = {"": open, ".gz": gzip.open, ".bz2": bz2.open, ".xz": lzma.open}
DEEPEST, MOST_FILES = 20, 1000
MOST_BYTES = 1 << 24

Word = collections.namedtuple("Word", "kind value text")
Line = collections.namedtuple("Line", "words path number")

WORD = re.compile(
    r"""(?P<join>\\\r?\n)|(?P<end>\r?\n)|(?P<blank>[ \t]+)|(?P<comment>[!#][^\n]*)
    |(?P<unicode>U\+[0-9a-fA-F]{4,})|(?P<number>0[xX][0-9a-fA-F]+|[0-9]+)
    |(?P<name>[aA][lL][tT][-_][iI][sS][-_][mM][eE][tT][aA]|[A-Za-z][A-Za-z0-9_]*)
    |(?P<text>"(?:[^"\\]|\\.)*")|(?P<character>'(?:\\[0-7]{1,3}|\\.|[^'\\\n]+|'|\\)')|(?P<sign>[=+,-])""",
    re.X | re.S,
)
ESCAPE = re.compile(r"\\([0-7]{1,3}|.)", re.S)


class KeymapError(Exception):
    """A keymap that can't be converted: its file, its line, and the reason."""

    def __init__(self, path, number, reason):
        super().__init__(f"{path}:{number}: {reason}" if number else f"{path}: {reason}")


def unescaped(text):
    """Returns a quoted text's bytes: octal numbers, newline, and otherwise the character after the backslash."""

    def one(found):
        part = found[1]
        return chr(int(part, 8) & 0xFF) if part[0] in "01234567" else "\n" if part == "n" else part

    return ESCAPE.sub(one, text[1:-1])


def number_of(text):
    """Returns the number that a word spells, or None if an octal one has an 8 or a 9."""
    try:
        return int(text, 16 if text[:2] in ("0x", "0X") else 8 if text[0] == "0" else 10)
    except ValueError:
        return None


def word_of(kind, text, path, line):
    """Returns a word with its value, or refuses it."""
    value = text
    if kind == "number":
        value = number_of(text) if len(text) < 20 else None
        if value is None:
            raise KeymapError(path, line, f"{shown(text)}: not a number: decimal, octal after 0, or hexadecimal after 0x")
    elif kind == "unicode":
        value = int(text[2:], 16) if len(text) == 6 else None
        if value is None:
            raise KeymapError(path, line, f"{shown(text)}: U+ takes four hexadecimal digits")
    elif kind in ("text", "character"):
        value = unescaped(text)
    return Word(kind, value, text)


def words_of(text, path):
    """Gives the logical lines of one text, each with the number of its first line."""
    words, line, first, at = [], 1, 1, 0
    while at < len(text):
        found = WORD.match(text, at)
        if not found:
            raise KeymapError(path, line, f"{text[at : at + 12]!r}: a word of a keymap can't begin so")
        kind, part = found.lastgroup, found[0]
        at = found.end()
        if kind == "end":
            yield Line(words, path, first)
            words, first = [], line + 1
        elif kind not in ("blank", "comment", "join"):
            if not words:
                first = line
            words.append(word_of(kind, part, path, line))
        line += part.count("\n")
    yield Line(words, path, first)


def read(path):
    """Returns the text of a file, which may be compressed."""
    with OPENERS.get(path.suffix, open)(path, "rb") as file:
        found = file.read(MOST_BYTES + 1)
    if len(found) > MOST_BYTES:
        raise OSError(f"more than {MOST_BYTES} bytes")
    return found.decode("latin-1")


def with_ending(path, endings):
    """Returns the first file there is of a name and an ending, compressed or not."""
    for ending in endings:
        for packed in OPENERS:
            found = pathlib.Path(os.path.normpath(f"{path}{ending}{packed}"))
            if found.is_file():
                return found
    return None


def near_folders(path):
    """Returns the folders near a file, and near the file that it links to."""
    return [
        folder
        for file in (path, path.resolve())
        for folder in (file.parent, file.parent / "../include", file.parent / "../../include")
    ]


def common_folders():
    """Returns kbd's folders of files that keymaps include."""
    return [f"{folder}/{part}" for folder in FOLDERS for part in COMMON]


def included_path(name, path, search):
    """Finds the file of an include line: near the file that includes it, then in the folders given, then in kbd's."""
    for folder in [*near_folders(path), *search, *common_folders()]:
        found = with_ending(f"{folder}/{name}" if not name.startswith("/") else name, ["", ".inc"])
        if found:
            return found
    return None


def near(name, names):
    """Returns the names that are spelled almost like one."""
    same = [other for other in names if other.lower() == name.lower()]
    return same or difflib.get_close_matches(name, names, 3, 0.75)


def keymap_names(search):
    """Returns the names of all keymaps in kbd's folders, and in the folders given."""
    files = (file for folder in [*search, *FOLDERS] for file in pathlib.Path(folder).glob("**/*"))
    found = (re.fullmatch(r"(.+)\.k?map(?:\.gz|\.bz2|\.xz)?", file.name) for file in files)
    return sorted({file[1] for file in found if file})


def keymap_path(name, search):
    """Finds a keymap by its path, or by its name in kbd's folders as loadkeys does, or None."""
    found = with_ending(name, ["", ".kmap", ".map"])
    if found or "/" in name:
        return found
    for folder in [*search, *FOLDERS]:
        for inner in [folder, *sorted(path for path in pathlib.Path(folder).glob("**/") if path.name != "include")]:
            found = with_ending(f"{inner}/{name}", ["", ".kmap", ".map"])
            if found:
                return found
    return None


def lines_of(path, search, text=None, depth=0, files=None):
    """Gives the lines of a keymap; an include line is replaced by the lines of its file."""
    files = [] if files is None else files
    try:
        text = read(path) if text is None else text
    except (OSError, EOFError, lzma.LZMAError, zlib.error, ValueError) as error:
        raise KeymapError(path, 0, f"can't be read: {error}") from error
    for line in words_of(text, path):
        words = line.words
        if not words or words[0].text.lower() != "include":
            yield line
            continue
        if len(words) < 2 or words[1].kind != "text":
            raise KeymapError(path, line.number, "include takes the name of a file in double quotes")
        if depth == DEEPEST:
            raise KeymapError(path, line.number, f"includes are more than {DEEPEST} deep")
        if len(files) == MOST_FILES:
            raise KeymapError(path, line.number, f"more than {MOST_FILES} files are included")
        name = words[1].value
        found = None if "\0" in name or not name else included_path(name, path, search)
        if not found:
            raise KeymapError(
                path, line.number, f'include "{name}": there is no such file near {path} or in kbd\'s folders'
            )
        files.append(found)
        yield from lines_of(found, search, None, depth + 1, files)
        if words[2:]:
            yield Line(words[2:], path, line.number)
