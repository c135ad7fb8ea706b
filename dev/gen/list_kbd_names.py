#!/usr/bin/env python3
"""Writes tools/kbd_names.py: what the symbols and the character sets of kbd stand for.

usage: dev/gen/list_kbd_names.py > tools/kbd_names.py

It asks an installed `loadkeys` (Debian: apt-get install kbd) and copies no file of kbd. It tries every word in the
program as a symbol, and takes from `loadkeys -u --mktable` what the symbol means. Printed ASCII characters, F1 to
F246, Console_1 to Console_63 and Meta_* are left out, since tools/kbd_tables.py makes these by rule. It takes some
minutes.
"""
import re
import shutil
import subprocess
import sys

WIDTH = 116
LOADKEYS = shutil.which("loadkeys") or "loadkeys"
BY_RULE = re.compile(r"F\d+|Console_\d+|Meta_.*|dead2_.*")


def tables_of(text):
    """Returns the first table that loadkeys makes of a keymap, by keycode, or None if it refuses the text."""
    ran = subprocess.run([LOADKEYS, "-u", "--mktable"], input=text.encode(), capture_output=True, check=False)
    found = re.search(r"plain_map\[NR_KEYS\] = \{(.*?)\}", ran.stdout.decode("latin-1"), re.S)
    if ran.returncode or not found:
        return None
    return [int(number, 16) for number in re.findall(r"0x[0-9a-f]+", found[1])]


def meanings(names, charset):
    """Returns the number of each name in a character set; all names are known ones."""
    found = {}
    for start in range(0, len(names), 200):
        part = names[start : start + 200]
        lines = [f"keycode {code} = {name}\n" for code, name in enumerate(part, 1)]
        head = f'charset "{charset}"\n' if charset else ""
        table = tables_of(head + "keymaps 0\n" + "plain ".join(["", *lines]))
        found.update(zip(part, table[1:], strict=False))
    return found


def words_of_program():
    """Returns every word in the program, and every end of one: a word that ends another one isn't stored twice."""
    with open(LOADKEYS, "rb") as program:
        words = re.findall(rb"[A-Za-z0-9_]{2,}", program.read())
    ends = {word[at:].decode() for word in words for at in range(len(word)) if word[at : at + 1].isalpha()}
    return sorted(word for word in ends if len(word) > 1 and not BY_RULE.fullmatch(word))


def known_names():
    """Returns the words that are symbols."""
    return [word for word in words_of_program() if tables_of(f"keymaps 0\nplain keycode 1 = {word}\n")]


def charsets():
    """Returns the names of the character sets, from the help of dumpkeys."""
    ran = subprocess.run(["dumpkeys", "--help"], capture_output=True, text=True, check=False)
    line = re.search(r"Available charsets: (.*)", ran.stdout + ran.stderr)[1]
    for front, ends in re.findall(r"([\w-]+)\{(.*?)\}", line):
        line = line.replace(f"{front}{{{ends}}}", ",".join(front + end for end in ends.split(",")))
    return line.split(",")


def bytes_of(charset):
    """Returns the characters of the bytes 80 to FF in a character set; a byte that has none is its own number."""
    table = tables_of(
        f'charset "{charset}"\nkeymaps 0\n' + "".join(f"plain keycode {n - 64} = {n}\n" for n in range(128, 256))
    )
    return [number & 0xFF if number >= 0xF000 else number for number in table[64:192]]


def wrapped(words):
    """Returns the lines of a text of words."""
    lines = [""]
    for word in words:
        if len(lines[-1]) + len(word) + 1 > WIDTH:
            lines.append("")
        lines[-1] += (" " if lines[-1] else "") + word
    return "\n".join(lines)


def write():
    """Writes the module."""
    names = known_names()
    plain = meanings(names, "")
    characters = {name: number for name, number in plain.items() if number < 0xF000}
    actions = {name: number - 0xF000 for name, number in plain.items() if number >= 0xF080}
    print('"""The meanings of the symbols and the character sets of kbd 2.5.1. Written by dev/gen/list_kbd_names.py."""')
    print("\n# The names of characters past ASCII, each before its number.")
    print('CHARACTERS = """\n' + wrapped(f"{name} {number:04x}" for name, number in characters.items()) + '\n"""')
    print("\n# The names that have another meaning in a character set.")
    print("CHARACTERS_IN = {")
    for charset in charsets():
        other = meanings(sorted(characters), charset)
        pairs = [f"{name} {number:04x}" for name, number in other.items() if number != characters[name]]
        if pairs:
            print(f'    "{charset}": """\n' + wrapped(pairs) + '\n""",')
    print("}\n\n# The names of all other actions, each before its type and value.")
    print('ACTIONS = """\n' + wrapped(f"{name} {number:03x}" for name, number in actions.items()) + '\n"""')
    print("\n# The names of the control characters.")
    controls = {name: number - 0xF000 for name, number in plain.items() if 0xF000 <= number < 0xF080 and len(name) > 1}
    print('ASCII = """\n' + wrapped(f"{name} {number:02x}" for name, number in controls.items()) + '\n"""')
    print("\n# The characters of the bytes 80 to FF in each character set.")
    print("BYTES = {")
    for charset in charsets():
        found = bytes_of(charset)
        print(f'    "{charset}": """\n' + wrapped(f"{number:04x}" for number in found) + '\n""",')
    print("}")


def main():
    try:
        write()
    except (OSError, TypeError) as error:
        sys.stderr.write(f"list_kbd_names.py: loadkeys and dumpkeys don't answer as those of kbd 2.5.1: {error}\n")
        return 1
    return 0


if __name__ == "__main__":
    sys.exit(main())
