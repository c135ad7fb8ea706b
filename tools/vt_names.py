"""The symbols of vt and their actions, from the program's own table in crates/key_syms/src.

A part of tools/keymap.py and of the tools that judge it.
"""
import re

from programs import TOP

SOURCE = TOP / "crates/key_syms/src"


def numbers(index, name):
    """Returns the numbers of an array of the index."""
    array = re.search(rf"pub(?:\(crate\))? static {name}: [^=]*= \[(.*?)\];", index, re.S)[1]
    return [int(word) for word in array.split(",") if word.strip()]


def read():
    """Returns the kind and the value of each name, in the table's order."""
    table = (SOURCE / "table.rt").read_text(encoding="utf-8")
    index = (SOURCE / "index.rt").read_text(encoding="utf-8")
    text = re.search(r'pub(?:\(crate\))? static NAMES.*?\*b"(.*?)";', table, re.S)[1]
    names = re.sub(r"\\\n *", "", text).split()
    return dict(zip(names, zip(numbers(index, "KINDS"), numbers(index, "VALUES"))))


ACTIONS = read()
NAMES = {action: name for name, action in reversed(ACTIONS.items())}
