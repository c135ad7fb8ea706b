"""The text of an LLVM module, cut into a module for each part.

The one crate of all parts is named `all` (sources.py). A function of it has its path as its name.
"""
import re

from tool_files import Stop

from .crates import LIBRARY
from .sources import exports

DEFINITION = re.compile(r'^define [^\n]*?@("[^"]*"|[\w.$-]+)\([^\n]*\{\n.*?^\}\n', re.M | re.S)
NAME = re.compile(r'@("[^"]*"|[\w.$-]+)')
# A main that starts threads is named with its runtime.
MAIN = re.compile(r'"all::main(?:::<[^"]*>)?"')
OTHER_PART = re.compile(r'^  (?:(%\w+) = )?call (?:\w+ )*?(\w+) @"all::parts::start_\w+"\([^\n]*$', re.M)


def names_in(text):
    """The functions and globals that a text names."""
    return {found[1] for found in NAME.finditer(text)}


def unknown(name):
    """The end of a build by a toolchain that names its functions in another way."""
    return Stop(2, f"the toolchain made no function {name}: it names functions in another way than this tool knows")


class Module:
    """A module by its functions."""

    def __init__(self, text):
        self.functions, rest, at = {}, [], 0
        for found in DEFINITION.finditer(text):
            rest.append(text[at : found.start()])
            self.functions[found[1]] = found[0]
            at = found.end()
        rest.append(text[at:])
        # Types and globals come before the first function, declarations and attributes between and after them.
        self.head, self.rest = rest[0], "".join(rest[1:])
        self.named_outside = names_in(self.head + self.rest)

    def with_these(self, functions, starts):
        """The text of a module of the functions that these reach."""
        found, wanted = set(), [*starts, *self.named_outside]
        while wanted:
            name = wanted.pop()
            if name in functions and name not in found:
                found.add(name)
                wanted += names_in(functions[name])
        kept = (text for name, text in functions.items() if name in found)
        return self.head + "".join(kept) + self.rest

    def main(self):
        """The name of the crate's main."""
        found = [name for name in self.functions if MAIN.fullmatch(name)]
        if len(found) != 1:
            raise unknown("all::main")
        return found[0]

    def of_vt(self):
        """The module of vt: its main calls no other part."""
        functions, main = dict(self.functions), self.main()
        functions[main] = OTHER_PART.sub(lambda it: f"{it[1]} = freeze {it[2]} undef" if it[1] else "", functions[main])
        return self.with_these(functions, ["main"])

    def of_other(self, part):
        """The module of another program: C's main calls the main of that program alone."""
        functions, main, own = dict(self.functions), self.main(), f'"all::parts::start_{part}"'
        callers = [name for name, text in functions.items() if name != main and f"@{main}(" in text]
        if own not in functions or len(callers) != 1:
            raise unknown(own)
        functions[callers[0]] = functions[callers[0]].replace(f"@{main}(", f"@{own}(")
        return self.with_these(functions, ["main"])

    def of_library(self, calls):
        """The module of the C library: these calls, by their paths, are seen from outside, each under its own name."""
        functions = dict(self.functions)
        for path in calls:
            if path not in functions:
                raise unknown(path)
            functions[path] = functions[path].replace("define internal ", "define ", 1)
        text = self.with_these(functions, calls)
        return NAME.sub(lambda it: "@" + calls.get(it[1], it[1]), text)

    def of_part(self, part):
        """The module of a part."""
        if part == "c":
            calls = [(f'"all::{crate}::{at}::{name}"', name) for crate in LIBRARY for at, name, _ in exports(crate)]
            return self.of_library(dict(calls))
        return self.of_vt() if part == "vt" else self.of_other(part)
