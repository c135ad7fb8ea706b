#!/usr/bin/env python3
"""Prints the files that the users' tools need, for tools/install.sh.

usage: tools/user_tools.py [--names]

Each line is a file, by its path from the top of the clone: the tools, the modules of the repository that they import,
and the data that these read. With --names each line is the name of an installed tool and its file. Status 1: a file is
missing.
"""
import ast
import pathlib
import sys

from programs import TOP
from tool_files import run

# The folders of the tools and of the modules that they import.
FOLDERS = (TOP / "tools", TOP / "dev/engines")
TOOLS = FOLDERS[0]
NAMES = {
    "vt-record": "record.py", "vt-expect": "expect.py", "vt-animation": "animation.py", "vt-keymap": "keymap.py",
    "vt-why": "why.py", "vt-compare-keymap": "compare_keymap.py", "vt-turns": "turns.py", "vt-timeline": "timeline.py",
    "vt-engines": "engines.py",
}  # fmt: skip
# What a module reads besides Python.
DATA = {
    "tools/package.py": [
        "libvt/bindings/python/libvt/*.py", "libvt/bindings/python/libvt/py.typed",
        "libvt/bindings/python/pytest_libvt.py",
    ],
    "tools/timeline.py": ["tools/timeline*.css", "tools/timeline*.js"],
    "tools/vt_names.py": ["crates/key_syms/src/table.rt", "crates/key_syms/src/index.rt"],
    "dev/engines/conformance/forms.py": ["examples/conformance/[a-z]*"],
    "dev/engines/conformance/engine_list.py": [
        "dev/engines/conformance/*.[ch]", "dev/engines/conformance/pyte_adapter.py",
    ],
}


def modules_in(file):
    """The modules that a file imports, as paths without an ending, from the folder of the tools."""
    folder = file.parent
    for node in ast.walk(ast.parse(file.read_text(encoding="utf-8"))):
        if isinstance(node, ast.Import):
            for name in node.names:
                yield from (it / name.name.replace(".", "/") for it in FOLDERS)
        elif isinstance(node, ast.ImportFrom):
            for base in [folder] if node.level else FOLDERS:
                base = base / (node.module or "").replace(".", "/")
                yield base
                for name in node.names:
                    yield base / name.name


def files_of(module):
    """The files of a module of the tools: none for one of Python."""
    if module.with_suffix(".py").is_file():
        return [module.with_suffix(".py")]
    return [module / "__init__.py"] if (module / "__init__.py").is_file() else []


def needed():
    """All files that the tools need."""
    wanted, found = [TOOLS / name for name in NAMES.values()], set()
    while wanted:
        file = wanted.pop()
        if file not in found:
            found.add(file)
            wanted += [it for module in modules_in(file) for it in files_of(module)]
    data = set()
    for file in found:
        for pattern in DATA.get(str(file.relative_to(TOP)), ()):
            matching = sorted(TOP.glob(pattern))
            if not matching:
                raise FileNotFoundError(f"{pattern}, which {file} reads, isn't there")
            data.update(matching)
    return sorted(str(file.relative_to(TOP)) for file in found | data)


def main():
    if sys.argv[1:] not in ([], ["--names"]):
        print("user_tools.py: no words were wanted, or --names", file=sys.stderr)
        return 1
    try:
        lines = [f"{name} tools/{file}" for name, file in NAMES.items()] if sys.argv[1:] else needed()
    except OSError as fault:
        print(f"user_tools.py: {fault}", file=sys.stderr)
        return 1
    print("\n".join(lines))
    return 0


if __name__ == "__main__":
    sys.exit(run(main))
