#!/usr/bin/env python3
"""Finds the programs that the tools run: vt, watch, picture, redraw and explore.

usage: tools/programs.py [--proved] NAME ..

A program is looked for at these places, in this order:

1. the path that an option of a tool gives, such as `--vt PATH`
2. the variable VT, WATCH, PICTURE, REDRAW or EXPLORE of the environment
3. the proved program of the clone, such as crates/vt/out/vt
4. out/bin of the clone, which tools/build.py fills without proofs
5. PATH, in which an installed program is `vt`, `vt-watch`, `vt-picture`, `vt-redraw` or `vt-explore`

Tools that were installed have no clone: they look into the folder `bin` of their prefix after the variable, and then
into PATH. With VT_PROVED=1 in the environment, or with --proved, no place counts except the third one.

Prints the path of each NAME, a line each. Status 1: there is no such program, and the line on standard error has all
places and what makes it; 2: the words aren't of the form.
"""
import contextlib
import functools
import os
import pathlib
import shutil
import sys
import tempfile

from tool_files import Stop, run

TOP = pathlib.Path(__file__).resolve().parent.parent
# The crate of each program.
CRATES = {"vt": "vt", "watch": "watch", "picture": "picture", "redraw": "redraw", "explore": "explore"}
ONLY_PROVED = "VT_PROVED"


class Missing(Stop):
    """No such program is there: the message has the places and what makes it."""


def is_clone():
    """Whether the tools stand in a clone, and aren't installed."""
    return (TOP / "crates.txt").is_file()


def installed_name(name):
    """The name of an installed program: other packages have a `watch` too."""
    return name if name == "vt" else f"vt-{name}"


def tool_name(name):
    """How one of the users' tools is called: by its file in the clone, or by its installed name."""
    return f"tools/{name}.py" if is_clone() else f"vt-{name.replace('_', '-')}"


def proved_path(name):
    """The place of the proved program in the clone."""
    return TOP / "crates" / CRATES[name] / "out" / CRATES[name]


def is_proved(name, path):
    """Whether this is the proved program of the clone."""
    return is_clone() and pathlib.Path(path).resolve() == proved_path(name).resolve()


def own_places(name):
    """The places of a program that belong to the tools, in order."""
    if not is_clone():
        return [TOP.parent.parent / "bin" / installed_name(name)]
    return [proved_path(name), TOP / "out/bin" / name]


def absence(name):
    """The message for a program that isn't there."""
    places = [f"--{name} PATH", f"the variable {name.upper()}", *map(str, own_places(name))]
    places.append(f"{installed_name(name)} in PATH")
    advice = "tools/install.sh of a clone installs it"
    if is_clone():
        advice = f"tools/build.py makes it in some two minutes, and rt run in crates/{CRATES[name]} proves it"
    return f"no program {name} is at any of its places: {', '.join(places)}; {advice}"


def chosen(name, option, status):
    """The path of the option or of the variable, or None if there is neither."""
    variable = os.environ.get(name.upper())
    for given, what in ((option, f"--{name}"), (variable, f"the variable {name.upper()}")):
        if given:
            found = shutil.which(os.fspath(given))
            if not found:
                raise Missing(status, f"{what} names {given}, and no program is there")
            return found
    return None


def find(name, option=None, status=2):
    """The path of a program; the option's path counts first. The status is that of a tool which doesn't find it."""
    path = chosen(name, option, status)
    if path is None:
        found = (shutil.which(str(place)) for place in own_places(name))
        path = next(filter(None, found), None) or shutil.which(installed_name(name))
    if path is None:
        raise Missing(status, absence(name))
    if os.environ.get(ONLY_PROVED) and not is_proved(name, path):
        why = f"{ONLY_PROVED} is set, so no other program counts"
        raise Missing(status, f"{path} isn't the proved program {proved_path(name)}; {why}")
    return pathlib.Path(path).absolute()


def to_measure(path, is_unproved_taken):
    """A program to take figures of: none that tools/build.py made, unless the caller takes these too."""
    path = pathlib.Path(path).resolve()
    try:
        lines = (path.parent / "BUILD").read_text(encoding="utf-8").splitlines()
    except OSError:
        lines = []
    if not is_unproved_taken and any(line.startswith(f"{path.name}: not proved") for line in lines):
        raise Missing(2, f"{path} isn't proved, so its figures are others than those of `vt`; --unproved takes it")
    return path


@functools.lru_cache(maxsize=None)
def find_for_check(name, option=None):
    """The same for a check: it prints a line if the program isn't the proved one, and ends if there is none."""
    tool = pathlib.Path(sys.argv[0]).name
    try:
        path = find(name, option)
    except Missing as missing:
        print(f"{tool}: {missing}", file=sys.stderr)
        sys.exit(missing.status)
    if not is_proved(name, path):
        print(f"{tool}: not proved: {path}", file=sys.stderr, flush=True)
    return path


@functools.lru_cache(maxsize=None)
def folder_of(paths):
    """A folder of links with these names to these programs, which is removed at the end."""
    folder = tempfile.TemporaryDirectory(prefix="vt-programs-")
    for name, path in paths:
        (pathlib.Path(folder.name) / name).symlink_to(path)
    return folder


def search_path(**options):
    """A PATH for the commands of pages: it begins with a folder that has the programs under the names of the pages."""
    paths = []
    for name in CRATES:
        with contextlib.suppress(Missing):
            paths.append((name, find(name, options.get(name))))
    return f"{folder_of(tuple(paths)).name}:{os.environ['PATH']}"


def main():
    words = [word for word in sys.argv[1:] if word != "--proved"]
    if not words or any(word not in CRATES for word in words):
        print(f"programs.py: names of {', '.join(CRATES)} were wanted, with or without --proved", file=sys.stderr)
        return 2
    if "--proved" in sys.argv:
        os.environ[ONLY_PROVED] = "1"
    try:
        for name in words:
            print(find(name, status=1))
    except Missing as missing:
        print(f"programs.py: {missing}", file=sys.stderr)
        return missing.status
    return 0


if __name__ == "__main__":
    sys.exit(run(main))
