"""Finds the Python package libvt, in the clone or where tools/install.sh put it, and runs its modules as tools."""
import importlib
import importlib.util
import pathlib
import sys

import tool_files

TOP = pathlib.Path(__file__).resolve().parent.parent
FOLDER = TOP / "libvt/bindings/python"


def module(name):
    """A module of the package that needs no other one, without the C library."""
    place = importlib.util.spec_from_file_location(f"libvt_{name}", FOLDER / f"libvt/{name}.py")
    found = importlib.util.module_from_spec(place)
    place.loader.exec_module(found)
    return found


# The name by which the tool was called.
called = module("command_line").called


def run(name, missing, unwritten=1):
    """Runs a module of the package, and gives its status: `missing` if the C library isn't there, `unwritten` if
    standard output can't be written."""
    sys.path.insert(0, str(FOLDER))
    try:
        main = importlib.import_module(f"libvt.{name}").main
    except ImportError as fault:
        print(f"{called()}: {fault}; tools/build.py makes the library", file=sys.stderr)
        return missing
    return tool_files.run(main, unwritten)
