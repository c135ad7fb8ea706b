"""What programs of libvt.so.1 rely on: the calls, structs, numbers and macros of vt.h, a line each, in
libvt/src/interface.txt; and the symbols of the Debian package, in debian/libvt1.symbols.

A call has its parameters, without their names; a struct its size, and each member its place, as libvt/tests/layout.c
prints them. Spare members aren't in the file: they may get names.
"""
import re

from .bench import TOP

HEADER = TOP / "libvt/include/vt.h"
STORED = TOP / "libvt/src/interface.txt"
SYMBOLS = TOP / "debian/libvt1.symbols"
MANUAL = TOP / "man/vt.3"
# Whether the file gets what the header has more.
ADDS = False
COMMENT = re.compile(r"/\*.*?\*/", re.S)
CALL = re.compile(r"^((?:static inline )?\w+) (vt_\w+)\(([^;{]*)\)", re.M)
ENUM = re.compile(r"^enum(?: \w+)? \{(.*?)\}", re.M | re.S)
MACRO = re.compile(r"^#define (VT_(?!H$|VERSION)\w+) (.+)$", re.M)


def type_of(parameter):
    """The type of a parameter."""
    words = " ".join(parameter.split())
    array = re.search(r"\[\d*\]$", words)
    name = re.sub(r"\w+(\[\d*\])?$", "", words).strip() if words != "void" else words
    return name + (f" {array[0]}" if array else "")


def lines_of_header():
    """The calls, numbers and macros of vt.h."""
    text = COMMENT.sub("", HEADER.read_text(encoding="utf-8"))
    for result, name, parameters in CALL.findall(text):
        yield f"call {name}: {', '.join(map(type_of, parameters.split(',')))}: {result}"
    for block in ENUM.findall(text):
        for item in filter(None, (it.strip() for it in block.split(","))):
            yield f"number {' '.join(item.split())}"
    for name, value in MACRO.findall(text):
        yield f"macro {name} {' '.join(value.split())}"


def present(layout):
    """Every line of the header as it is, with the sizes and places that layout.c printed."""
    return [*lines_of_header(), *(f"place {line}" for line in layout if ".spare " not in line)]


def prototypes_of_header():
    """Each call of vt.h that is no inline function, with its result and its parameters."""
    text = COMMENT.sub("", HEADER.read_text(encoding="utf-8"))
    return [" ".join(f"{result} {name}({parameters})".split()) for result, name, parameters in CALL.findall(text)
            if not result.startswith("static")]


def prototypes_of_manual():
    """The same of the synopsis of vt(3)."""
    found, text = [], MANUAL.read_text(encoding="utf-8")
    for line in text.partition(".Sh SYNOPSIS\n")[2].partition(".Sh DESCRIPTION\n")[0].splitlines():
        word, _, rest = line.partition(" ")
        parameters = re.findall(r'"([^"]*)"|(\S+)', rest)
        names = [quoted or plain for quoted, plain in parameters]
        if word == ".Ft":
            result = rest
        elif word == ".Fn":
            found.append(f"{result} {names[0]}({', '.join(names[1:])})")
        elif word == ".Fo":
            name, taken = rest, []
        elif word == ".Fa":
            taken += names
        elif word == ".Fc":
            found.append(f"{result} {name}({', '.join(taken)})")
    return found


def package_calls():
    """The calls in the list of the package, each with the version that it came with."""
    text = SYMBOLS.read_text(encoding="utf-8") if SYMBOLS.exists() else ""
    return dict(re.findall(r"^ (vt_\w+)@VT_1 (\S+)$", text, re.M))


def add_symbols(calls):
    """Adds to the list of the package the calls that it lacks, as new in the version of vt(3)."""
    version = re.search(r'^\.Os "vt ([\d.]+)"$', MANUAL.read_text(encoding="utf-8"), re.M)[1]
    listed = {**dict.fromkeys(calls, version), **package_calls()}
    head = ["libvt.so.1 libvt1 #MINVER#", " VT_1@VT_1 1.0.0"]
    lines = [*head, *(f" {name}@VT_1 {listed[name]}" for name in sorted(listed))]
    SYMBOLS.write_text("".join(f"{line}\n" for line in lines), encoding="utf-8")


def stored():
    """The lines of the file."""
    return STORED.read_text(encoding="utf-8").splitlines() if STORED.exists() else []


def faults(layout):
    """The lines of the file that the header lacks, and those of the header that the file lacks."""
    now, then = present(layout), stored()
    gone = [f"vt.h no longer has: {line}" for line in then if line not in now]
    return gone + [f"the file lacks, and check_c.py --add-interface adds: {line}" for line in now if line not in then]


def add(layout):
    """Adds to the file what it lacks, and takes nothing away."""
    then = stored()
    new = [line for line in present(layout) if line not in then]
    STORED.write_text("".join(f"{line}\n" for line in [*then, *new]), encoding="utf-8")
