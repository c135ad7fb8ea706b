"""One crate of all parts that are built together: each program's crate becomes a module of it.

The compiler reads the libraries below once for all of them. `main` is that of `vt`, since only a crate's own `main` may
start threads. Before it does anything it asks for a word of the command line that no call has: so all other parts are
compiled too, and none is ever called.
"""
import re

from programs import TOP
from tool_files import Stop

from .crates import PARTS, PROGRAMS, rows

TACTIC = "#![tactic(auto)]\n"
MAIN = "fn main(rt: HostRuntime) -> ExitCode {\n"
# The main of a build without vt.
ALONE = f"""//! Nothing of its own.
{TACTIC}
use std::process::ExitCode;

{MAIN}    ExitCode::from(0)
}}
"""
CHOICE = """//! Calls each part.
use std::env::Env;
use std::process::ExitCode;

const MOST: usize = 1_000_000_000;

pub(crate) fn which(rt: &HostRuntime) -> usize {
%s    let mut buffer = [0; 8];
    match rt.arg(MOST, &mut buffer) {
        Ok(len) => len,
        Err(_) => MOST,
    }
}
"""
EXPORT = re.compile(r'pub extern "C" fn (\w+)\(([^)]*)\)')


def module_name(part, crate):
    """The module of a part's crate."""
    return crate if part == "c" else part


def modules(parts):
    """The modules, each with its crate; vt is the crate itself."""
    return [(module_name(part, crate), crate) for part in parts if part != "vt" for crate in PARTS[part]]


def inner_paths(text, name):
    """The text with `crate::` as the path of its module; in an attribute `specs` and `proofs` keep theirs."""
    return re.sub(r"\bcrate::(?!specs::|proofs::)", f"crate::{name}::", text)


def root_text(text, is_library):
    """The root file of a crate as a module."""
    text = text.replace(TACTIC, "")
    text = re.sub(r"(?m)^fn main\(", "pub(crate) fn main(", text)
    return text + ("\npub(crate) mod reached;\n" if is_library else "")


def write_module(name, crate, folder):
    """Writes the sources of a crate as a module."""
    source = TOP / f"crates/{crate}/src"
    for file in sorted(source.rglob("*.rt")):
        text = inner_paths(file.read_text(encoding="utf-8"), name)
        to = folder / name / file.relative_to(source)
        if file in (source / "main.rt", source / "lib.rt"):
            text, to = root_text(text, file.name == "lib.rt"), folder / name / "mod.rt"
        to.parent.mkdir(parents=True, exist_ok=True)
        to.write_text(text, encoding="utf-8")


def exports(crate):
    """The calls for C of a crate: the module, the name and the types of the parameters."""
    found = []
    for file in sorted((TOP / f"crates/{crate}/src").glob("*.rt")):
        for name, words in EXPORT.findall(file.read_text(encoding="utf-8")):
            found.append((file.stem, name, [it.partition(":")[2].strip() for it in words.split(",") if it.strip()]))
    return found


def path_of_type(crate, name):
    """The path of a struct that a crate has in a module of its own, or a library that it uses at its top."""
    for owner in (crate, *rows()[crate]):
        for file in sorted((TOP / f"crates/{owner}/src").glob("*.rt")):
            if re.search(rf"\bstruct {name}\b", file.read_text(encoding="utf-8")):
                return f"crate::{crate}::{file.stem}::{name}" if owner == crate else f"{owner}::{name}"
    raise Stop(1, f"crates/{crate} has no struct {name}, which a call for C takes")


def reaching_call(name, types):
    """A function that names a call: its arguments are none, so the call is compiled and not made."""
    names = [f"a{n}" for n in range(len(types))]
    parameters = ", ".join(f"{a}: Option<{t}>" for a, t in zip(names, types))
    opened = "".join(f"if let Some({a}) = {a} {{ " for a in names)
    call = f"    {opened}let _ = {name}({', '.join(names)});{' }' * len(names)}"
    return [f"pub(crate) fn reach_{name}({parameters}) {{", call, "}", ""]


def reaching_module(crate):
    """The module that names each call for C of a crate."""
    calls, uses, lines = [], set(), []
    for module, name, types in exports(crate):
        uses.add(f"use crate::{crate}::{module}::{name};")
        kinds = re.findall(r"\b(?:Vt|Screen|Keys|Machine)\w+", " ".join(types))
        uses.update(f"use {path_of_type(crate, kind)};" for kind in kinds)
        lines += reaching_call(name, types)
        calls.append(f"    reach_{name}({', '.join(['None'] * len(types))});")
    head = ["//! Names each call for C.", *sorted(uses), "use std::alloc::Global;", ""]
    return "\n".join([*head, *lines, "pub(crate) fn all() {", *calls, "}", ""])


def starting_call(part):
    """A function that calls the main of a program."""
    text = (TOP / f"crates/{PROGRAMS[part]}/src/main.rt").read_text(encoding="utf-8")
    call = f"crate::{part}::main(rt)"
    if MAIN not in text:
        call = f"match {call} {{ Ok(()) => ExitCode::from(0), Err(_) => ExitCode::from(1) }}"
    return f"\npub(crate) fn start_{part}(rt: HostRuntime) -> ExitCode {{\n    {call}\n}}\n"


def choosing_module(parts):
    """The module that names all parts."""
    reached = "".join(f"    crate::{crate}::reached::all();\n" for crate in PARTS["c"] if "c" in parts)
    return CHOICE % reached + "".join(starting_call(part) for part in parts if part not in ("c", "vt"))


def root_with(text, parts):
    """The root file with the modules, and with a main that could call each part."""
    if text.count(TACTIC) != 1 or text.count(MAIN) != 1:
        raise Stop(1, "crates/vt/src/main.rt has not the one line of its main that tools/build.py knows")
    names = ["parts", *(name for name, _ in modules(parts))]
    programs = [part for part in parts if part not in ("c", "vt")]
    arms = [f"        {n} => return parts::start_{part}(rt),\n" for n, part in enumerate(programs)]
    choice = f"    match parts::which(&rt) {{\n{''.join(arms)}        _ => {{}}\n    }}\n"
    text = text.replace(TACTIC, TACTIC + "\n" + "".join(f"mod {name};\n" for name in names))
    return text.replace(MAIN, MAIN + choice)


def write_sources(parts, folder):
    """Writes the crate of these parts; its root file is main.rt."""
    folder.mkdir(parents=True)
    for name, crate in modules(parts):
        write_module(name, crate, folder)
        if crate in PARTS["c"]:
            (folder / name / "reached.rt").write_text(reaching_module(crate), encoding="utf-8")
    root = ALONE
    if "vt" in parts:
        files = {it.name: it.read_text(encoding="utf-8") for it in (TOP / "crates/vt/src").glob("*.rt")}
        root = files.pop("main.rt")
        for name, text in files.items():
            (folder / name).write_text(text, encoding="utf-8")
    (folder / "parts.rt").write_text(choosing_module(parts), encoding="utf-8")
    (folder / "main.rt").write_text(root_with(root, parts), encoding="utf-8")


def own_paths(text, folder):
    """What the compiler prints, with the paths of the repository."""
    for name, crate in modules(PARTS):
        root = "lib.rt" if crate in PARTS["c"] else "main.rt"
        text = text.replace(f"{folder}/{name}/mod.rt", f"crates/{crate}/src/{root}")
        text = text.replace(f"{folder}/{name}/", f"crates/{crate}/src/")
    return text.replace(f"{folder}/", "crates/vt/src/").replace(f"{TOP}/", "")
