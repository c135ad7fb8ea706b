#!/usr/bin/env python3
"""Tries the wrong bodies of crates/NAME/wrong/*.edit: the checker has to refuse each.

usage: dev/checks/check_wrong_bodies.py [--jobs N] [--anew] [--verdicts FILE] [CRATE ..]
       dev/checks/check_wrong_bodies.py --self-test

A proof sees of another function its clauses alone. So many edits are tried in one check: as many as change different
functions of a crate, each judged by the goals of its own function. Every other function of the crate is cut off: its
body is an endless loop, and its proof a hole. Each crate is checked once without an edit first: there every function
has to be accepted, so that a goal which is open later is open because of an edit. An edit of a constant or a table is
tried alone, over the laws that name it, and if these still hold, over all functions that name it; a function that is
open then has to be accepted without the edit.

It checks over the libraries that `rt ci` (or `rt check`) has left in crates/*/out, and prints a line for each crate, a
line for each edit that isn't refused, and last 'N passed, M failed'. An edit passes if its function has an open goal.
The others fail: NOT REFUSED, the function is still proved; STALE NAMES, its answers only name what isn't there any
more; DOES NOT COMPILE; CHANGES TWO PLACES; NOT FOUND; BAD FORM; NO VERDICT, the check ended without one.

`--jobs N` checks N crates side by side (default: as many as there are processors and memory). What passed is kept in
$XDG_CACHE_HOME/vt (~/.cache/vt) by a sum of the crate, the crates below it, the toolchain and this tool, and isn't
tried again; `--anew` tries all. `--verdicts FILE` writes a line for each edit. `--self-test` tries planted edits of
each kind. Status 1: an edit fails; 2: a word, a library or the toolchain is missing.
"""
import argparse
import concurrent.futures
import contextlib
import functools
import hashlib
import os
import pathlib
import re
import shutil
import subprocess
import sys
import tempfile
import time

sys.dont_write_bytecode = True
sys.path.insert(0, str(pathlib.Path(__file__).resolve().parents[1]))

from repository import TOP, path_of  # noqa: E402: after the folder that it stands in
import planted  # noqa: E402
from copy_crates import lines_of, needs  # noqa: E402
from edits import (  # noqa: E402
    BadEdit, edited_texts, functions_changed, functions_of, module_of, test_modules, types_of)

PARTS = ("src", "specs", "proofs")
LIMIT = 1800  # seconds of one check
NEED = 3 << 30  # bytes that one check may take
REFUSED = "refused"
NOT_REFUSED = "NOT REFUSED"
STALE = "STALE NAMES"
NOT_COMPILED = "DOES NOT COMPILE"
NO_VERDICT = "NO VERDICT"
STATE = re.compile(r"^fn (\S+): (.*)$", re.M)
ACCEPTED = ("proved", "no holes", "depends on a hole", "assumed")
# What antt writes of an answer whose names are gone, and not of one that proves something else.
BY_NAME = re.compile(r"has no field|has no +that can be named|is not in scope|was not admitted|is no name|no module is found")


class Stop(Exception):
    """Why nothing can be tried."""


def kit():
    found = shutil.which("rt")
    if found is None:
        raise Stop("rt isn't there: the Rattle toolchain's folder bin belongs in PATH")
    return pathlib.Path(found).resolve().parent.parent


@functools.lru_cache(maxsize=None)
def crate_lines():
    return lines_of(TOP / "crates.txt")


@functools.lru_cache(maxsize=None)
def below(name):
    """The repository's crates below one, each after those that it uses."""
    found = []
    for it in needs(crate_lines()[name]):
        if it in crate_lines():
            found += [other for other in (*below(it), it) if other not in found]
    return found


def files_of(folder):
    """The files of a crate that a check reads."""
    return [it for part in PARTS for it in sorted((folder / part).rglob("*")) if it.is_file()]


def library(name):
    """The library that a proof of a crate left; it has to be as new as the crate's files."""
    folder = TOP / "crates" / name
    made = folder / "out/rlib" / f"{name}.rlib"
    if not made.is_dir():
        raise Stop(f"{made.relative_to(TOP)} isn't there: run rt ci first")
    if made.stat().st_mtime < max(it.stat().st_mtime for it in files_of(folder)):
        raise Stop(f"{made.relative_to(TOP)} is older than the crate's files: run rt ci first")
    return made


class Crate:
    """A crate: its name, its folder, and the checker's words for the libraries below it."""

    def __init__(self, name, folder=None, of_kit=(), libraries=(), is_static=False):
        self.name, self.folder = name, folder or TOP / "crates" / name
        root = "src/main.rt" if (self.folder / "src/main.rt").exists() else "src/lib.rt"
        self.words = ["--crate-name", name, root, "--links", f"{name}=", "--jobs", "1"]
        for it in ("std", *of_kit):
            self.words += ["--extern", f"{it}={kit()}/rlibs/{it}.rlib"]
        for it, is_named in libraries:
            self.words += ["--extern", f"{it}={library(it)}"] if is_named else []
            self.words += ["-L", f"dependency={library(it).parent}"]
        self.words += ["--crate-type", "staticlib"] if is_static else []
        self.words += ["-L", f"dependency={kit()}/rlibs", "--logic-built", f"{kit()}/logic_built"]
        self.words += ["--antt-project", f"{kit()}/rattle/logic/antt-project.json"]
        self.types, self.of_tests = types_of(self.folder), list(test_modules(self.folder))

    def sources(self):
        """Each source file that a check reads: its name and its text."""
        for file in sorted((self.folder / "src").rglob("*.rt")):
            name = str(file.relative_to(self.folder))
            module = "::".join(module_of(name))
            if not any(f"{module}::".startswith(f"{it}::") for it in self.of_tests):
                yield name, file.read_text(encoding="utf-8")

    def bodies(self):
        """Each function with its text: its head, its clauses and its body."""
        for name, text in self.sources():
            lines = text.split("\n")
            for it in functions_of(name, text, self.types):
                yield it, "\n".join(lines[it.head : it.closes + 1])


def listed_crate(name):
    """A crate of crates.txt, over the libraries that its proof used."""
    line = crate_lines()[name]
    named = needs(line)
    libraries = [(it, it in named) for it in below(name)]
    of_kit = [it for it in named if it not in crate_lines()]
    return Crate(name, None, of_kit, libraries, bool(re.match(r"\w+ staticlib", line)))


class Edit:
    """An edit that can be applied: the texts of its files, and the functions that it changes (none: a constant)."""

    def __init__(self, crate, name, text):
        self.name, self.texts = name, edited_texts(crate.folder, text)
        self.functions, self.is_of_bodies = [], True
        for file, (before, after) in self.texts.items():
            found = functions_changed(file, before, after, crate.types)
            self.is_of_bodies = self.is_of_bodies and found is not None
            self.functions += [it.path for it in found or []]

    def constants(self):
        """The names of the items outside of functions whose lines the edit changes."""
        names = set()
        for before, after in self.texts.values():
            lines, last = before.split("\n"), None
            for old, new in zip(lines, after.split("\n")):
                item = re.match(r"\s*(?:pub(?:\([^)]*\))? )?(?:const|static) (\w+)", old)
                last = item[1] if item else last
                if old != new:
                    names.add(last)
        return names - {None}


class Room:
    """A copy of a crate in which functions are edited or cut off, and the work that its checks leave for the next."""

    def __init__(self, crate, folder):
        self.crate, self.folder, self.work, self.checks = crate, folder / "crate", folder / "work", 0

    def write(self, texts, kept):
        """Writes the crate with these texts of files; every function except those with the kept paths is cut off."""
        shutil.rmtree(self.folder, ignore_errors=True)
        for part in PARTS:
            if (self.crate.folder / part).is_dir():
                shutil.copytree(self.crate.folder / part, self.folder / part)
        for name, text in self.crate.sources():
            text = self.without_bodies(name, texts.get(name, text), kept)
            (self.folder / name).write_text(text, encoding="utf-8")

    def without_bodies(self, name, text, kept):
        """A file's text whose other functions are cut off; their proofs become holes."""
        lines = text.split("\n")
        for it in reversed(functions_of(name, text, self.crate.types)):
            if it.path in kept or it.is_of_trait or it.in_cycle:
                continue
            self.cut_proof(it.path)
            if not it.is_const and it.opens < it.closes:
                lines[it.opens + 1 : it.closes] = [" " * (len(lines[it.closes]) - 1) + "    loop {}"]
        return "\n".join(lines)

    def cut_proof(self, path):
        """Puts a hole in place of a function's proof."""
        names = path.split("::")
        folder = self.folder.joinpath("proofs", *names)
        folder.mkdir(parents=True, exist_ok=True)
        for name in ("Answers.antt", "Invariants.antt"):
            (folder / name).unlink(missing_ok=True)
        statement = ".".join(["Rattle", self.crate.name, "proofs", *names, "Statement"])
        text = f"use {statement}.{{statement}}\n\npub {names[-1]}_spec : {{M : Type 1}} → statement M\n{names[-1]}_spec = ?\n"
        (folder / "Proof.antt").write_text(text, encoding="utf-8")

    def check(self, texts, wanted):
        """Checks the wanted functions of the crate with these texts, and gives what the checker prints."""
        self.write(texts, wanted)
        self.checks += 1
        words = [kit() / "bin/rattle", "check", *self.crate.words, "--incremental", self.work, "--allow-holes"]
        words += [word for it in wanted for word in ("--only", it)]
        try:
            ran = subprocess.run(
                words, cwd=self.folder, stdin=subprocess.DEVNULL, stdout=subprocess.PIPE, stderr=subprocess.STDOUT,
                encoding="utf-8", errors="replace", timeout=LIMIT, check=False,
            )  # fmt: skip
        except subprocess.TimeoutExpired:
            return f"no end after {LIMIT} seconds"
        return f"ended by signal {-ran.returncode}" if ran.returncode < 0 else ran.stdout


def has_verdict(said):
    """Whether the check came to its end."""
    last = said.rstrip("\n").rsplit("\n", 1)[-1]
    return last.startswith(("only=", "holes=", "logic="))


def errors_of(said, place):
    """The errors and open goals at files whose path matches."""
    pattern = rf"^(?:note: )?(?:\./)?({place}):\d+:\d+: (.*)$"
    return [it[2] for it in re.finditer(pattern, said, re.M) if "error" in it[2] or "not proved" in it[2]]


def verdict_of(said, name, path):
    """What a check says of the function that an edit changes: a kind, and the open goals or the first error."""
    states = dict(STATE.findall(said))
    state = states.get(f"{name}::{path}")
    if state is None:
        return NO_VERDICT, f"the checker prints nothing of {path}"
    if state.startswith(ACCEPTED):
        return NOT_REFUSED, f"{path} is still proved"
    open_goals = re.search(r"`search` did not prove (`[^`]*`(?:, `[^`]*`)*)", state)
    if open_goals:
        return REFUSED, f"{path}: {open_goals[1]}"
    errors = errors_of(said, f"proofs/{path.replace('::', '/')}/[^/:]*")
    told = [it for it in errors if not BY_NAME.search(re.sub(r"`[^`]*`", "", it))]
    if told:
        return REFUSED, f"{path}: {told[0]}"
    if errors:
        return STALE, errors[0]
    if "expected a measure" in state:
        return REFUSED, f"{path}: nothing shows that its loops end"
    return NO_VERDICT, f"{path}: {state}"


def verdict_of_constant(said):
    """What a check says of an edit of a constant, which any function may notice."""
    open_states = [state for _, state in STATE.findall(said) if not state.startswith(ACCEPTED)]
    if not open_states:
        return NOT_REFUSED, "every function is still proved"
    goals = [it[1] for it in (re.search(r"`search` did not prove (.*)", state) for state in open_states) if it]
    told = goals + [it for it in errors_of(said, r"[^:]*") if not BY_NAME.search(re.sub(r"`[^`]*`", "", it))]
    return (REFUSED, told[0]) if told else (STALE, open_states[0])


class Trial:
    """The edits of one crate, tried in rounds."""

    def __init__(self, crate, texts, folder):
        self.crate, self.texts, self.room, self.verdicts = crate, texts, Room(crate, folder), {}

    def run(self):
        """Tries each edit, and gives its verdict by its name."""
        edits = []
        for name, text in self.texts.items():
            try:
                edits.append(Edit(self.crate, name, text))
            except BadEdit as fault:
                self.verdicts[name] = fault.kind, str(fault)
        of_bodies = [it for it in edits if it.is_of_bodies]
        self.control(sorted({path for it in of_bodies for path in it.functions}))
        for taken in rounds(of_bodies):
            self.round(taken)
        for it in edits:
            if not it.is_of_bodies:
                self.constant(it)
        return self.verdicts

    def control(self, paths):
        """Checks the functions as they are, among those that are cut off: each has to be accepted."""
        said = self.room.check({}, paths) if paths else ""
        states = dict(STATE.findall(said))
        for path in paths:
            state = states.get(f"{self.crate.name}::{path}", "no line")
            if not state.startswith(ACCEPTED):
                raise Stop(f"{self.crate.name}: {path} isn't accepted without an edit: {state}\n{tail(said)}")

    def open_paths(self, said):
        """The functions of the crate that a check didn't accept."""
        states = [(name, state) for name, state in STATE.findall(said) if not state.startswith(ACCEPTED)]
        return [name.removeprefix(f"{self.crate.name}::") for name, _ in states]

    def round(self, edits):
        """Tries edits of different functions in one check; one by one if that has no verdict."""
        paths = [path for it in edits for path in it.functions]
        said = self.room.check(self.joined(edits), paths)
        found = {it.name: self.verdict(it, said) for it in edits}
        for it in edits:
            if len(edits) > 1 and found[it.name][0] in (NO_VERDICT, NOT_COMPILED):
                self.round([it])
            else:
                self.verdicts[it.name] = found[it.name]

    def verdict(self, edit, said):
        if not has_verdict(said):
            return verdict_without_end(said)
        found = [verdict_of(said, self.crate.name, path) for path in edit.functions]
        return next((it for it in found if it[0] == REFUSED), found[0])

    def joined(self, edits):
        """The texts of the files with the bodies of all these edits."""
        texts, types = {}, self.crate.types
        for edit in edits:
            for file, (before, after) in edit.texts.items():
                now = texts.get(file, before)
                lines, others = now.split("\n"), after.split("\n")
                both = zip(functions_of(file, now, types), functions_of(file, after, types))
                for one, other in reversed(list(both)):
                    if one.path in edit.functions:
                        lines[one.opens : one.closes + 1] = others[other.opens : other.closes + 1]
                texts[file] = "\n".join(lines)
        return texts

    def constant(self, edit):
        """Tries an edit of a constant alone: over the laws that name it, then over all functions that do, then over all."""
        names = re.compile(r"\b(" + "|".join(map(re.escape, edit.constants())) + r")\b")
        every = list(self.crate.bodies())
        naming = [it for it, text in every if names.search(text)]
        texts = {file: after for file, (_, after) in edit.texts.items()}
        found = NOT_REFUSED, "every function is still proved"
        for wanted in ([it for it in naming if it.opens == it.closes], naming, [it for it, _ in every]):
            if wanted and found[0] == NOT_REFUSED:
                said = self.room.check(texts, [it.path for it in wanted])
                found = verdict_of_constant(said) if has_verdict(said) else verdict_without_end(said)
        if found[0] == REFUSED:
            self.control(self.open_paths(said))
        self.verdicts[edit.name] = found


def rounds(edits):
    """The edits in rounds, each of edits of different functions; one that changes several functions is alone."""
    left = edits
    while left:
        taken, rest, paths = [], [], set()
        for it in left:
            fits = not paths & set(it.functions) and (not taken or len(it.functions) == 1)
            (taken if fits else rest).append(it)
            paths |= set(it.functions) if fits else set()
        yield taken
        left = rest


def verdict_without_end(said):
    """What a check says that didn't come to its end: code that isn't compiled, or a check that was ended."""
    errors = [it for it in said.splitlines() if "error" in it]
    return (NOT_COMPILED, errors[0]) if errors else (NO_VERDICT, (said.splitlines() or ["the checker prints nothing"])[-1])


def tail(said):
    return "\n".join(said.splitlines()[-15:])


def sum_of(name, paths):
    """A sum of all that the verdicts of a crate's edits depend on."""
    made = hashlib.sha256((kit() / "KIT-ID").read_bytes())
    tools = [path_of(it) for it in ("check_wrong_bodies.py", "edits.py", "copy_crates.py")]
    crates = [*below(name), name]
    for file in [*tools, *(file for it in crates for file in files_of(TOP / "crates" / it)), *paths]:
        made.update(repr(str(file.relative_to(TOP))).encode() + file.read_bytes())
    made.update("".join(crate_lines()[it] for it in crates).encode())
    return made.hexdigest()


def cache():
    home = os.environ.get("XDG_CACHE_HOME") or os.path.expanduser("~/.cache")
    return pathlib.Path(home) / "vt/wrong-bodies"


def tried(name, paths, anew):
    """The verdicts of a crate's edits, the number of checks, and the seconds by the clock."""
    mark, start = cache() / sum_of(name, paths), time.monotonic()
    if mark.exists() and not anew:
        return {path.stem: (REFUSED, "kept") for path in paths}, 0, 0.0
    texts = {path.stem: path.read_text(encoding="utf-8", errors="replace") for path in paths}
    with tempfile.TemporaryDirectory(prefix="wrong-bodies-") as folder:
        trial = Trial(listed_crate(name), texts, pathlib.Path(folder))
        verdicts = trial.run()
    if all(kind == REFUSED for kind, _ in verdicts.values()):
        with contextlib.suppress(OSError):  # it is tried again then
            mark.parent.mkdir(parents=True, exist_ok=True)
            mark.touch()
    return verdicts, trial.room.checks, time.monotonic() - start


def side_by_side():
    """How many checks the processors and the free memory take."""
    found = re.search(r"^MemAvailable:\s+(\d+)", pathlib.Path("/proc/meminfo").read_text(encoding="ascii"), re.M)
    memory = int(found[1]) * 1024 if found else NEED
    return max(1, min(len(os.sched_getaffinity(0)), memory // NEED))


def run(names, options):
    """Tries the edits of crates side by side, the largest crates first."""
    edits = {name: sorted((TOP / "crates" / name / "wrong").glob("*.edit")) for name in names}
    edits = {name: paths for name, paths in edits.items() if paths}
    if not edits:
        raise Stop("there is no edit in crates/NAME/wrong of these crates")
    weight = lambda name: len(edits[name]) * sum(it.stat().st_size for it in files_of(TOP / "crates" / name))
    passed, failed, lines, whole = 0, 0, [], sum(map(len, edits.values()))
    with concurrent.futures.ThreadPoolExecutor(options.jobs or side_by_side()) as pool:
        running = {pool.submit(tried, it, edits[it], options.anew): it for it in sorted(edits, key=weight, reverse=True)}
        try:
            for done in concurrent.futures.as_completed(running):
                name, (verdicts, checks, seconds) = running[done], done.result()
                good = sum(kind == REFUSED for kind, _ in verdicts.values())
                passed, failed = passed + good, failed + len(verdicts) - good
                how = f"{checks} checks, {seconds:.0f} s" if checks else "kept from an earlier run"
                print(f"{name}: {good} of {len(verdicts)} refused ({how}); {passed + failed} of {whole}", flush=True)
                for edit, (kind, detail) in sorted(verdicts.items()):
                    lines.append(f"{name}/{edit}: {kind}: {detail}\n")
                    if kind != REFUSED:
                        print(f"crates/{name}/wrong/{edit}.edit: {kind}: {detail}", flush=True)
        finally:
            pool.shutdown(cancel_futures=True)
    if options.verdicts:
        pathlib.Path(options.verdicts).write_text("".join(sorted(lines)), encoding="utf-8")
    print(f"{passed} passed, {failed} failed")
    return 1 if failed else 0


def self_test():
    """Tries planted edits over a small crate of its own: each kind has to be told apart."""
    failed = 0
    with tempfile.TemporaryDirectory(prefix="wrong-bodies-") as folder:
        folder = pathlib.Path(folder)
        for name, text in planted.FILES.items():
            (folder / "planted" / name).parent.mkdir(parents=True, exist_ok=True)
            (folder / "planted" / name).write_text(text, encoding="utf-8")
        texts = {name: text for name, _, text in planted.EDITS}
        verdicts = Trial(Crate("planted", folder / "planted"), texts, folder).run()
    for name, wanted, _ in planted.EDITS:
        kind, detail = verdicts[name]
        if kind != wanted:
            failed += 1
            print(f"planted edit {name}: wanted {wanted}, found {kind}: {detail}")
    print(f"{len(planted.EDITS) - failed} passed, {failed} failed")
    return 1 if failed else 0


def main():
    parser = argparse.ArgumentParser(usage=__doc__.split("usage: ")[1].split("\n\n")[0])
    parser.add_argument("--jobs", type=int, default=0)
    parser.add_argument("--anew", action="store_true")
    parser.add_argument("--verdicts")
    parser.add_argument("--self-test", action="store_true")
    parser.add_argument("crates", nargs="*")
    options = parser.parse_args()
    if options.jobs < 0:
        parser.error(f"--jobs {options.jobs}: a number from 0 was wanted")
    try:
        if options.self_test:
            return self_test()
        unknown = [it for it in options.crates if it not in crate_lines()]
        if unknown:
            raise Stop(f"crates.txt has no crate {unknown[0]}")
        return run(options.crates or list(crate_lines()), options)
    except Stop as stop:
        print(f"check_wrong_bodies.py: {stop}", file=sys.stderr)
    except OSError as fault:
        print(f"check_wrong_bodies.py: {fault.filename or 'a file'}: {fault.strerror}", file=sys.stderr)
    return 2


if __name__ == "__main__":
    sys.exit(main())
