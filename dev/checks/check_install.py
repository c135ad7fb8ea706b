#!/usr/bin/env python3
"""Checks tools/install.sh and tools/release.sh: what they install works without the clone.

usage: dev/checks/check_install.py

A small clone is made of the files that an installation needs and of the programs and the library that are built here,
proved or not. From there tools/install.sh installs into folders of their own; then that clone is removed. Each
installed program and tool is run with a PATH that has these folders alone, and has to do what its page shows, and
each tool says the name under which it is installed; none writes into the folder of the installation. The library is
in the folder of LIBDIR. Programs and a library that aren't proved are refused without --unproved, and so are bad
words. The archive of tools/release.sh has the sums of its files, is the same twice, and its programs run where it is
unpacked.

Prints a line for each thing that isn't so and last 'N passed, M failed'. Ends with status 1 if one fails, and with 2 if
no programs are built.
"""
import os
import pathlib
import shutil
import subprocess
import sys
import tempfile

sys.dont_write_bytecode = True
sys.path.insert(0, str(pathlib.Path(__file__).resolve().parents[1]))

import repository  # noqa: E402,F401: it has the folders of the modules below
import user_tools  # noqa: E402
from check_build import Check  # noqa: E402
from programs import CRATES, TOP, find_for_check, installed_name  # noqa: E402

SECONDS = 120
INSTALLERS = ("install.sh", "release.sh", "user_tools.py", "programs.py", "tool_files.py")
# What the tools run besides their own programs.
OTHERS = ("env", "sh", "cat", "sed", "true")
PAGES = ["man1/vt.1", "man1/vt-tools.1", "man1/vtrun.1", "man3/vt.3", "man5/vt-session.5", "man5/vt-journal.5", "man5/vt-keymap.5"]
LIBRARY = ("include/vt.h", "lib/libvt.a", "lib/libvt.so.1", "lib/libvt.so", "lib/pkgconfig/vt.pc")
KEYMAP = "share/vt/keymaps/us.map"
TEST = """SIZE 2 10
PUSH "hello"
?row 0 = "hello"
?row 1 = "x"
"""
SESSION = """rows = 2
cols = 10
turns = ["p1 until it waits", "p2 until it is over"]
[[process]]
script = ["open 1", "waitinput 0"]
[[process]]
script = ["open 1", "say 0 a"]
"""


def run(words, given="", **how):
    """Runs a command; gives its status, and what it prints on both streams."""
    how.update(input=given.encode(), capture_output=True, timeout=SECONDS, check=False)
    try:
        ran = subprocess.run([str(word) for word in words], **how)
    except OSError as fault:
        return -1, "", str(fault)
    return ran.returncode, ran.stdout.decode("utf-8", "replace"), ran.stderr.decode("utf-8", "replace")


class Clone:
    """A clone with the files of an installation alone."""

    def __init__(self, folder, is_proved_there):
        self.top = pathlib.Path(folder)
        names = [*user_tools.needed(), *(f"tools/{name}" for name in INSTALLERS), "crates.txt"]
        names.append("examples/keymaps/us.map")
        for name in [*names, *(f"man/{page.name}" for page in (TOP / "man").glob("*.[1-9]"))]:
            self.copy(TOP / name, name)
        for name, crate in CRATES.items():
            self.copy(find_for_check(name), f"crates/{crate}/out/{crate}" if is_proved_there else f"out/bin/{name}")
        self.has_library = (TOP / "out/c/lib/libvt.a").exists()
        if self.has_library:
            shutil.copytree(TOP / "out/c", self.top / "out/c", symlinks=True)
            (self.top / "out/c/lib/libvt.a").touch()
            word = "proved" if is_proved_there else "not proved"
            (self.top / "out/c/BUILD").write_text(f"libvt: {word}, commit x\n", encoding="utf-8")
        self.has_vtrun = self.has_library and (TOP / "out/bin/vtrun").exists()
        if self.has_vtrun:
            self.copy(TOP / "out/bin/vtrun", "out/bin/vtrun")
        (self.top / "out/bin").mkdir(parents=True, exist_ok=True)
        lines = "".join(f"{name}: not proved, commit x\n" for name in CRATES)
        (self.top / "out/bin/BUILD").write_text(lines, encoding="utf-8")

    def copy(self, source, name):
        """Puts a copy of a file into the clone."""
        (self.top / name).parent.mkdir(parents=True, exist_ok=True)
        shutil.copy(source, self.top / name)

    def install(self, *words, **variables):
        """Runs tools/install.sh."""
        environment = {**os.environ, "DESTDIR": "", **variables}
        return run([self.top / "tools/install.sh", *words], env=environment)


def check_refused(check, folder):
    """Bad words, and what isn't proved."""
    clone, to = Clone(folder / "unproved", False), folder / "nothing"
    for words in ([], ["-x"], [to, "more"], ["LIBDIR=lib"], ["--unproved"], [to, "LIBDIR="]):
        status, _, err = clone.install(*words)
        check.holds(status == 1 and "usage: install.sh" in err, f"install.sh {words} ends with {status}: {err}")
    status, out, err = clone.install(to)
    good = status == 1 and not out and "vt isn't proved, and is left out" in err and not to.exists()
    check.holds(good, f"programs without proofs are installed: {status}, {err}")
    status, _, err = clone.install("--unproved", "/dev/null/x")
    check.holds(status == 1 and "can't be made" in err, f"a folder below a file: {status}, {err}")
    status, _, _ = clone.install("--unproved", "/opt/vt", DESTDIR=str(to))
    lines = (to / "opt/vt/share/vt/BUILD").read_text(encoding="utf-8").splitlines()
    wanted = len(CRATES) + clone.has_library
    good = status == 0 and len(lines) == wanted and all(": not proved, commit x" in line for line in lines)
    check.holds(good, f"BUILD of an installation without proofs: {lines}")
    status, out, err = run([clone.top / "tools/release.sh", folder], env=os.environ)
    good = status == 1 and not out and "release.sh: a program is missing" in err
    check.holds(good, f"programs without proofs are released: {status}, {err}")


def check_files(check, prefix, clone, libdir="lib"):
    """The installed files."""
    names = [*(f"bin/{installed_name(name)}" for name in CRATES), *(f"bin/{name}" for name in user_tools.NAMES)]
    names += [f"share/man/{page}" for page in PAGES]
    names += [name.replace("lib/", f"{libdir}/", 1) for name in (*LIBRARY, KEYMAP) if clone.has_library]
    names += ["bin/vtrun"] * clone.has_vtrun
    for name in names:
        check.holds((prefix / name).is_file(), f"{name} isn't installed")
    lines = (prefix / "share/vt/BUILD").read_text(encoding="utf-8").splitlines()
    check.holds(all(": proved, commit " in line for line in lines), f"BUILD of proved programs: {lines}")
    if clone.has_library:
        text = (prefix / libdir / "pkgconfig/vt.pc").read_text(encoding="utf-8")
        good = f"prefix={prefix}\n" in text and f"libdir={prefix}/{libdir}\n" in text
        check.holds(good, f"vt.pc has other folders:\n{text}")
        check.holds((prefix / "share/vt/out/c/lib/libvt.a").is_file(), "vt-engines has no library")


def path_of(prefix, folder):
    """A PATH with the installed programs, and with a few of the system's that the tools need."""
    folder.mkdir()
    for name in OTHERS:
        (folder / name).symlink_to(shutil.which(name))
    (folder / "python3").symlink_to(sys.executable)
    return f"{prefix}/bin:{folder}"


def check_terminals(check, do, has_library):
    """The installed tools over the library."""
    status, stream, err = do("vt-record", 2, 10, "--cast", "a.cast", "--", "sh", "-c", "echo hello")
    if not has_library:
        check.holds(status == 2 and "libvt.so.1" in err, f"vt-record without the library: {status}, {err}")
        return
    check.holds((status, stream) == (0, "hello\r\n"), f"vt-record: {status}, {stream!r}, {err}")
    do.folder.joinpath("a.test").write_text(TEST, encoding="utf-8")
    status, text, err = do("vt-expect", "a.test")
    check.holds(status == 1 and "# 1 hold, 1 fail\n" in text, f"vt-expect: {status}, {text}{err}")
    status, picture, err = do("vt-animation", "a.cast")
    check.holds(status == 0 and "hello" in picture, f"vt-animation: {status}, {err}")


def check_programs(check, do):
    """The installed programs and the tools that play on them."""
    check.holds(do("vt", "screen", 2, 5, given="abcdefghijk") == (0, "|fghij|\n|k    |\n", ""), "vt screen")
    stream = "hello\r\n"
    status, picture, err = do("vt-picture", 2, 10, given=stream)
    check.holds(status == 0 and "hello" in picture and picture.startswith("<svg "), f"vt-picture: {status}, {err}")
    status, text, err = do("vt-redraw", 2, 10, given=stream)
    drawn = do("vt", "screen", 2, 10, given=text)[1]
    check.holds(status == 0 and drawn == f"|hello{' ' * 5}|\n|{' ' * 10}|\n", f"vt-redraw: {err}")
    status, session, err = do("vt-turns", "-", given=SESSION)
    check.holds(status == 0 and "    1, 1, 1, 2, 2, 2, 2, 2,\n" in session, f"vt-turns: {status}, {session}{err}")
    status, text, err = do("vt-watch", "json", given=session)
    status, page, why = do("vt-timeline", given=text)
    check.holds(status == 0 and page.lower().startswith("<!doctype html>"), f"vt-watch and vt-timeline: {err}{why}")


def check_keymap_tools(check, do):
    """The tools for keymaps."""
    status, made, err = do("vt-keymap", "-", given="keymaps 0-1\nkeycode 30 = a\n")
    status, out, why = do("vt", "keys", given=made)
    check.holds(status == 0 and "map 0 30 2 97\n" in out and "map 1 30 2 65\n" in out, f"vt-keymap: {err}{why}{out}")
    pathlib.Path(do.folder, "bad.keymap").write_text("keymaps 0\nkeycode 30 = nosuch\n", encoding="utf-8")
    line = do("vt", "keys", given="keymaps 0\nkeycode 30 = nosuch\n")[2]
    status, out, err = do("vt-why", "bad.keymap", given=line)
    check.holds(status == 0 and "nosuch" in out, f"vt-why: {status}, {out}{err}")
    pathlib.Path(do.folder, "a.map").write_text("keymaps 0-1\nkeycode 30 = a\n", encoding="utf-8")
    status, out, err = do("vt-compare-keymap", "a.map")
    good = "a.map: same" in out if shutil.which("loadkeys", path=do.path) else "loadkeys" in err + out
    check.holds(good, f"vt-compare-keymap: {status}, {out}{err}")


def check_engines(check, do, has_library):
    """The engines of the corpus."""
    compiler = shutil.which("cc") or ""
    engines = ["vt", "libvt"] if has_library and compiler else ["vt"]
    status, out, err = do("vt-engines", *engines, "--only", "recordings", more=os.path.dirname(compiler))
    check.holds(status == 0 and "differs" not in err and "recordings" in out, f"vt-engines: {status}, {out}{err}")


# For each tool, words that it refuses, and what it is given.
REFUSED = {
    "vt-record": (["2", "x", "--", "true"], ""),
    "vt-expect": (["nosuch.test"], ""),
    "vt-animation": (["nosuch.cast"], ""),
    "vt-keymap": (["-"], "keymaps 0-1\nkeycode 30 = a Hex_0\n"),
    "vt-why": (["nosuch"], ""),
    "vt-compare-keymap": (["--vt", "nosuch", "a.map"], ""),
    "vt-turns": (["nosuch.toml"], ""),
    "vt-timeline": ([], "{"),
    "vt-engines": (["--kernel", "nosuch"], ""),
}


def check_names(check, do, has_library):
    """Each tool says its own name in its usage and in its messages, and no name of a file."""
    for name in user_tools.NAMES:
        has_words = has_library or name not in ("vt-record", "vt-expect", "vt-animation")
        status, out, err = do(name, "--help")
        good = status == 0 and out.startswith("usage: ") and name in out.partition("\n\n")[0] and not err
        check.holds(good or not has_words, f"{name} --help: {status}, {out}{err}")
        check.holds(".py" not in out and "-m libvt" not in out, f"{name} --help names a file: {out}")
        words, given = REFUSED[name]
        for refused in (words, ["--nosuch"]):
            _, _, err = do(name, *refused, given=given)
            last = err.rstrip("\n").rpartition("\n")[2]
            good = last.startswith(f"{name}: ") and ".py" not in err.replace("tools/build.py", "")
            check.holds(good, f"{name} {refused}: {err}")


class Installed:
    """Runs installed programs in a folder of their own, without any variable of this process."""

    def __init__(self, path, folder):
        self.path, self.folder = path, folder
        folder.mkdir()

    def __call__(self, name, *words, given="", more=""):
        environment = {"PATH": f"{self.path}:{more}" if more else self.path, "HOME": str(self.folder)}
        environment |= {"LC_ALL": "C.UTF-8", "PYTHONDONTWRITEBYTECODE": "1"}
        words = [shutil.which(name, path=self.path) or name, *words]
        return run(words, given, cwd=self.folder, env=environment)


def check_release(check, clone, folder):
    """The archive."""
    words = ["git", "-c", "user.name=vt", "-c", "user.email=vt@localhost"]
    (clone.top / ".gitignore").write_text("out/\n", encoding="utf-8")
    for rest in (["init", "-q"], ["add", "-A"], ["commit", "-qm", "all"]):
        run([*words, *rest], cwd=clone.top)
    sums = [run([clone.top / "tools/release.sh", folder / str(n)]) for n in range(2)]
    check.holds(sums[0][0] == 0 and sums[0] == sums[1], f"two archives of the same files: {sums}")
    archive = next((folder / "0").glob("vt-*-x86_64-linux.tar.gz"), None)
    check.holds(archive, "release.sh leaves no archive")
    if archive:
        run(["tar", "-C", folder, "-xf", archive])
        unpacked = folder / archive.name.replace(".tar.gz", "")
        status, out, err = run(["sha256sum", "-c", "--quiet", "SHA256SUMS"], cwd=unpacked)
        check.holds((status, out, err) == (0, "", ""), f"the sums of the archive: {out}{err}")
        check.holds("vt: proved, commit " in (unpacked / "BUILD").read_text(encoding="utf-8"), "BUILD of the archive")
        do = Installed(path_of(unpacked, folder / "system"), folder / "run")
        check_programs(check, do)
    for source in clone.top.glob("crates/*/src/*.rt"):
        source.touch()
    status, _, err = run([clone.top / "tools/release.sh", folder])
    check.holds(status == 1 and ".rt was changed after" in err, f"an older program is released: {status}, {err}")
    (clone.top / "crates.txt").write_text("changed\n", encoding="utf-8")
    status, _, err = run([clone.top / "tools/release.sh", folder])
    check.holds(status == 1 and "crates.txt" in err, f"a changed file is released: {status}, {err}")


def main():
    if sys.argv[1:]:
        print("check_install.py: no words were wanted", file=sys.stderr)
        return 2
    check = Check()
    with tempfile.TemporaryDirectory(prefix="vt-install-") as name:
        folder = pathlib.Path(name).resolve()
        check_refused(check, folder)
        clone, prefix, other = Clone(folder / "clone", True), folder / "prefix", folder / "other"
        for words in ([prefix], [other, "LIBDIR=lib/x86_64-linux-gnu"]):
            status, _, err = clone.install(*words)
            check.holds((status, err) == (0, ""), f"install.sh {words}: {status}, {err}")
        check_files(check, prefix, clone)
        check_files(check, other, clone, "lib/x86_64-linux-gnu")
        (folder / "release").mkdir()
        if shutil.which("git"):
            check_release(check, clone, folder / "release")
        shutil.rmtree(clone.top)
        shutil.rmtree(folder / "unproved")
        installed = set(prefix.rglob("*"))
        do = Installed(path_of(prefix, folder / "system"), folder / "run")
        check_programs(check, do)
        check_terminals(check, do, clone.has_library)
        check_keymap_tools(check, do)
        check_names(check, do, clone.has_library)
        check_engines(check, do, clone.has_library)
        more = sorted(map(str, set(prefix.rglob("*")) ^ installed))
        check.holds(not more, f"a program writes into its prefix: {more}")
    print(f"{check.passed} passed, {check.failed} failed")
    return 1 if check.failed else 0


if __name__ == "__main__":
    sys.exit(main())
