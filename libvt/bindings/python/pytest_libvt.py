"""The pytest plugin of libvt: programs on a terminal, and on the consoles of a machine, as fixtures.

    def test_help(terminal):
        nano = terminal("nano -I", rows=25, cols=80)
        nano.type("<C-g>")
        nano.wait_for("Main nano help text")
        nano.assert_screen("screens/help.screen")

    def test_switch(consoles):
        machine = consoles([1, 2])
        machine.run("sh", 2)
        machine.type("<A-F2>")
        machine.wait_front(2)

The library is loaded with the first terminal. So if it is missing, the tests that use no terminal run nevertheless.
"""
from __future__ import annotations

import os
import pathlib
import re
import shutil
from typing import TYPE_CHECKING, Any, Callable, Generator, Iterator, TypeVar

import pytest

if TYPE_CHECKING:
    from libvt.consoles import Consoles
    from libvt.terminal import Terminal

ACCEPTED = "vt-accepted"
STARTED: pytest.StashKey[list[Terminal]] = pytest.StashKey()
MACHINES: pytest.StashKey[list[Consoles]] = pytest.StashKey()
Hook = TypeVar("Hook", bound=Callable[..., Any])
# The decorator of a hook that stands around the others; some versions of pytest have no types for it.
around_others: Callable[[Hook], Hook] = pytest.hookimpl(hookwrapper=True)


def pytest_addoption(parser: pytest.Parser) -> None:
    group = parser.getgroup("vt", "programs on a terminal (libvt)")
    group.addoption("--vt-accept", action="store_true", help="write the files of assert_screen as the screens are now")
    group.addoption("--vt-keep", metavar="DIR", help="the folder of pictures and recordings of failed tests (tmp_path)")
    group.addoption("--vt-timeout", metavar="S", type=float, help="the limit of each call of a terminal (10 seconds)")


def pytest_configure(config: pytest.Config) -> None:
    config.addinivalue_line("markers", "vt_needs(*programs): skip the test if one of these programs isn't installed")
    if config.getoption("--vt-accept") and os.environ.get("CI", "").lower() not in ("", "0", "false"):
        raise pytest.UsageError("--vt-accept isn't for CI, and CI is set in the environment")


def pytest_runtest_setup(item: pytest.Item) -> None:
    for mark in item.iter_markers("vt_needs"):
        for program in mark.args:
            if not shutil.which(program):
                pytest.skip(f"{program} isn't installed")


@pytest.fixture
def terminal(request: pytest.FixtureRequest, tmp_path: pathlib.Path) -> Iterator[Callable[..., Terminal]]:
    """Starts programs: terminal(command, rows, cols, ..), with the words of libvt.Terminal. A program runs in tmp_path,
    which is also its HOME, with the environment of a user without settings, and ends with the test."""
    from libvt.environment import settings_of
    from libvt.terminal import Terminal

    started: list[Terminal] = []
    request.node.stash[STARTED] = started
    limit = request.config.getoption("--vt-timeout")

    def start(command: Any, rows: int = 25, cols: int = 80, **how: Any) -> Terminal:
        how = {"cwd": tmp_path, **({"timeout": limit} if limit else {}), **how}
        how["env"] = {**settings_of(tmp_path), **(how.get("env") or {})}
        made = Terminal(command, rows, cols, **how)
        made.folder, made.accepts = request.path.parent, bool(request.config.getoption("--vt-accept"))
        started.append(made)
        return made

    try:
        yield start
    finally:
        for made in started:
            made.close()


@pytest.fixture
def consoles(request: pytest.FixtureRequest, tmp_path: pathlib.Path) -> Iterator[Callable[..., Consoles]]:
    """Starts machines with consoles: consoles(numbers, rows, cols, ..), with the words of libvt.Consoles. Programs run
    in tmp_path, which is also their HOME, with the environment of a user without settings, and end with the test. A
    test is skipped if vtrun isn't installed, or can't run here."""
    from libvt.consoles import Consoles
    from libvt.environment import settings_of
    from libvt.vtrun import Unavailable

    started: list[Consoles] = []
    request.node.stash[MACHINES] = started
    limit = request.config.getoption("--vt-timeout")

    def start(numbers: Any = (1,), rows: int = 25, cols: int = 80, **how: Any) -> Consoles:
        how = {"cwd": tmp_path, **({"timeout": limit} if limit else {}), **how}
        how["env"] = {**settings_of(tmp_path), **(how.get("env") or {})}
        try:
            made = Consoles(numbers, rows, cols, **how)
        except Unavailable as fault:
            pytest.skip(str(fault))
        started.append(made)
        return made

    try:
        yield start
    finally:
        for made in started:
            made.close()


def path_for(item: pytest.Item, kind: str, number: int, suffix: str) -> pathlib.Path:
    """The path of a file about a failed test."""
    folder = item.config.getoption("--vt-keep")
    name = re.sub(r"[^A-Za-z0-9_.-]+", "-", item.name if folder else kind)
    return pathlib.Path(folder or getattr(item, "funcargs")["tmp_path"]) / f"{name}-{number}{suffix}"


def keep(item: pytest.Item, made: Terminal, number: int) -> list[str]:
    """Writes the picture and the recording of a terminal. Returns lines with their paths."""
    from libvt.casts import cast_of
    from libvt.screen_files import write_text

    path = path_for(item, "terminal", number, ".svg")
    write_text(path, made.now().picture())
    write_text(path.with_suffix(".cast"), cast_of(made))
    return [f"    picture {path}", f"    recording {path.with_suffix('.cast')}"]


def machine_section(item: pytest.Item, made: Consoles, number: int, has_screens: bool) -> str:
    """The report of a machine: its screens, unless the failure has them already, and the paths of what was kept."""
    from libvt.screen_files import write_text

    lines: list[str] = []
    try:
        lines += [] if has_screens else [made.report()]
        path = path_for(item, "consoles", number, ".journal")
        write_text(path, made.journal)
        lines.append(f"    journal {path}")
        write_text(path.with_suffix(".svg"), made.now().picture())
        lines.append(f"    picture {path.with_suffix('.svg')} of the console in front")
    except Exception as fault:  # the failure of the test counts, not this one
        lines.append(f"    no further report: {fault!r}")
    return "\n".join(lines)


def section_of(item: pytest.Item, made: Terminal, number: int, has_screen: bool) -> str:
    """The report of a terminal: its screen, unless the failure has it already, and the paths of what was kept."""
    lines: list[str] = []
    try:
        report = made.report().split("\n")
        lines += report[:1] if has_screen else report
        lines += keep(item, made, number)
    except Exception as fault:  # the failure of the test counts, not this one
        lines.append(f"    no further report: {fault!r}")
    return "\n".join(lines)


@around_others
def pytest_runtest_makereport(item: pytest.Item, call: pytest.CallInfo[None]) -> Generator[None, Any, None]:
    """Adds the screens of a failed test to its report, and the names of accepted files."""
    outcome = yield
    report = outcome.get_result()
    if call.when != "call":
        return
    started: list[Terminal] = item.stash.get(STARTED, [])
    for number, made in enumerate(started, 1):
        report.user_properties += [(ACCEPTED, path) for path in made.accepted]
        if report.failed:
            message = str(call.excinfo.value) if call.excinfo else ""
            has_screen = "\n    cursor " in message and made.command in message
            report.sections.append((f"terminal {number}", section_of(item, made, number, has_screen)))
    machines: list[Consoles] = item.stash.get(MACHINES, []) if report.failed else []
    for number, machine in enumerate(machines, 1):
        has_screens = bool(call.excinfo and "is in front," in str(call.excinfo.value))
        report.sections.append((f"consoles {number}", machine_section(item, machine, number, has_screens)))


def pytest_terminal_summary(terminalreporter: Any) -> None:
    reports = [it for some in terminalreporter.stats.values() for it in some if getattr(it, "when", "") == "call"]
    for path in sorted({value for it in reports for name, value in it.user_properties if name == ACCEPTED}):
        terminalreporter.write_line(f"accepted {path}")
