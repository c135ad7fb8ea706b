"""Tests of the pytest plugin, by pytest."""
import importlib.util

import libvt
import pytest

TESTS = r"""
    import pytest
    def test_good(terminal):
        it = terminal(["sh", "-c", "printf hello; read x"], rows=2, cols=20)
        it.assert_screen("screens/hello.screen")
    def test_bad(terminal):
        it = terminal(["sh", "-c", "printf hullo; read x"], rows=2, cols=20, timeout=0.3)
        it.assert_screen("screens/hello.screen")
    def test_other(terminal):
        it = terminal(["sh", "-c", "printf '\\033[31mred'; read x"], rows=2, cols=20)
        assert it.screen.cell(0, 0).words == "green black"
    @pytest.mark.vt_needs("nosuchprogram")
    def test_skipped(terminal):
        assert False
"""
MISSING = """
    def test_plain():
        assert True
    def test_terminal(terminal):
        terminal("true")
"""
MACHINE = """
    def test_front(consoles):
        machine = consoles([1, 2], rows=2, cols=20)
        machine.run(["sh", "-c", "echo up; read x"], 2)
        machine.wait_text("up", 2)
        assert machine.front == 2
"""
PLUGIN = ["-p", "pytest_libvt"]
HAS_XDIST = importlib.util.find_spec("xdist") is not None


@pytest.mark.parametrize("workers", [[], ["-n", "2"]])
def test_fixture(pytester, workers, monkeypatch):
    if workers and not HAS_XDIST:
        pytest.skip("xdist isn't installed")
    monkeypatch.delenv("CI", raising=False)
    pytester.makepyfile(TESTS)
    words = [*PLUGIN, *workers]
    ran = pytester.runpytest_subprocess(*words)
    ran.assert_outcomes(failed=3, skipped=1)
    ran.stdout.fnmatch_lines(["*there is no such file*--vt-accept*"])
    ran = pytester.runpytest_subprocess(*words, "-k", "good", "--vt-accept")
    ran.assert_outcomes(passed=1)
    ran.stdout.fnmatch_lines(["accepted *hello.screen"])
    ran = pytester.runpytest_subprocess(*words, "--vt-keep", "kept")
    ran.assert_outcomes(passed=1, failed=2, skipped=1)
    ran.stdout.fnmatch_lines_random(["*wanted |hello|", "*shown  |hullo|", "*|red  *"])
    ran.stdout.fnmatch_lines_random(["*recording kept/test_bad-1.cast"])
    ran.stdout.fnmatch_lines(["*      ^"])
    kept = {path.name for path in (pytester.path / "kept").iterdir()}
    assert kept == {f"test_{name}-1.{kind}" for name in ("bad", "other") for kind in ("cast", "svg")}
    monkeypatch.setenv("CI", "true")
    assert pytester.runpytest_subprocess(*words, "--vt-accept").ret == pytest.ExitCode.USAGE_ERROR


def test_a_missing_library_fails_only_tests_of_terminals(pytester, monkeypatch):
    monkeypatch.setenv("VT_LIBRARY", "/nowhere/libvt.so.1")
    pytester.makepyfile(MISSING)
    ran = pytester.runpytest_subprocess(*PLUGIN)
    ran.assert_outcomes(passed=1, errors=1)
    ran.stdout.fnmatch_lines(["*LibraryError: /nowhere/libvt.so.1*"])


def test_consoles(pytester):
    try:
        libvt.Consoles().close()
    except libvt.Unavailable as why:
        pytest.skip(str(why))
    pytester.makepyfile(MACHINE)
    ran = pytester.runpytest_subprocess(*PLUGIN, "--vt-keep", "kept")
    ran.assert_outcomes(failed=1)
    ran.stdout.fnmatch_lines(["E*assert 1 == 2", "*consoles 1*", "console 1 is in front*", "*|up *", "*journal kept/*",
                            "*picture kept/test_front-1.svg*"])  # fmt: skip
    assert (pytester.path / "kept/test_front-1.journal").read_text("utf-8").startswith("%journal 2\n")


def test_consoles_are_skipped_by_name(pytester, monkeypatch):
    path = pytester.path / "vtrun"
    path.write_text("#!/bin/sh\necho 'vtrun: no filter' >&2\nexit 126\n", "utf-8")
    path.chmod(0o755)
    monkeypatch.setenv("VTRUN", str(path))
    pytester.makepyfile(MACHINE)
    ran = pytester.runpytest_subprocess(*PLUGIN, "-rs")
    ran.assert_outcomes(skipped=1)
    ran.stdout.fnmatch_lines(["SKIPPED*vtrun: no filter"])
