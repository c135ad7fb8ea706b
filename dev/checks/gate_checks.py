#!/usr/bin/env python3
"""Runs the repository's own checks, which come after `rt ci` in the gate.

usage: dev/checks/gate_checks.py [--quick] [--strict] [--jobs N] [NAME ..]

The wrong bodies come first, since they use all processors; then the other checks run side by side, N at once (default:
as many as there are processors), those that take longest first. With NAMEs only these run. Only proved programs count
(VT_PROVED=1). A check fails if its status isn't 0, and then its output is printed. A line `skipped: WHAT: WHY` of a check
names a part that needs what isn't installed here.

The last lines have the slowest checks with their seconds, the minutes of the whole run (with `rt ci`, if .ci/run has
called this tool), the parts that were skipped, and 'N passed, M failed', with ', K skipped' if parts were. `--quick`
leaves out the wrong bodies and the C library, for work in between landings. With `--strict` a skipped part counts as
failed. Status 1: a check failed; 2: a word isn't known.
"""
import argparse
import concurrent.futures
import contextlib
import os
import pathlib
import signal
import subprocess
import sys
import threading
import time

sys.dont_write_bytecode = True
sys.path.insert(0, str(pathlib.Path(__file__).resolve().parents[1]))

from repository import TOP  # noqa: E402: after the folder that it stands in

LIMIT = 3600  # seconds of one check
SLOWEST = 6
# Each check: its name and its command. Those that take longest come first.
WRONG_BODIES = [
    ("check_wrong_bodies --self-test", ["dev/checks/check_wrong_bodies.py", "--self-test"]),
    ("check_wrong_bodies", ["dev/checks/check_wrong_bodies.py"]),
]
C_LIBRARY = [
    ("check_c", ["libvt/tools/check_c.py", "--gate"]),
]
# What needs the C library that check_c has built.
BEHIND = [
    ("check_vtrun", ["dev/checks/check_vtrun.py"]),
    ("check_install", ["dev/checks/check_install.py"]),
    ("check_expect", ["dev/checks/check_expect.py"]),
    ("check_python", ["dev/checks/check_python.py"]),
    ("check_tools", ["dev/checks/check_tools.py"]),
]
LIBRARY = TOP / "out/c/lib/libvt.so.1"
OVER_LIBRARY = ("check_vtrun", "check_expect", "check_python", "check_tools")
CHECKS = [
    ("check_hostile", ["dev/checks/check_hostile.py"]),
    ("make_conformance --check", ["dev/gen/make_conformance.py", "--check"]),
    ("check_watch", ["dev/checks/check_watch.py", "40"]),
    ("check_explore", ["dev/checks/check_explore.py"]),
    ("check_timeline", ["dev/checks/check_timeline.py"]),
    ("check_keymaps", ["dev/checks/check_keymaps.py"]),
    ("check_models", ["dev/checks/check_models.py"]),
    ("engines vt", ["tools/engines.py", "vt", "--cut", "--first"]),
    ("check_build", ["dev/checks/check_build.py", "--build"]),
    ("check_engines", ["dev/checks/check_engines.py"]),
    ("check_why", ["dev/checks/check_why.py"]),
    ("check_redraw", ["dev/checks/check_redraw.py", "200"]),
    ("check_streams", ["dev/checks/check_streams.py"]),
    ("check_drill", ["dev/checks/check_drill.py"]),
    ("check_picture", ["dev/checks/check_picture.py"]),
    ("check_pages", ["dev/checks/check_pages.py"]),
    ("check_blocks", ["dev/checks/check_blocks.py"]),
    ("check_examples", ["dev/checks/check_examples.py"]),
    ("check_switches", ["dev/checks/check_switches.py"]),
    ("check_snippets", ["dev/checks/check_snippets.py"]),
    ("check_promises", ["dev/checks/check_promises.py"]),
    ("api --check", ["dev/gen/api.py", "--check"]),
    ("check_proved", ["dev/checks/check_proved.py"]),
    ("check_lemmas", ["dev/checks/check_lemmas.py"]),
    ("check_links", ["dev/checks/check_links.py"]),
    ("check_words", ["dev/checks/check_words.py"]),
    ("check_files", ["dev/checks/check_files.py"]),
    ("check_names", ["dev/checks/check_names.py"]),
    ("crates_map --check", ["dev/gen/crates_map.py", "--check"]),
    ("case_input --check", ["dev/gen/case_input.py", "--check"]),
    ("key_index --check", ["dev/gen/key_index.py", "--check"]),
    ("call_lists --check", ["dev/gen/call_lists.py", "--check"]),
]


# The process groups of the checks that run: each is one of its own, so that it ends with all that it started.
GROUPS = set()


def end_group(group):
    """Ends a check and what it started."""
    with contextlib.suppress(ProcessLookupError):
        os.killpg(group, signal.SIGKILL)


def end_all():
    """Ends all checks that run."""
    for group in list(GROUPS):
        end_group(group)


def run(command, is_shown=False):
    """Whether a check passed, what it printed, and the seconds by the clock. It may be shown line by line."""
    said, start, status = [], time.monotonic(), None
    try:
        with subprocess.Popen(
            command, cwd=TOP, env={**os.environ, "VT_PROVED": "1"}, stdin=subprocess.DEVNULL,
            stdout=subprocess.PIPE, stderr=subprocess.STDOUT, encoding="utf-8", errors="replace",
            start_new_session=True,
        ) as running:  # fmt: skip
            end = threading.Timer(LIMIT, end_group, [running.pid])
            end.start()
            GROUPS.add(running.pid)
            for line in running.stdout:
                said.append(line)
                if is_shown:
                    print(line, end="", flush=True)
            status = running.wait()
            GROUPS.discard(running.pid)
            end.cancel()
    except OSError as fault:
        said.append(f"{command[0]}: {fault.strerror}\n")
    seconds = time.monotonic() - start
    if status and status < 0:
        said.append(f"no end after {LIMIT} seconds\n" if seconds >= LIMIT else f"ended by signal {-status}\n")
    return status == 0, "".join(said), seconds


class Report:
    """What was seen of the checks so far."""

    def __init__(self):
        self.passed, self.failed, self.skipped, self.seconds = 0, [], [], {}

    def take(self, name, passed, said, seconds, is_shown=False):
        self.seconds[name] = seconds
        skipped = [it.removeprefix("skipped: ") for it in said.splitlines() if it.startswith("skipped: ")]
        self.skipped += [f"{name}: {it}" for it in skipped]
        last = said.rstrip("\n").rsplit("\n", 1)[-1]
        print(f"{name}: {'passed' if passed else 'FAILED'}, {seconds:.0f} s{': ' + last if last else ''}", flush=True)
        self.passed += passed
        if not passed:
            self.failed.append(name)
            print("" if is_shown else said, end="", flush=True)

    def end(self, is_strict):
        """Prints the last lines, and gives the status."""
        slowest = sorted(self.seconds, key=self.seconds.get, reverse=True)[:SLOWEST]
        print("slowest: " + ", ".join(f"{name} {self.seconds[name]:.0f} s" for name in slowest))
        print("minutes: {:.0f} by the clock, {:.0f} of one processor".format(*minutes()))
        for it in self.skipped:
            print(f"skipped: {it}")
        for it in self.failed:
            print(f"failed: {it}")
        more = f", {len(self.skipped)} skipped" if self.skipped else ""
        print(f"{self.passed} passed, {len(self.failed)} failed{more}")
        return 1 if self.failed or is_strict and self.skipped else 0


def minutes():
    """The minutes since this process began, and those of one processor that it and its children took: also what .ci/run
    did in this process before it became this tool."""
    fields = pathlib.Path("/proc/self/stat").read_text(encoding="ascii").rpartition(")")[2].split()
    up = float(pathlib.Path("/proc/uptime").read_text(encoding="ascii").split()[0])
    used = os.times()
    began = int(fields[19]) / os.sysconf("SC_CLK_TCK")
    return (up - began) / 60, sum(used[:4]) / 60


def run_beside(report, checks, jobs):
    """Runs checks side by side."""
    with concurrent.futures.ThreadPoolExecutor(jobs) as pool:
        running = {pool.submit(run, command): name for name, command in checks}
        try:
            for done in concurrent.futures.as_completed(running):
                report.take(running[done], *done.result())
        except KeyboardInterrupt:
            pool.shutdown(wait=False, cancel_futures=True)
            end_all()
            raise


def main():
    parser = argparse.ArgumentParser(usage=__doc__.split("usage: ")[1].split("\n\n")[0])
    parser.add_argument("--quick", action="store_true")
    parser.add_argument("--strict", action="store_true")
    parser.add_argument("--jobs", type=int, default=len(os.sched_getaffinity(0)))
    parser.add_argument("names", nargs="*")
    options = parser.parse_args()
    first, beside, behind = WRONG_BODIES, C_LIBRARY + CHECKS, BEHIND
    known = [name for name, _ in first + beside + behind]
    if options.quick:
        first, beside = [], CHECKS
    for name in options.names:
        if name not in known:
            print(f"gate_checks.py: no check {name}; the checks are {', '.join(known)}", file=sys.stderr)
            return 2
    is_wanted = lambda check: not options.names or check[0] in options.names
    report = Report()
    for name, command in filter(is_wanted, first):
        report.take(name, *run(command, is_shown=True), is_shown=True)
    run_beside(report, list(filter(is_wanted, beside)), max(options.jobs, 1))
    for name, command in filter(is_wanted, behind):
        if name in OVER_LIBRARY and not LIBRARY.exists():
            report.skipped.append(f"{name}: the C library isn't built")
        else:
            report.take(name, *run(command))
    return report.end(options.strict)


if __name__ == "__main__":
    try:
        sys.exit(main())
    except KeyboardInterrupt:
        end_all()
        sys.exit(1)
