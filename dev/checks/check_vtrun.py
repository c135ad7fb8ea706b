#!/usr/bin/env python3
"""Checks vtrun: real programs and small servers run on the machine's consoles, and each journal is judged.

usage: dev/checks/check_vtrun.py [--only NAME ..] [--list]

vtrun is built over the library of out/c, and the test programs of vtrun/tests with it. What kbd and util-linux print is
compared with what they printed on a console of Linux (vtrun/tests/real-programs.txt, real-requests.txt), and each
difference has its reason here. Handshakes are counted in the journals' explanations. Then come users without rights, an
empty /dev, static programs, a login, seatd; servers that die after each of their requests, waits that are interrupted,
clients in numbers, floods, the end of vtrun by force, memory, and the control socket. `--list` prints the names of the
parts; `--only` runs these alone.

A part whose programs aren't installed, or that isn't allowed here, prints `skipped: WHAT: WHY`. Prints a line for each
thing that isn't so and last 'N passed, M failed'. Ends with status 1 if one fails.
"""
import argparse
import concurrent.futures
import sys
import tempfile

sys.dont_write_bytecode = True

from check_build import Check  # noqa: E402: it has the folders of the other modules
import vtrun_control  # noqa: E402
import vtrun_faults  # noqa: E402
import vtrun_guide  # noqa: E402
import vtrun_logins  # noqa: E402
import vtrun_programs  # noqa: E402
from vtrun_runs import Absent, Place  # noqa: E402

JOBS = 3
PARTS = {**vtrun_logins.PARTS, **vtrun_programs.PARTS, **vtrun_faults.PARTS, **vtrun_control.PARTS, **vtrun_guide.PARTS}


def run_part(name, place):
    """Runs one part: what it saw."""
    check = Check()
    try:
        PARTS[name](check, place)
    except Absent as why:
        print(f"skipped: {name}: {why}", flush=True)
    except Exception as fault:  # noqa: BLE001: a part that breaks is a part that fails
        check.holds(False, f"{name}: {type(fault).__name__}: {fault}")
    return check


def main():
    parser = argparse.ArgumentParser(usage=__doc__.split("usage: ")[1].split("\n\n")[0])
    parser.add_argument("--only", nargs="+", default=list(PARTS), choices=list(PARTS), metavar="NAME")
    parser.add_argument("--list", action="store_true")
    options = parser.parse_args()
    if options.list:
        print("\n".join(PARTS))
        return 0
    with tempfile.TemporaryDirectory(prefix="check-vtrun-") as folder:
        try:
            place = Place(folder)
        except Absent as why:
            print(f"skipped: vtrun: {why}")
            return 0
        except RuntimeError as fault:
            print(fault)
            return 1
        with concurrent.futures.ThreadPoolExecutor(JOBS) as pool:
            checks = list(pool.map(lambda name: run_part(name, place), options.only))
    passed, failed = sum(it.passed for it in checks), sum(it.failed for it in checks)
    print(f"{passed} passed, {failed} failed")
    return 1 if failed else 0


if __name__ == "__main__":
    sys.exit(main())
