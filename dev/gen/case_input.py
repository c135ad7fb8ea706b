#!/usr/bin/env python3
"""Writes crates/cases/stdin, the worked cases, from crates/cases/stdout, the cases with their answers.

usage: dev/gen/case_input.py --write | --check

A case is written into stdout alone. After a line `run` its answers are left out: for each room a line of it, the
status, then out and err with their lines. A call loses its answer, which comes after ` = `. All other lines stay as
they are. --check ends with status 1 if stdin is another file.
"""
import pathlib
import re
import sys

sys.dont_write_bytecode = True
sys.path.insert(0, str(pathlib.Path(__file__).resolve().parents[1]))

from repository import TOP  # noqa: E402: after the folder that it stands in

CASES = TOP / "crates/cases"
ANSWER = re.compile(r"status \d+\n(?:out\n(?:[|=*].*\n)*)(?:err\n(?:[|=*].*\n)*)")
ROOM = re.compile(r"room \d+\n(?=status )")
CALL = re.compile(r"(\d+ .*?) = .*\n")


def input_of(text):
    """The cases without their answers."""
    taken, at = [], 0
    while at < len(text):
        end = text.index("\n", at) + 1
        line = text[at:end]
        call = CALL.fullmatch(line)
        taken.append(f"{call[1]}\n" if call else line)
        at = end
        while line == "run\n":
            room = ROOM.match(text, at)
            answer = ANSWER.match(text, room.end() if room else at)
            if not answer:
                break
            at = answer.end()
    return "".join(taken)


def main():
    if sys.argv[1:] not in (["--write"], ["--check"]):
        print(__doc__.split("\n\n")[1], file=sys.stderr)
        return 2
    text = input_of((CASES / "stdout").read_text(encoding="utf-8"))
    stdin = CASES / "stdin"
    if stdin.is_file() and stdin.read_text(encoding="utf-8") == text:
        return 0
    if sys.argv[1] == "--check":
        print("crates/cases/stdin: dev/gen/case_input.py --write gives another file")
        return 1
    stdin.write_text(text, encoding="utf-8")
    return 0


if __name__ == "__main__":
    sys.exit(main())
