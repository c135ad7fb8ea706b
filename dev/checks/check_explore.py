#!/usr/bin/env python3
"""Checks the answers of `explore`: for the sessions of examples/orders, and for small sessions made from numbers.

usage: check_explore.py [--explore PATH] [--vt PATH] [--sessions N] [--first N]

Each line of examples/orders/answers has a session, a question, and the answer: `never`, or `found` with the number of
turns if it is known from elsewhere; a line without a question has the numbers of states and calls. All questions of a
session are asked in one run. An order that is found goes into the session as its `turns`. Then the journal of `vt play`
has to begin with the calls that `explore` prints, and `vt check` has to accept that journal. A `never` has to stay one
if just its states are allowed, and to be a `limit` with one less.

N small sessions (60 without --sessions; from seed --first on) are made by order_sessions.py. For each of them a second
program, second_orders.py, goes through all orders: its answers, the least numbers of turns, and the numbers of states
and calls have to be the same.

Words that are no question, damaged questions and damaged sessions have to end with their status and line. An order of
more than 64 turns and one of more calls than the session's journal takes have to be found. Each request for memory is
refused once, if there is a C compiler (cc), and runs get less and less memory: each has to end as without it, or with
status 4 and nothing on out.

Prints a line for each difference and last 'N passed, M failed'. Ends with status 1 if one fails, 2 if a program is
missing or the words are wrong.
"""
import argparse
import collections
import json
import pathlib
import random
import re
import resource
import shutil
import subprocess
import sys
import tempfile

sys.dont_write_bytecode = True
sys.path.insert(0, str(pathlib.Path(__file__).resolve().parents[1]))

from repository import TOP  # noqa: E402: after the folder that it stands in
from programs import find_for_check  # noqa: E402
import order_sessions  # noqa: E402
import second_orders  # noqa: E402

SESSIONS = TOP / "examples/orders"
SECONDS = 300
USAGE = "explore: usage: "
REFUSED = [
    (["--states"], "", 1, USAGE),
    (["--states", "x", "ended"], "", 1, USAGE),
    (["--states", "1000000001"], "", 1, USAGE),
    (["front 1", "by p1 and nobody"], "", 1, "explore: no question 2:4"),
    (["waits p65"], "", 1, "explore: no question 1:1"),
    (["by p1 and"], "", 1, "explore: no question 1:4"),
    (["not waits p1"], "", 1, "explore: no question 1:1"),
    (["call relidsp"], "", 1, "explore: no question 1:1"),
    (["ended ended"], "", 1, "explore: no question 1:2"),
    ([""], "", 1, "explore: no question 1:1"),
    (["ended"], "rows = 0\n", 5, "explore: refused 23 at 0:"),
    (["ended"], "rows = \n", 5, "explore: refused 20 at 0:0"),
    (["ended"], "#" * 16_777_217, 6, "explore: input too long"),
    (["ended"] * 1_023, "", 1, USAGE),
    (["shows 1 \"" + "a" * 4_087 + "\""], "", 1, USAGE),
]
LONG = 'consoles = [1]\n[[process]]\nscript = ["open 1"' + ', "getstate 0"' * 70 + "]\n"
SMALL = 'consoles = [1, 2]\n[[process]]\nhome = 2\nscript = ["open 2", "activate 0 2"]\n'
# Bytes of address space; with the last ones the program can't hold the machines of its search.
ROOMS = [1 << 26, 1 << 25, 3 << 23, 1 << 24, 3 << 22, 5 << 21, 1 << 23]


def run(command, given, more=None, before=None):
    given = given if isinstance(given, bytes) else given.encode()
    how = {"capture_output": True, "timeout": SECONDS, "check": False, "env": more, "preexec_fn": before}
    return subprocess.run(command, input=given, **how)


def answers(explore, session, questions, *words):
    """What one run answers: an object for each question, and the counts; None and why if the run fails."""
    ran = run([explore, "--json", *words, *questions], session)
    if ran.returncode != 0:
        return None, f"status {ran.returncode}: {ran.stderr.decode()!r}"
    *each, counts = [json.loads(line) for line in ran.stdout.decode().splitlines()]
    return each, counts


def with_turns(session, turns):
    """The session with these turns: they stand before its first table."""
    head, table, rest = session.partition("\n[[")
    return f"{head}\nturns = {turns}\n{table}{rest}"


def play_faults(vt, session, found):
    """Why the order isn't played as it was printed."""
    if len(found["turns"]) != len(found["calls"]):
        yield "a turn makes no call"
    text = with_turns(session, found["turns"])
    played = run([vt, "play"], text)
    if played.returncode != 0:
        yield f"vt play ends with status {played.returncode}"
        return
    journal = played.stdout.decode().split("\n")
    lines = journal[1 : 1 + len(found["calls"])]
    if lines != found["calls"]:
        yield f"vt play makes other calls: {lines}"
    end = next(i for i, line in enumerate(journal) if line.startswith("%end"))
    checked = run([vt, "check"], text + "\n".join(journal[: end + 1]) + "\n")
    if checked.returncode != 0:
        yield f"vt check ends with status {checked.returncode}"


def limit_faults(explore, session, questions, nevers, states):
    """Why the answers `never` don't stay so with just their states, or aren't `limit` with one less."""
    for most, other in ((states, "never"), (states - 1, "limit")):
        each, counts = answers(explore, session, questions, "--states", str(most))
        if each is None or any(each[i]["answer"] != other for i in nevers):
            yield f"--states {most} doesn't answer {other}"
        elif counts["all"] != (other == "never"):
            yield f"--states {most}: all orders, or not"


def case_faults(explore, vt, name, lines):
    """Why the answers about a session of examples/orders aren't the ones that are wanted."""
    session = (SESSIONS / f"{name}.toml").read_text(encoding="utf-8")
    questions = [question for question, _ in lines if question]
    each, counts = answers(explore, session, questions)
    if each is None:
        yield counts
        return
    found = dict(zip(questions, each))
    for question, wanted in lines:
        if question:
            word, _, turns = wanted.partition(" ")
            answer = found[question]
            if answer["answer"] != word:
                yield f"{question}: {answer['answer']}, and not {word}"
            elif word == "found":
                if turns and len(answer["turns"]) != int(turns):
                    yield f"{question}: {len(answer['turns'])} turns, and not {turns}"
                yield from (f"{question}: {why}" for why in play_faults(vt, session, answer))
    nevers = [i for i, question in enumerate(questions) if found[question]["answer"] == "never"]
    if nevers:
        yield from limit_faults(explore, session, questions, nevers, counts["states"])
    yield from display_faults(explore, session, [wanted for question, wanted in lines if not question])


def display_faults(explore, session, numbers):
    """Why the run without a question doesn't count as it should, or finds other last displays."""
    each, counts = answers(explore, session, [])
    if each is None:
        yield counts
        return
    for wanted in numbers:
        if f"{counts['states']} {counts['calls']}" != wanted:
            yield f"{counts['states']} states and {counts['calls']} calls, and not {wanted}"
    ends = [f"ends {n}" for n in range(1, 64)]
    asked, _ = answers(explore, session, ends)
    last = [n for n, answer in enumerate(asked, 1) if answer["answer"] == "found"]
    if [answer["question"] for answer in each] != [f"front {n} and ended" for n in last]:
        yield f"without a question: {[answer['question'] for answer in each]}, and not {last}"


def written(question):
    """The question without words at the end of a condition that may be any."""
    return re.sub(r"( \*)+(?= and |$)", "", question)


def second_faults(explore, vt, seed):
    """Why the answers about a session differ from those of the second program."""
    session, questions = order_sessions.session(seed), order_sessions.questions(seed, 6)
    second = second_orders.explore(session, [plain for _, plain in questions])
    each, counts = answers(explore, session, [text for text, _ in questions])
    if each is None:
        yield counts
        return
    for (text, plain), turns, answer in zip(questions, second.answers, each):
        if answer["answer"] != ("never" if turns is None else "found"):
            yield f"{text}: {answer['answer']}, and {turns} turns"
        elif turns is not None and len(answer["turns"]) != turns:
            yield f"{text}: {len(answer['turns'])} turns, and not {turns}"
        if written(answer["question"]) != written(plain):
            yield f"{text}: written as {answer['question']}, and not as {plain}"
    _, counts = answers(explore, session, [])
    if (counts["states"], counts["calls"]) != (second.states, second.calls):
        yield f"{counts['states']} states and {counts['calls']} calls, and not {second.states} and {second.calls}"
    found = [answer for answer in each if answer["answer"] == "found"]
    if found:
        yield from play_faults(vt, session, max(found, key=lambda answer: len(answer["turns"])))


def refusal_faults(explore):
    for words, given, status, line in REFUSED:
        ran = run([explore, *words], given)
        if ran.returncode != status or not ran.stderr.decode().startswith(line) or ran.stdout:
            yield f"explore {words}: status {ran.returncode}, {ran.stderr.decode()!r}"


def damage_faults(explore, count):
    """Why a session with other bytes doesn't end as one that is read or refused."""
    chance = random.Random(7)
    whole = (SESSIONS / "servers.toml").read_bytes()
    for _ in range(count):
        text = bytearray(whole)
        for _ in range(chance.randint(1, 4)):
            at = chance.randrange(len(text))
            text[at : at + chance.randrange(3)] = bytes([chance.randrange(256)]) * chance.randrange(2)
        ran = run([explore, "--states", "50", "stuck"], bytes(text))
        if ran.returncode not in (0, 5) or (ran.returncode == 5) != bool(ran.stderr):
            yield f"a damaged session: status {ran.returncode}, {ran.stderr!r}: {bytes(text)!r}"


def question_faults(explore, count):
    """Why a question with other bytes doesn't end as one that is read or refused."""
    chance = random.Random(8)
    for seed in range(count):
        text = bytearray(order_sessions.questions(seed, 1)[0][0].encode())
        for _ in range(chance.randint(1, 3)):
            at = chance.randrange(len(text))
            text[at : at + chance.randrange(3)] = bytes([chance.randrange(1, 256)]) * chance.randrange(2)
            text = text or bytearray(b" ")
        ran = run([explore, "--states", "5", bytes(text)], SMALL)
        is_refused = ran.returncode == 1 and ran.stderr.startswith(b"explore: no question 1:") and not ran.stdout
        if not is_refused and (ran.returncode, ran.stderr) != (0, b""):
            yield f"a damaged question: status {ran.returncode}, {ran.stderr!r}: {bytes(text)!r}"


def memory_faults(explore):
    """Why a run doesn't end well whose N-th request for memory is refused, for each N."""
    words = [explore, "ends 2", "waits p1"]
    with tempfile.TemporaryDirectory() as folder:
        shim, count = f"{folder}/refuse_memory.so", pathlib.Path(folder, "count")
        source = str(TOP / "dev/checks/refuse_memory.c")
        subprocess.run(["cc", "-O1", "-shared", "-fPIC", "-o", shim, source], check=True)
        whole = run(words, SMALL, {"LD_PRELOAD": shim, "COUNT": str(count)})
        for number in range(1, int(count.read_text(encoding="utf-8")) + 1):
            ran = run(words, SMALL, {"LD_PRELOAD": shim, "REFUSE": str(number)})
            lines = (b"explore: no memory\n", b"") if number <= 4 else (b"explore: no memory\n",)
            is_refused = ran.returncode == 4 and ran.stderr in lines and not ran.stdout
            if not is_refused and (ran.returncode, ran.stdout) != (0, whole.stdout):
                yield f"request {number} for memory: status {ran.returncode}, {ran.stderr!r}"


def room_faults(explore):
    """Why a run with less memory doesn't end well, or none of them has too little."""
    words, session = [explore, "stuck"], (SESSIONS / "servers.toml").read_bytes().replace(b"rows = 2\ncols = 10\n", b"")
    whole, refused = run(words, session), 0
    for room in ROOMS:
        ran = run(words, session, None, lambda most=room: resource.setrlimit(resource.RLIMIT_AS, (most, most)))
        is_refused = ran.returncode == 4 and ran.stderr == b"explore: no memory\n" and not ran.stdout
        refused += is_refused
        if not is_refused and (ran.returncode, ran.stdout) != (0, whole.stdout):
            yield f"{room} bytes of memory: status {ran.returncode}, {ran.stderr!r}"
    if not refused:
        yield "every run had enough memory"


def full_faults(explore, vt):
    """Why an order of more calls than the session's journal takes isn't found, or its play isn't a beginning."""
    session = "events = 3\n" + SMALL
    each, counts = answers(explore, session, ["by p1 and call exit"])
    if each is None or each[0]["answer"] != "found" or len(each[0]["calls"]) < 4:
        yield f"an order longer than the journal: {each or counts}"
        return
    played = run([vt, "play"], with_turns(session, each[0]["turns"])).stdout.decode().split("\n")
    end = next((i for i, line in enumerate(played) if line.startswith("%full")), 0)
    if end != 4 or played[1:end] != each[0]["calls"][:3]:
        yield f"the journal isn't a beginning: {played[: end + 1]}"


def none_faults(explore):
    """Why a limit of no state at all isn't one."""
    for questions in (["ended"], []):
        each, counts = answers(explore, SMALL, questions, "--states", "0")
        if each is None or [answer["answer"] for answer in each] != ["limit"] * len(questions) or counts["all"]:
            yield f"--states 0: {each or counts}"


def long_faults(explore, vt):
    """Why an order of more than 64 turns isn't found."""
    each, counts = answers(explore, LONG, ["by p1 and call exit"])
    if each is None or each[0]["answer"] != "found" or len(each[0]["turns"]) != 143:
        yield f"a long order: {each or counts}"
    else:
        yield from play_faults(vt, LONG, each[0])


def cases():
    """The lines of examples/orders/answers by their sessions."""
    lines = collections.defaultdict(list)
    for line in (SESSIONS / "answers").read_text(encoding="utf-8").splitlines():
        if not line.startswith("#"):
            name, question, wanted = (part.strip() for part in line.split("|"))
            lines[name].append((question, wanted))
    return lines


def checks(explore, vt, first, count):
    """Each check: its name, and its faults."""
    yield "words", refusal_faults(explore)
    for name, lines in cases().items():
        yield name, case_faults(explore, vt, name, lines)
    yield "a long order", long_faults(explore, vt)
    yield "a full journal", full_faults(explore, vt)
    yield "no states", none_faults(explore)
    yield "damaged sessions", damage_faults(explore, 200)
    yield "damaged questions", question_faults(explore, 200)
    yield "less memory", room_faults(explore)
    if shutil.which("cc"):
        yield "memory", memory_faults(explore)
    else:
        print("check_explore.py: without memory: skipped, there is no cc")
    for seed in range(first, first + count):
        yield f"session {seed}", second_faults(explore, vt, seed)


def main():
    parser = argparse.ArgumentParser(description="Checks the answers of explore.")
    parser.add_argument("--explore")
    parser.add_argument("--vt")
    parser.add_argument("--sessions", type=int, default=60)
    parser.add_argument("--first", type=int, default=0)
    args = parser.parse_args()
    explore, vt = find_for_check("explore", args.explore), find_for_check("vt", args.vt)
    passed = failed = 0
    for name, faults in checks(explore, vt, args.first, args.sessions):
        why = list(faults)
        for fault in why:
            print(f"check_explore.py: {name}: {fault}", file=sys.stderr)
        passed += not why
        failed += bool(why)
    print(f"{passed} passed, {failed} failed")
    sys.exit(1 if failed else 0)


if __name__ == "__main__":
    main()
