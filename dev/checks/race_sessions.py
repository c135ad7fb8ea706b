"""Makes sessions that show in a race whether waiting callers are woken and whether the callers take turns.

They hold only what dev/checks/second_reader.py reads.
"""
import collections
import itertools

from second_reader import entries_of

PROCESSES, CALLING = 64, 4
ROUNDS = 2
# CSI 6n: its report is input of the console that it is written to.
QUERY = "1b5b366e"


def process(home, script):
    """The lines of a process without hooks."""
    items = ", ".join(f'"{item}"' for item in script)
    return ["[[process]]", f"home = {home}", "privileged = true", f"script = [{items}]", "hooks = []"]


def session(processes, events=None):
    """The text of a session in which nobody types, with so many events at most."""
    lines = ["rows = 2", "cols = 10", "consoles = [1]", 'keys = ""']
    lines += [f"events = {events}"] if events is not None else []
    for home, script in processes:
        lines += process(home, script)
    return "\n".join(lines) + "\n"


def waiting_session():
    """64 processes, of which 60 wait for input, each on a console of its own. One of the other four ends the first
    wait; then each process that was woken ends the wait of the next one, while all others wait on. The last one ends
    the wait of the first, and so on for some rounds. So every process beyond the fourth has to be woken by its number."""
    processes = []
    for number in range(1, CALLING + 1):
        script = [f"open {number}", *["getstate 0"] * 200]
        if number == 1:
            script += [f"open {CALLING}", f"write 1 {QUERY}"]
        processes.append((number, script))
    for number in range(CALLING + 1, PROCESSES + 1):
        own, following = number - 1, number if number < PROCESSES else CALLING
        script = [f"open {own}", f"open {following}", *["waitinput 0", "read 0 64", f"write 1 {QUERY}"] * ROUNDS]
        processes.append((own, script))
    return session(processes)


def last_call_session():
    """Two processes: one waits for console 2 until the other one, which owns console 1 and was asked to release it, has
    ended. So the call that ends the wait is the last one before the call of the process that was woken."""
    owner = ["open 1", "setmode 0 1 0 10 12 0", *["getstate 0"] * 1000, "activate 0 2"]
    return session([(1, owner), (2, ["open 2", "waitactive 0 2"])])


def full_session():
    """Two processes: one waits for a signal that nobody sends, and the other one makes more calls than the journal has
    room for. So the race ends only if the process that waits is woken when there is no room."""
    calls = ["open 1", *["getstate 0"] * 2000]
    return session([(1, ["open 1", "setmode 0 1 0 10 12 0", "waitsignal"]), (1, calls)], events=300)


def writing_session(processes, calls):
    """So many processes that make so many writes each, and never wait."""
    return session([(1, ["open 1", *["write 0 61"] * calls]) for _ in range(processes)])


def longest_row(journal):
    """The most entries of one caller in a row while another caller has entries to come."""
    callers = [caller for caller, *_ in entries_of(journal)]
    left, longest = collections.Counter(callers), 0
    for caller, row in itertools.groupby(callers):
        length = sum(1 for _ in row)
        left[caller] -= length
        if any(count for other, count in left.items() if other != caller):
            longest = max(longest, length)
    return longest
