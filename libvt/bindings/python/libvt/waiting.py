"""Whether a program waits for its terminal, as Linux reports it in /proc.

A thread waits if it sleeps in a system call without a time limit, or with a limit of more than LONG seconds: a read, a
poll, a wait for a child. A thread that sleeps with a shorter limit will do something by itself. A program is all
processes of its session, and all processes that have its mark in their environment: so daemons are part of it.

If the system doesn't report the call of a thread (a process of another user, a processor other than x86-64, a sandbox),
its limit is taken to be UNKNOWN.
"""
from __future__ import annotations

import os
import platform
import struct
import time
from typing import NamedTuple

LONG = 1.0
UNKNOWN = 0.15
# With a terminal inside the terminal the kernel may carry bytes between the two while every process sleeps.
INNER_TERMINAL = 0.025
KERNEL_THREAD = 0x200000
# The system calls of x86-64 with a time limit, and the argument that has it: milliseconds, or the address of a time.
MILLISECONDS = {7: 2, 232: 3, 281: 3}  # poll, epoll_wait, epoll_pwait
TIMES = {23: 4, 35: 0, 128: 2, 202: 3, 230: 2, 270: 4, 271: 2, 441: 3}  # select, nanosleep, sigtimedwait, futex, ..
SELECT, FUTEX, CLOCK_NANOSLEEP = 23, 202, 230
NAPS = (35, CLOCK_NANOSLEEP)  # no input ends these
REPORTS_CALLS = platform.machine() == "x86_64" and os.path.exists("/proc/self/syscall")


class Sleep(NamedTuple):
    """How a thread sleeps: its time limit in seconds, whether no input ends it, and whether the call was reported."""

    limit: float
    is_nap: bool = False
    is_known: bool = True


class Look(NamedTuple):
    """How all threads of a program sleep: the number of times that each of them ran so far, the longest time limit that
    isn't above LONG (0 if there is none), whether one of them naps, and whether all calls were reported."""

    runs: list[tuple[str, bytes]]
    limit: float
    naps: bool
    is_known: bool


def read(path: str) -> bytes:
    """A file of /proc: empty if the process has ended, or if the file may not be read."""
    try:
        with open(path, "rb", buffering=0) as file:
            return file.read(65536) or b""
    except OSError:
        return b""


def time_at(task: str, address: int, is_select: bool) -> float | None:
    """The time, in seconds, at an address of a thread; None if it can't be read."""
    try:
        with open(f"{task}/mem", "rb", buffering=0) as file:
            file.seek(address)
            seconds, rest = struct.unpack("qq", file.read(16))
    except (OSError, OverflowError, ValueError, struct.error):
        return None
    return float(seconds + rest / (1e6 if is_select else 1e9))


def sleep_of(task: str) -> Sleep | None:
    """How a thread sleeps; None if it isn't in a system call."""
    words = read(f"{task}/syscall").split() if REPORTS_CALLS else []
    if len(words) < 8:
        return None if words else Sleep(UNKNOWN, is_known=False)
    call, arguments = int(words[0]), [int(word, 16) for word in words[1:7]]
    if call in MILLISECONDS:
        limit = arguments[MILLISECONDS[call]] & 0xFFFFFFFF
        return Sleep(float("inf") if limit >> 31 else limit / 1000)
    if call not in TIMES or not arguments[TIMES[call]]:
        return Sleep(float("inf"))
    if call == FUTEX and arguments[1] & 0x7F not in (0, 9):
        return Sleep(float("inf"))
    length = time_at(task, arguments[TIMES[call]], call == SELECT)
    if length is None:
        return None
    if call == CLOCK_NANOSLEEP and arguments[1] & 1:
        length = max(0.0, length - time.clock_gettime(arguments[0]))  # it was a moment of that clock
    if call == FUTEX and arguments[1] & 0x7F == 9:
        clock = time.CLOCK_REALTIME if arguments[1] & 0x100 else time.CLOCK_MONOTONIC
        length = max(0.0, length - time.clock_gettime(clock))
    return Sleep(length, call in NAPS)


def fields_of(process: str) -> list[bytes]:
    """The fields of a process from its state on (proc(5), stat): 3 is its session, 4 its terminal, 6 its flags."""
    return read(f"/proc/{process}/stat").rpartition(b")")[2].split()


class Watch:
    """The processes of a session, and those with a mark in their environment."""

    def __init__(self, mark: str, leader: int | None):
        self.mark = b"\0" + mark.encode() + b"\0"
        self.leader = b"" if leader is None else str(leader).encode()
        self._known: dict[str, bool] = {}

    def forget_leader(self) -> None:
        """The leader was reaped, so that another session may get its number: only the mark counts from here on."""
        self.leader = b""

    def _is_member(self, process: str) -> bool | None:
        """Whether a process is a member; None if that isn't known yet: between fork and exec it has no environment."""
        fields = fields_of(process)
        if len(fields) < 7 or fields[0] in (b"Z", b"X"):
            return None
        if fields[3] == self.leader:
            return True
        environment = read(f"/proc/{process}/environ")
        if environment:
            return self.mark in b"\0" + environment
        is_readable = os.access(f"/proc/{process}/environ", os.R_OK)
        return None if is_readable and not int(fields[6]) & KERNEL_THREAD else False

    def processes(self, anew: bool = False) -> list[str]:
        """The numbers of the members. With `anew` each process is looked at again."""
        known: dict[str, bool] = {}  # without the processes that have ended, whose numbers may be used again
        for process in filter(str.isdigit, os.listdir("/proc")):
            is_member = None if anew else self._known.get(process)
            if is_member is None:
                is_member = self._is_member(process)
            if is_member is not None:
                known[process] = is_member
        self._known = known
        return [process for process, is_member in known.items() if is_member]

    def look(self) -> Look | None:
        """How the threads of all members sleep; None if one of them runs, or if there is none. If two looks are equal,
        no thread ran between them."""
        made = Look([], 0.0, False, True)
        terminals = {b"0"}
        for process in self.processes():
            terminals.update(fields_of(process)[4:5])
            folder = f"/proc/{process}/task"
            try:
                threads = os.listdir(folder)
            except OSError:
                continue
            for thread in threads:
                after = look_at(made, folder, thread)
                if after is None:
                    return None
                made = after
        if len(terminals) > 2:
            made = made._replace(limit=max(made.limit, INNER_TERMINAL))
        return made if made.runs else None


def look_at(before: Look, folder: str, thread: str) -> Look | None:
    """A look with one thread more; None if the thread runs."""
    status = read(f"{folder}/{thread}/status")
    state = status.partition(b"\nState:\t")[2][:1]
    if state in (b"Z", b"X", b""):
        return before
    runs = [*before.runs, (thread, status[status.find(b"\nvoluntary_ctxt_switches") :])]
    if state in (b"T", b"t"):
        return before._replace(runs=runs)
    sleep = sleep_of(f"{folder}/{thread}") if state == b"S" else None
    if sleep is None:
        return None
    limit, naps = before.limit, before.naps
    if sleep.limit <= LONG:
        limit, naps = max(limit, sleep.limit, 0.001), naps or sleep.is_nap
    return Look(runs, limit, naps, before.is_known and sleep.is_known)
