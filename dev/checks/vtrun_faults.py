"""Parts of check_vtrun.py: programs that die, misbehave, or come in numbers, and the end of vtrun itself."""
import os
import signal
import subprocess
import sys
import time

from vtrun_runs import LIMIT, SECONDS, TESTS, Absent, command, need

REQUESTS = 8  # of a server that gets a console, loses it, and gets it again
DEATHS = 6  # of these servers, at least: those that aren't asked so often end by SIGTERM
STRIKES = 3000
STORM = f"storm {STRIKES}"
CLIENTS = {
    "bad": [
        "null Bad address", "high Bad address", "across Bad address", "end ok", "path at end ok",
        "path across File name too long", "read only Bad address", "closed Bad file descriptor",
        "no console Inappropriate ioctl for device",
    ],
    "closed 3": ["switched ok", "waited ok"],
    "alarm 4": ["interrupted Interrupted system call", "went on ok after several signals"],
    STORM: ["wrong 0 failed 0 signals many"],
    "threads": ["failed 0"],
    "around": [
        "i386 Function not implemented", "x32 Function not implemented", "ring Function not implemented",
        "handle Operation not permitted",
    ],
}  # fmt: skip
# Words that no option or request has, and how the message begins.
NAMED = {
    ("--foo",): "vtrun: --foo: no such option\n",
    ("--foo", "--", "true"): "vtrun: --foo: no such option\n",
    ("bogus",): "vtrun: bogus: no such word\n",
    ("--consoles", "5-2", "--", "true"): "vtrun: --consoles 5-2: numbers from 1 to 63 were wanted",
}
REFUSED = "gets no seat: all 64 processes of the machine are taken (EUSERS)"
NODES = "ls -ln /dev/tty* /dev/vcs* /dev/console 2>/dev/null | awk '{ print $1, $3, $4, $5, $6, $NF }'; ls /dev | sort"
GROWTH_KB = 1024
MOST_US = 1000  # of vtrun's processor, for a request
LONGEST = 200  # seconds
READABLE = 15_000_000  # bytes that `vt check` reads


def check_deaths(check, place):
    """A server dies after each of its requests, or a program while it waits: the display goes on."""
    need("chvt", "fgconsole")
    ran = place.play("deaths", "--consoles", "1-2", given=[REQUESTS], journal=True)
    died = [line for line in ran.lines() if line.endswith(" 137 1")]
    good = len(ran.lines()) == REQUESTS and "stuck" not in ran.out
    check.holds(good, f"servers that die: {ran.lines()}")
    check.holds(len(died) >= DEATHS, f"only {len(died)} of {REQUESTS} servers died by their requests: {ran.lines()}")
    check.holds(ran.is_legal(), "the journal of servers that die isn't legal")
    ran = place.play("waiters", "--consoles", "1-2", journal=True)
    check.holds(ran.lines() == ["137", "137", "137", "2", "1", "0", "2"], f"programs that die: {ran.lines()} {ran.err}")
    check.holds(ran.is_legal(), "the journal of programs that die while they wait isn't legal")


def check_attention(check, place):
    """The attention key ends the programs of the console in front, and no others."""
    need("loadkeys", "chvt", "fgconsole")
    ran = place.play("attention", "--consoles", "1-3", journal=True)
    wanted = ["137", "137", "1", "1", "hello", "again"]
    check.holds(ran.lines() == wanted, f"the attention key: {ran.lines()} {ran.err}")
    check.holds(ran.is_legal(), "the journal of the attention key isn't legal")


def keeps_answers():
    """Whether the kernel lets no signal take an answer away."""
    return tuple(map(int, os.uname().release.split("-")[0].split(".")[:2])) >= (5, 19)


def check_clients(check, place):
    """Bad pointers, closed descriptors, and signals at every moment."""
    for words, lines in CLIENTS.items():
        ran = place.run(f"$T/clients {words}", journal=True)
        good = ran.lines() == lines and ran.status == 0
        check.holds(good, f"clients {words}: {ran.status} {ran.lines()} {ran.err}, wanted {lines}")
        check.holds(ran.is_legal(), f"the journal of clients {words} isn't legal")
        if words == STORM and keeps_answers():
            made = ran.journal.read_text(encoding="ascii").count(" setkd ")
            check.holds(made == STRIKES, f"clients {words}: {made} of {STRIKES} requests were made")


def check_numbers(check, place):
    """64 processes of the machine, and a 65th: a named refusal. Seats of programs that ended serve others."""
    need("fgconsole")
    ran = place.run("$T/clients many 70; $T/clients many 20; fgconsole")
    first, second, last = (ran.lines() + ["", "", ""])[:3]
    count = int((first.split() + ["", "0"])[1])
    good = 55 <= count <= 62 and first == f"answered {count} refused {70 - count} other 0"
    check.holds(good, f"70 programs at once: {first}")
    check.holds(REFUSED in ran.err, f"the refusal isn't named: {ran.err}")
    good = (second, last) == ("answered 20 refused 0 other 0", "1")
    check.holds(good, f"programs after others: {ran.lines()}")
    ran = place.run("for i in $(seq 150); do fgconsole; done | sort | uniq -c; fgconsole", journal=True)
    good = [line.split() for line in ran.lines()] == [["150", "1"], ["1"]]
    check.holds(good, f"150 programs in turn: {ran.lines()} {ran.err}")
    check.holds(ran.is_legal(), "the journal of 150 programs isn't legal")
    ran = place.run("for i in $(seq 66); do $T/server 2 die 1 quiet; done 2> /dev/null; fgconsole 2>&1; echo end")
    good = ran.status == 0 and ran.lines()[-1:] == ["end"] and REFUSED in ran.err
    check.holds(good, f"66 owners that die: {ran.lines()} {ran.err[-200:]}")


def check_flood(check, place):
    """Output without an end, and programs that read nothing: vtrun still answers at once."""
    need("chvt", "fgconsole")
    ran = place.play("flood", "--consoles", "1-5")
    good = ran.lines() == ["5", "0", "5"] and ran.seconds < LONGEST
    check.holds(good, f"a flood: {ran.lines()} {ran.seconds:.0f} s {ran.err}")


def alive(word):
    """The programs that were started with this word."""
    return command(["pgrep", "-f", f"sleep 6[123].{word}"]).stdout.split()


def check_killed(check, place):
    """vtrun ends by force: its programs end too, also those that ignore a hang-up, and /dev hasn't changed."""
    need("pgrep")
    before, mark, word = command(["sh", "-c", NODES]).stdout, place.new("mark"), os.getpid()
    words = [*place.words("--consoles", "1-3"), "bash", TESTS / "runs/stubborn.sh", mark, word]
    nothing = {"stdin": subprocess.DEVNULL, "stdout": subprocess.DEVNULL, "stderr": subprocess.DEVNULL}
    with subprocess.Popen([str(it) for it in words], env=place.environment(), **nothing) as process:
        end = time.monotonic() + LONGEST
        while not mark.exists() and time.monotonic() < end:
            time.sleep(0.05)
        running = alive(word)
        process.send_signal(signal.SIGKILL)
    end = time.monotonic() + LONGEST
    while alive(word) and time.monotonic() < end:
        time.sleep(0.2)
    left = alive(word)
    check.holds(len(running) >= 3 and not left, f"{len(running)} programs ran, and after vtrun's end {left} are left")
    check.holds(command(["sh", "-c", NODES]).stdout == before, "/dev is another after vtrun's end by force")


def check_ends(check, place):
    """The status is the command's; a time limit, a signal and `vtrun end` end all programs."""
    for script, wanted in {"exit 7": 7, "kill -9 $$": 137, "exec true": 0}.items():
        ran = place.run(script)
        check.holds(ran.status == wanted, f"{script}: status {ran.status}")
    for words, wanted in {("no-such-program",): 127, ("/etc/passwd",): 126}.items():
        ran = command([*place.words(), *words])
        check.holds(ran.returncode == wanted and "vtrun: " in ran.stderr, f"{words}: {ran.returncode} {ran.stderr}")
    ignoring = ["sh", "-c", "trap '' INT QUIT; exec \"$@\"", "sh"]
    ran = place.run("bash -c 'kill -INT $$'; echo $?", before=ignoring)
    check.holds(ran.lines() == ["130"], f"a caller that ignores SIGINT: {ran.lines()}")
    ran = command([place.folder / "vtrun", "--timeout", "1", "--", "sleep", SECONDS])
    check.holds(ran.returncode == 124, f"a time limit: {ran.returncode}")
    ran = place.run(f"trap '' HUP TERM; sleep {SECONDS} & vtrun end; sleep {SECONDS}")
    check.holds(ran.status == 0 and ran.seconds < LONGEST, f"vtrun end: {ran.status} after {ran.seconds:.0f} s")
    bad = (
        "--size 0 80", "--consoles 0", "--consoles 1,,2", "--consoles 1,", "--consoles 5-2", "--consoles 1-2-3",
        "--consoles 64", "-x", "--keymap /nonexistent", "--on", "--user nosuchuser",
    )  # fmt: skip
    for words in (*([*it.split(), "--", "true"] for it in bad), ["--"], []):
        ran = command([place.folder / "vtrun", *words])
        check.holds(ran.returncode == 2 and ran.stderr.startswith("vtrun: "), f"{words}: {ran.returncode} {ran.stderr}")
    for words, said in NAMED.items():
        ran = command([place.folder / "vtrun", *words])
        check.holds(ran.returncode == 2 and ran.stderr.startswith(said), f"{words}: {ran.returncode} {ran.stderr}")
    kept = place.new("journal")
    kept.write_text("kept", encoding="ascii")
    for words in (["--user", "nosuchuser"], ["--keymap", "/nonexistent"]):
        ran = command([place.folder / "vtrun", "-j", kept, *words, "--", "true"])
        check.holds(ran.returncode == 2 and kept.read_text() == "kept", f"{words} and a journal: {ran.returncode}")
    need("prlimit")
    ran = command(["prlimit", "--nofile=160:160", place.folder / "vtrun", "--", "true"])
    good = ran.returncode == 126 and ran.stderr.endswith("Too many open files\n")
    check.holds(good, f"too few descriptors: {ran.returncode} {ran.stderr}")
    bad = place.new("keymap")
    bad.write_text("keycode 30 = nothing\n", encoding="ascii")
    ran = command([place.folder / "vtrun", "--keymap", bad, "--", "true"])
    check.holds(ran.returncode == 2 and ":1:14: fault 2" in ran.stderr, f"a keymap with a fault: {ran.stderr}")
    bad.write_bytes(b"# caf\xe9 \xed\xa0\x80 \xf4\x90\x80\x80 \xc3\xa9\r\nkeycode 30 = a\n")
    ran = place.run("true < /dev/tty1", "--keymap", str(bad), journal=True)
    check.holds(ran.is_legal(), f"a keymap with a comment that isn't UTF-8: {ran.judged('vt', 'check')} {ran.err}")


def check_full(check, place):
    """A journal, or a session, that can't be written as a whole: status 125, and the reason."""
    need("prlimit")
    words = [*place.words("-j", place.new("journal")), "sh", "-c", f"{place.folder}/clients {STORM}"]
    ran = command(["prlimit", "--fsize=20000:20000", *words])
    good = ran.returncode == 125 and ran.stderr.endswith("the journal can't be written: File too large\n")
    check.holds(good, f"a journal of at most 20,000 bytes: {ran.returncode} {ran.stderr}")
    if os.geteuid() or command(["unshare", "-m", "true"]).returncode:
        raise Absent("no mount namespace may be made")
    # (the items of a session are kept in /tmp, which has room for three pages here)
    script = f"mount --bind {place.folder} /mnt && mount -t tmpfs -o size=12k none /tmp && exec \"$@\""
    words = ["/mnt/vtrun", "--timeout", LIMIT, "-j", "/mnt/full", "--", "/mnt/clients", *STORM.split()]
    ran = command(["unshare", "-m", "sh", "-c", script, "sh", *words])
    good = ran.returncode == 125 and "the items of a session can't be kept: No space left" in ran.stderr
    check.holds(good, f"a session without room for its items: {ran.returncode} {ran.stderr}")


def check_memory(check, place):
    """Without a journal memory stays, however many calls are made."""
    need("fgconsole")
    ran = place.play("memory")
    sizes = [int(line) for line in ran.lines() if line.isdigit()]
    ticks = [int(line.split()[1]) for line in ran.lines() if line.startswith("ticks ")]
    counts = [int(line.split()[0]) for line in ran.lines() if " requests: " in line]
    check.holds(len(sizes) == 2 and sizes[1] - sizes[0] < GROWTH_KB, f"memory: {ran.lines()}")
    good = ticks and ticks[0] / os.sysconf("SC_CLK_TCK") * 1_000_000 < MOST_US * counts[-1]
    check.holds(good, f"the time of {counts[-1:]} requests: {ran.lines()}")


def check_fuzz(check, place):
    """Random requests from several processes, and random requests of the control socket."""
    seed = int(time.time())
    commands = {"requests": f"$T/fuzz {seed} 2 4", "control": f"{sys.executable} {TESTS}/fuzz_control.py {seed} 2"}
    for what, script in commands.items():
        for words in ((), ("--no-namespaces", "--size", "5", "20")):
            ran = place.run(script, "--consoles", "1-4", *words, journal=True)
            good = ran.status == 0 and ("came and went" in ran.out or "were answered" in ran.out)
            check.holds(good, f"fuzz of {what} {seed} {words}: {ran.status} {ran.out[-200:]} {ran.err[-300:]}")
            is_small = ran.journal.stat().st_size < READABLE
            good = not is_small or ran.is_legal() or ran.is_lawful()
            check.holds(good, f"the journal of a fuzz of {what} {seed} {words} isn't legal")


def check_real_consoles(check, place):
    """A request for a console of the real machine, which the caller has open, is refused."""
    if not os.access("/dev/tty1", os.R_OK) or os.path.realpath("/dev/tty1") != "/dev/tty1":
        raise Absent("no /dev/tty1 may be opened")
    try:
        with open("/dev/tty1", "rb", buffering=0) as real:
            ran = command([*place.words(), place.folder / "asks"], stdin=real)
    except OSError as fault:
        raise Absent(f"/dev/tty1: {fault.strerror}") from fault
    answers = {line.split(" ", 1)[1] for line in ran.stdout.splitlines()}
    check.holds(answers == {"Inappropriate ioctl for device"}, f"a real console as standard input: {answers}")


PARTS = {
    "memory": check_memory, "numbers": check_numbers, "flood": check_flood, "deaths": check_deaths,
    "clients": check_clients, "ends": check_ends, "killed": check_killed, "fuzz": check_fuzz,
    "full": check_full, "attention": check_attention, "real consoles": check_real_consoles,
}  # fmt: skip
