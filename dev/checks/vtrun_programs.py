"""Parts of check_vtrun.py: programs of Linux, beside what they do on a console of Linux."""
import os
import pathlib
import pwd
import re
import sys

from vtrun_runs import NOBODY, TESTS, Absent, need

# Where a program does otherwise than on the console that was recorded: its lines here, and the reason.
OTHERWISE = {
    "deallocvt 5": ["status 0"],  # (Linux: EBUSY, since it isn't allocated any more)
    "deallocvt 9": ["status 0"],  # (the same, of a console that isn't allocated)
    "setleds": [  # (no keyboard is there, so its lights are off)
        "Current default flags:  NumLock on    CapsLock off   ScrollLock off",
        "Current flags:          NumLock on    CapsLock off   ScrollLock off",
        "Current leds:           NumLock on    CapsLock off   ScrollLock off", "status 0",
    ],
    "kbdrate": [  # (the same)
        "old delay 250, period 33", "Typematic Rate set to 30.3 cps (delay = 250 ms)", "status 0",
    ],
    "getkeycodes": [  # (the same)
        "Plain scancodes xx (hex) versus keycodes (dec)",
        "0 is an error; for 1-88 (0x01-0x58) scancode equals keycode", "",
        " 0x58:   88   0   0   0   0   0   0   0", " 0x60:    0   0   0   0   0   0   0   0",
        " 0x68:    0   0   0   0   0   0   0   0", " 0x70:    0   0   0   0   0   0   0   0",
        " 0x78:    0   0   0   0   0   0   0   0", "status 0",
    ],
}  # fmt: skip
REQUESTS_OTHERWISE = {
    "KDGETKEYCODE": "ok", "KDSETKEYCODE": "ok",  # (there is no keyboard there: ENODEV)
    "VT_DISALLOCATE": "ok",  # (of a console that isn't allocated)
}  # fmt: skip
# Programs that look for a default font, and where they may find one: none was there when they were recorded.
WITH_FONT = ("setfont -v", "setfont -m none")
FONTS = ("/usr/share/consolefonts", "/usr/share/kbd/consolefonts", "/usr/lib/kbd/consolefonts", "/lib/kbd/consolefonts")
HANDSHAKES = 1000
# The paths that may lead to a console in front.
PATHS = (
    "/dev/tty0", "tty0", "./tty0", "../dev/tty0", "/dev/../dev/tty0", "/dev/console", "/dev/tty5", "/dev/tty",
    "/proc/self/root/dev/tty0",
)  # fmt: skip


def recorded(name):
    """The lines of a recording, without its heading."""
    return [line for line in (TESTS / name).read_text(encoding="utf-8").splitlines() if not line.startswith("# ")]


def answers_in(lines):
    """The lines of each command, in order."""
    found = []
    for line in lines:
        if line.startswith("== "):
            found.append((line[3:], []))
        else:
            found[-1][1].append(line)
    return found


def check_real(check, place):
    """kbd and util-linux print what they print on Linux."""
    need("fgconsole", "setleds", "setterm", "timeout")
    ran = place.run(f"exec bash {TESTS}/programs.sh", journal=True)
    here, there = answers_in(ran.lines()), answers_in(recorded("real-programs.txt"))
    check.holds(ran.status == 0 and len(here) == len(there), f"programs.sh ends with {ran.status}: {ran.err}")
    has_font = any(path for folder in FONTS for path in pathlib.Path(folder).glob("default8x16*"))
    for (words, lines), (wanted_words, wanted) in zip(here, there):
        if has_font and words in WITH_FONT:
            continue
        wanted = OTHERWISE.get(words, wanted)
        check.holds(words == wanted_words and lines == wanted, f"{words}: {lines}, wanted {wanted}")
    check.holds(ran.is_legal(), "the journal of programs.sh isn't legal")


def check_requests(check, place):
    """Every request is answered as by Linux, or otherwise for a reason."""
    ran = place.run("$T/asks < /dev/tty1", journal=True)
    wanted = dict(line.split(" ", 1) for line in recorded("real-requests.txt"))
    got = dict(line.split(" ", 1) for line in ran.lines())
    check.holds(list(got) == list(wanted), f"other requests were asked: {set(got) ^ set(wanted)}")
    for name, answer in got.items():
        right = REQUESTS_OTHERWISE.get(name, wanted.get(name))
        check.holds(answer == right, f"{name}: {answer}, wanted {right}")
    check.holds(ran.is_legal(), "the journal of all requests isn't legal")
    ran = place.run("$T/asks < /dev/null; $T/asks < /tmp")
    answers = {line.split(" ", 1)[1] for line in ran.lines()}
    check.holds(answers == {"Inappropriate ioctl for device"}, f"requests of other files: {answers}")


def check_keys(check, place):
    """dumpkeys and loadkeys: what is dumped is loaded again, and changes nothing."""
    need("loadkeys", "dumpkeys", "chvt")
    ran = place.play("keys", journal=True)
    key, string = "keycode  30 = +b               +A               +a              ", 'string F100 = "hundred"'
    check.holds(ran.lines() == ["0", "0", "0", key, string, "0", "0"], f"loadkeys: {ran.lines()}, {ran.err}")
    check.holds(ran.is_lawful(), f"the journal of loadkeys isn't lawful: {ran.judged('watch', 'free')[1]}")


def check_readers(check, place):
    """showkey reads keys in two modes; setkeycodes gives a scan code a key; screendump reads a screen."""
    need("showkey", "setkeycodes", "screendump", "chvt")
    ran = place.play("readers", "--consoles", "1-3")
    wanted = [
        "0x1e 0x9e 0xe0 0x48 0xe0 0xc8 ", "keycode  30 press", "keycode  30 release", "keycode 103 press",
        "keycode 103 release", "The keyboard is in Unicode (UTF-8) mode",
        "e0 10:   30   0   0   0   0   0   0   0", "third",
    ]  # fmt: skip
    got = [line if line.startswith("0x") else line.strip() for line in ran.lines()]
    check.holds(got == wanted, f"readers: {got}, wanted {wanted} {ran.err}")


def check_handshakes(check, place):
    """Each switch between two servers is a release of the one that had the display."""
    ran = place.play("handshakes", "--consoles", "1-2", given=[HANDSHAKES], journal=True)
    check.holds("switches: median" in ran.out and ran.status == 0, f"handshakes: {ran.out} {ran.err}")
    rows = ran.explained()
    released = [row for row in rows if " released " in row and row.endswith(" signal 10")]
    good = len(released) >= HANDSHAKES - 1
    check.holds(good, f"{len(released)} of {HANDSHAKES} switches were released, {len(rows)} in all")
    check.holds(ran.is_legal(), "the journal of handshakes isn't legal")


def check_servers(check, place):
    """A server that refuses keeps its console; one that hangs loses it when it is killed."""
    need("chvt", "fgconsole")
    ran = place.play("servers", "--consoles", "1-3", journal=True)
    got = [line for line in ran.lines() if not line.startswith("server")]
    check.holds(got == ["143", "2", "1", "3", "0", "1"], f"servers that refuse and hang: {ran.lines()}")
    good = "server 2: refused" in ran.lines() and "server 3: asked" in ran.lines()
    check.holds(good, f"servers were asked: {ran.lines()}")
    good = any(re.search(r"3 1 died \d+ asked \d+ signal 10", row) for row in ran.explained())
    check.holds(good, f"no switch by the death of a server: {ran.explained()}")
    check.holds(ran.is_legal(), "the journal of servers isn't legal")


def check_openvt(check, place):
    """openvt gives a console as the controlling terminal, by its name."""
    need("openvt", "fgconsole", "tty")
    script = "openvt -s -w -c 4 -- sh -c 'tty > $T/openvt; fgconsole >> $T/openvt'; cat $T/openvt; fgconsole"
    ran = place.run(script)
    name = "/dev/tty4" if place.has_namespaces else "/dev/pts"
    good = ran.lines()[:1] and ran.lines()[0].startswith(name) and ran.lines()[1:] == ["4", "1"]
    check.holds(good, f"openvt: {ran.lines()} {ran.err}")


def check_rights(check, place):
    """A user without rights has those of a console that is its terminal, and no others."""
    need("chvt", "kbd_mode")
    user = "nobody" if os.geteuid() == 0 else pwd.getpwuid(os.geteuid()).pw_name
    ran = place.play("rights", "--user", user, "--consoles", "1-3")
    wanted = ["0", "1", "The keyboard is in xlate (8-bit) mode", "2", "Permission denied", "own"]
    check.holds(ran.lines() == wanted, f"a user without rights: {ran.lines()} {ran.err}")


def check_user(check, place):
    """vtrun of a user who isn't root, in a user namespace and without one."""
    need("setpriv", "chvt", "fgconsole", "openvt")
    if os.geteuid():
        raise Absent("only root may become another user")
    before = ["setpriv", f"--reuid={NOBODY}", f"--regid={NOBODY}", "--clear-groups"]
    for words in ((), ("--no-namespaces",)):
        ran = place.play("user", "--consoles", "1-2", *words, before=before)
        good = ran.lines() == ["2", "0"] and ran.status == 0
        check.holds(good, f"vtrun of nobody {words}: {ran.lines()} {ran.err}")
    before += [sys.executable, TESTS / "runs/no_mounts.py"]
    ran = place.run("stat -c %u /; chvt 2; fgconsole", "--consoles", "1-2", before=before)
    check.holds(ran.lines() == ["0", "2"], f"vtrun of nobody who may mount nothing: {ran.lines()} {ran.err}")


def check_container(check, place):
    """Root without the capabilities that a container takes away."""
    need("setpriv", "chvt", "fgconsole", "openvt")
    if os.geteuid():
        raise Absent("only root has capabilities to give up")
    lost = "--bounding-set=-sys_admin,-sys_ptrace,-sys_tty_config,-mknod,-net_admin"
    before = ["setpriv", lost, "--inh-caps=-all"]
    ran = place.play("user", "--consoles", "1-2", before=before)
    check.holds(ran.lines() == ["2", "0"] and ran.status == 0, f"vtrun in a container: {ran.lines()} {ran.err}")


def check_empty(check, place):
    """A /dev without consoles."""
    need("unshare", "chvt", "fgconsole", "openvt")
    if os.geteuid():
        raise Absent("only root may make a /dev")
    dev = place.new("dev")
    dev.mkdir()
    before = ["unshare", "-m", "sh", TESTS / "runs/empty_dev.sh", dev]
    wanted = ["3", "0", "0", "/dev/tty0 ok 3", "/dev/console ok 3"]
    for words in ((), ("--no-namespaces",)):
        ran = place.play("empty", "--consoles", "1-2", *words, before=before)
        check.holds(ran.lines() == wanted, f"an empty /dev {words}: {ran.lines()} {ran.err}")


def check_paths(check, place):
    """No path of a static program leads to the real machine's consoles."""
    need("chvt")
    active = pathlib.Path("/sys/class/tty/tty0/active")
    before = active.read_text(encoding="ascii") if active.exists() else ""
    link = place.new("link")
    link.symlink_to("/dev/tty0")
    paths = [*PATHS, str(link)]
    for words in ((), ("--no-namespaces",)):
        ran = place.play("paths", *words, given=paths)
        right = [f"{path} ok 41" for path in paths]
        check.holds(ran.lines()[: len(right)] == right, f"paths {words}: {ran.lines()}")
        other = "".join(ran.lines()[len(right) : len(right) + 1])
        good = other.startswith("/proc/") and other.endswith("/root/dev/tty0 ok 41")
        check.holds(good or not pathlib.Path("/dev/tty0").exists(), f"a path through another process: {ran.lines()}")
        check.holds(ran.lines()[-1:] == ["x"], f"what was written to /dev/tty0: {ran.lines()}")
    after = active.read_text(encoding="ascii") if active.exists() else ""
    check.holds(before == after, f"the real console in front was {before!r}, and is {after!r}")


def check_screens(check, place):
    """vcs(4): the text and the attributes of a screen, as it is when it is opened."""
    ran = place.play("screens", "--size", "10", "20")
    wanted = [" 68 e9 6c 6c 6f 58", "  10  20   6   0", " 00000068 000000e9", "No such file or directory"]
    check.holds(ran.lines() == wanted, f"vcs(4): {ran.lines()} {ran.err}")


PARTS = {
    "real programs": check_real, "requests": check_requests, "keys": check_keys, "readers": check_readers,
    "handshakes": check_handshakes, "servers": check_servers, "openvt": check_openvt, "rights": check_rights,
    "user": check_user, "container": check_container, "empty": check_empty, "paths": check_paths,
    "screens": check_screens,
}  # fmt: skip
