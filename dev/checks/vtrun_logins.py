"""Parts of check_vtrun.py: logins, locks, and seats."""
import os
import pathlib
import re

from vtrun_runs import Absent, need

# The hash of the password `secret` (crypt(5)).
SECRET = "$6$vtruncheck$gWYsuyxetNHilItDiBLz7kuE24krw8mVE0k10CnrZga59QsXnCMwSkrQlaF0q5SIC45g72Mk8O1T4krWEX.X5/"

GREETD = """[terminal]
vt = 2
switch = true
[default_session]
command = "agreety --cmd /bin/sh"
user = "root"
"""
# Gives root another password, and /run to daemons, for a command.
COVERED = 'mount --bind "$1" /etc/shadow && mount -t tmpfs none /run && shift && exec "$@"'


def check_login(check, place):
    """agetty, login and a shell: names, job control, the interrupt key."""
    need("agetty", "login", "chvt", "fgconsole", "pgrep")
    if os.geteuid():
        raise Absent("only root may log in without a password")
    ran = place.play("login", "--consoles", "1-2", journal=True)
    check.holds("0" in ran.lines() and "back-130" in ran.out, f"a login: {ran.out} {ran.err}")
    if place.has_namespaces:
        check.holds("at=/dev/tty2 front=2" in ran.out, f"the name of a login's console: {ran.out}")
    check.holds(ran.is_legal(), "the journal of a login isn't legal")


def check_seat(check, place):
    """seatd gives the seat to a client of libseat, takes it at a switch, and gives it again."""
    need("seatd-launch", "chvt", "unshare")
    if os.geteuid():
        raise Absent("only root may run seatd")
    place.seat_client()
    ran = place.play("seat", "--consoles", "1-2", journal=True)
    good = ran.lines()[:3] == ["enabled", "disabled", "enabled"] and ran.lines()[-1] == "0"
    check.holds(good, f"seatd: {ran.lines()} {ran.err}")
    good = any(re.search(r" 1 2 released \d+ asked \d+ signal 10", row) for row in ran.explained())
    check.holds(good, f"seatd released no console: {ran.explained()}")
    check.holds(ran.is_legal(), "the journal of seatd isn't legal")


def with_password(place):
    """The words before a command for which root's password is `secret`: in a mount namespace of its own."""
    need("unshare")
    if os.geteuid():
        raise Absent("only root may have a password for a test")
    lines = pathlib.Path("/etc/shadow").read_text(encoding="utf-8").splitlines()
    changed = [re.sub("^root:[^:]*:", lambda _: f"root:{SECRET}:", line) for line in lines]
    shadow = place.new("shadow")
    shadow.touch(0o600)
    shadow.write_text("\n".join([*changed, ""]), encoding="utf-8")
    return ["unshare", "-m", "sh", "-c", COVERED, "sh", shadow]


def check_vlock(check, place):
    """vlock holds its console until the password is typed."""
    need("vlock", "chvt", "fgconsole", "pgrep")
    ran = place.play("vlock", "--consoles", "1-2", journal=True, before=with_password(place))
    check.holds(ran.lines() == ["143", "2", "0", "1"], f"vlock: {ran.lines()} {ran.err}")
    check.holds(ran.is_legal(), "the journal of vlock isn't legal")


def check_physlock(check, place):
    """physlock takes a new console and forbids switches until the password is typed."""
    need("physlock", "chvt", "fgconsole", "pgrep")
    ran = place.play("physlock", "--consoles", "1-2", journal=True, before=with_password(place))
    check.holds(ran.lines() == ["1", "0", "2"], f"physlock: {ran.lines()} {ran.err}")
    check.holds(ran.is_legal(), "the journal of physlock isn't legal")


def check_greetd(check, place):
    """greetd switches to its console and starts a session there."""
    need("greetd", "agreety", "fgconsole", "pgrep")
    file = place.new("greetd")
    file.write_text(GREETD, encoding="ascii")
    ran = place.play("greetd", "--consoles", "1-2", given=[file], journal=True, before=with_password(place))
    name = "/dev/tty2" if place.has_namespaces else "/dev/pts"
    check.holds(ran.lines()[:1] == ["2"] and f"at={name}" in ran.out, f"greetd: {ran.out} {ran.err}")
    check.holds(ran.is_legal(), "the journal of greetd isn't legal")


PARTS = {
    "login": check_login, "seatd": check_seat, "greetd": check_greetd, "vlock": check_vlock, "physlock": check_physlock,
}  # fmt: skip
