"""The words of sessions: the calls and hooks of a process, the keys of the tables, and the requests of Linux.

A part of tools/why.py. dev/checks/check_pages.py compares CALLS with docs/reference/journal.md, the keys with
docs/reference/sessions.md and docs/reference/typing.md, and REQUESTS with docs/reference/compatibility.md.
"""

# The words of each call: HH is a byte, B is bytes, and every other word after the first is a number.
CALLS = (
    "scan HH", "exit", "open N", "close FD", "write FD B", "read FD M", "waitinput FD", "waitactive FD N", "waitsignal",
    "waitend", "activate FD N", "disallocate FD N", "openqry FD", "getstate FD", "resize FD R C", "lock FD",
    "unlock FD", "setkd FD M", "getkd FD", "setmode FD M W R A F", "getmode FD", "reldisp FD A", "setkb FD M",
    "getkb FD", "setmeta FD M", "getmeta FD", "setled FD V", "getled FD", "setflags FD V", "getflags FD",
    "setent FD T C K V", "getent FD T C", "setfunc FD I B", "getfunc FD I", "setdia FD B", "getdia FD",
    "setcode FD S C", "getcode FD S", "accept FD S", "setmap FD B", "getmap FD", "setpal FD B", "getpal FD", "dump K N",
    "signals", "kill P S",
)  # fmt: skip
# The calls that a program makes by itself, and when.
NOT_IN_SCRIPTS = {
    "scan": "a keyboard makes it with each byte of keys",
    "exit": "a process makes it after the last item of its script",
    "waitend": "a process makes it after the answer wait",
    "signals": "a process makes it after each item of its script",
}
HOOKS = ("nothing", "disp FD A", "put FD HH", "leave")
# The keys of a table by their numbers from 1, with what each has to be.
TOP_KEYS = {
    "rows": "an integer from 1 to 255",
    "cols": "an integer from 1 to 255",
    "consoles": "an array of integers, at least one, each from 1 to 63 and none twice",
    "front": "an integer, one of consoles",
    "events": "an integer from 0 to 1,000,000",
    "bytes": "an integer from 64 to 1,073,741,824",
    "include": "a table of texts",
    "keymap": "a text",
    "keys": "a text of at most 100,000 scan bytes",
    "turns": "an array of at most 1,000,000 integers",
    "process": "an array of at most 64 tables",
    "more_keys": "an array of at most three texts, each of at most 100,000 scan bytes",
}
PROCESS_KEYS = {
    "home": "an integer from 0 to 63",
    "privileged": "true or false",
    "script": "an array of at most 10,240 texts",
    "hooks": "an array of texts",
}
TYPE_KEYS = {
    "mode": "an integer from 0 to 4",
    "include": "a table of texts",
    "keymap": "a text",
    "keys": "a text of at most 100,000 scan bytes",
}
# The requests of ioctl_console(2), Linux man-pages 6.03, in its order, each with the name of its call or None.
REQUESTS = {
    "KDGETLED": "getled", "KDSETLED": "setled", "KDGKBLED": "getflags", "KDSKBLED": "setflags", "KDGKBTYPE": None,
    "KDADDIO": None, "KDDELIO": None, "KDENABIO": None, "KDDISABIO": None, "KDSETMODE": "setkd", "KDGETMODE": "getkd",
    "KDMKTONE": None, "KIOCSOUND": None, "GIO_CMAP": "getpal", "PIO_CMAP": "setpal", "GIO_FONT": None,
    "GIO_FONTX": None, "PIO_FONT": None, "PIO_FONTX": None, "PIO_FONTRESET": None, "GIO_SCRNMAP": None,
    "GIO_UNISCRNMAP": "getmap", "PIO_SCRNMAP": None, "PIO_UNISCRNMAP": "setmap", "GIO_UNIMAP": None, "PIO_UNIMAP": None,
    "PIO_UNIMAPCLR": None, "KDGKBMODE": "getkb", "KDSKBMODE": "setkb", "KDGKBMETA": "getmeta", "KDSKBMETA": "setmeta",
    "KDGKBENT": "getent", "KDSKBENT": "setent", "KDGKBSENT": "getfunc", "KDSKBSENT": "setfunc", "KDGKBDIACR": "getdia",
    "KDGETKEYCODE": "getcode", "KDSETKEYCODE": "setcode", "KDSIGACCEPT": "accept", "VT_OPENQRY": "openqry",
    "VT_GETMODE": "getmode", "VT_SETMODE": "setmode", "VT_GETSTATE": "getstate", "VT_RELDISP": "reldisp",
    "VT_ACTIVATE": "activate", "VT_WAITACTIVE": "waitactive", "VT_DISALLOCATE": "disallocate", "VT_RESIZE": "resize",
    "VT_RESIZEX": None, "TIOCLINUX": None,
}  # fmt: skip
# Errors of calls (errno(3)), by the numbers of Linux.
ERRORS = {
    1: "EPERM", 3: "ESRCH", 4: "EINTR", 6: "ENXIO", 9: "EBADF", 11: "EAGAIN", 16: "EBUSY", 22: "EINVAL", 25: "ENOTTY",
}  # fmt: skip
