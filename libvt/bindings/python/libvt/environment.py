"""The environment of a program on a console, and that of a user without settings of their own."""
from __future__ import annotations

import os
from os import PathLike
from typing import Mapping

# Variables that name another terminal, or a size: a program on a console doesn't get them.
OF_TERMINALS = (
    "LINES", "COLUMNS", "COLORTERM", "TERM_PROGRAM", "TERMCAP", "TMUX", "TMUX_PANE", "STY", "ESCDELAY",
)  # fmt: skip
# Variables by which a user sets up programs.
OF_USERS = (
    "LANGUAGE", "EDITOR", "VISUAL", "PAGER", "LESS", "LESSOPEN", "LESSCLOSE", "LS_COLORS", "GREP_COLORS", "BASH_ENV",
    "ENV", "PROMPT_COMMAND", "PS1", "INPUTRC", "TERMINFO", "XDG_CONFIG_HOME", "XDG_DATA_HOME", "XDG_STATE_HOME",
    "XDG_CACHE_HOME", "DISPLAY", "WAYLAND_DISPLAY", "DIALOGRC", "HTOPRC", "NCURSES_NO_UTF8_ACS",
)  # fmt: skip


def on_console(changes: Mapping[str, str | None]) -> dict[str, str]:
    """The environment of this process for a program on a console, with changes; None removes a variable."""
    given: dict[str, str | None] = {key: value for key, value in os.environ.items() if key not in OF_TERMINALS}
    given = {**given, "TERM": "linux", **changes}
    return {key: value for key, value in given.items() if value is not None}


def settings_of(home: str | PathLike[str]) -> dict[str, str | None]:
    """Changes that give a program the environment of a user without settings, whose home is this folder: the locale
    C.UTF-8, the time zone UTC, and /bin/sh as the shell."""
    plain = {"HOME": os.fspath(home), "LC_ALL": "C.UTF-8", "TZ": "UTC", "SHELL": "/bin/sh"}
    return {**dict.fromkeys(OF_USERS), **plain}
