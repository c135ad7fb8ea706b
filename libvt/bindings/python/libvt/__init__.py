"""Programs on a proved Linux text console, for tests and for terminals.

    from libvt import Terminal

    with Terminal("less -M numbers", rows=6, cols=40) as less:
        less.type("<Space>")
        assert less.screen.rows[0] == "6"

`Terminal` runs a program on a terminal, and `Consoles` runs programs on the consoles of a machine, by vtrun(1).
`Screen`, `Keyboard` and `Machine` are the calls of the C library libvt, which vt(3) describes; the module
`libvt.machine` has the answers and marks of a machine. The pytest plugin is `pytest_libvt`. `python3 -m libvt.expect`
runs test files, `python3 -m libvt.record` records a program, and `python3 -m libvt.animation` draws a recording as a
moving picture.
"""
from .calls import (
    COLOURS, ESCPREFIX, HALF, LIGHTS_FOLLOW, MEDIUMRAW, METABIT, OFF, RAW, UNICODE, XLATE, Attention, Bell, Cell,
    Closed, Cursor, Error, Event, Keyboard, KeymapFault, KeyState, LibraryError, Lights, Modes, NoMemory, NotDrawable,
    OutOfRange, Report, Screen, Settings, Spawn, SwitchLast, SwitchNext, SwitchPrevious, SwitchTo, Typed, columns,
)  # fmt: skip
from .calls import Full, InUse
from .console_program import Program
from .console_states import Client, ConsoleState
from .consoles import Consoles
from .environment import settings_of
from .machine import Machine, Process
from .shown import Mask, Place, Shown
from .terminal import Failed, Terminal
from .vtrun import Unavailable

__all__ = [
    "COLOURS", "ESCPREFIX", "HALF", "LIGHTS_FOLLOW", "MEDIUMRAW", "METABIT", "OFF", "RAW", "UNICODE", "XLATE",
    "Attention", "Bell", "Cell", "Client", "Closed", "Consoles", "ConsoleState", "Cursor", "Error", "Event", "Failed",
    "Full", "InUse", "Keyboard", "KeymapFault", "KeyState", "LibraryError", "Lights", "Machine", "Mask", "Modes",
    "NoMemory", "NotDrawable", "OutOfRange", "Place", "Process", "Program", "Report", "Screen", "Settings", "Shown",
    "Spawn", "SwitchLast", "SwitchNext", "SwitchPrevious", "SwitchTo", "Terminal", "Typed", "Unavailable", "columns",
    "settings_of",
]  # fmt: skip
__version__ = "1.0.0"
