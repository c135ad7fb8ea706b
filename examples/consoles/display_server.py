#!/usr/bin/env python3
"""A small display server: it handles the switches of the console on its standard input, as ioctl_console(2) has it.

usage: display_server.py [keeps | hangs]

It shows graphics, lets the display go when it is asked to, and acknowledges when it gets it. With `keeps` it refuses to
let it go, and with `hangs` it doesn't answer. It writes a line for each step. At SIGTERM it gives its console back.
"""
import fcntl
import signal
import struct
import sys

VT_SETMODE, VT_RELDISP, KDSETMODE = 0x5602, 0x5605, 0x4B3A
VT_AUTO, VT_PROCESS, VT_ACKACQ, KD_TEXT, KD_GRAPHICS = 0, 1, 2, 0, 1
ASKED, GIVEN = signal.SIGUSR1, signal.SIGUSR2
CONSOLE = 0


def set_mode(mode):
    """Who handles the switches of the console: the kernel, or this process by the two signals."""
    fcntl.ioctl(CONSOLE, VT_SETMODE, struct.pack("bbhhh", mode, 0, ASKED, GIVEN, 0))


def main():
    how = sys.argv[1] if len(sys.argv) > 1 else ""
    signals = {ASKED, GIVEN, signal.SIGTERM}
    signal.pthread_sigmask(signal.SIG_BLOCK, signals)
    set_mode(VT_PROCESS)
    fcntl.ioctl(CONSOLE, KDSETMODE, KD_GRAPHICS)
    print("ready", flush=True)
    while (number := signal.sigwait(signals)) != signal.SIGTERM:
        if number == GIVEN:
            print("shown", flush=True)
            fcntl.ioctl(CONSOLE, VT_RELDISP, VT_ACKACQ)
        elif how != "hangs":
            print("kept" if how == "keeps" else "hidden", flush=True)
            fcntl.ioctl(CONSOLE, VT_RELDISP, 0 if how == "keeps" else 1)
    fcntl.ioctl(CONSOLE, KDSETMODE, KD_TEXT)
    set_mode(VT_AUTO)


if __name__ == "__main__":
    main()
