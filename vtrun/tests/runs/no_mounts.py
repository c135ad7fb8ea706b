"""Runs a command that may mount nothing, as in a system that lets users make namespaces and do nothing in them."""
import ctypes
import os
import struct
import sys

NO_NEW_PRIVILEGES, SECCOMP, FILTER = 38, 22, 2
LOAD, EQUAL, GIVE = 0x20, 0x15, 0x06
MOUNT, ALLOW, REFUSE = 165, 0x7FFF0000, 0x00050000 | 1  # (the number of x86-64, and EPERM)

steps = ((LOAD, 0, 0, 0), (EQUAL, 0, 1, MOUNT), (GIVE, 0, 0, REFUSE), (GIVE, 0, 0, ALLOW))
text = ctypes.create_string_buffer(b"".join(struct.pack("HBBI", *step) for step in steps))
program = ctypes.create_string_buffer(struct.pack("HxxxxxxQ", len(steps), ctypes.addressof(text)))
libc = ctypes.CDLL(None, use_errno=True)
if libc.prctl(NO_NEW_PRIVILEGES, 1, 0, 0, 0) or libc.prctl(SECCOMP, FILTER, program):
    sys.exit(f"no filter: {os.strerror(ctypes.get_errno())}")
os.execvp(sys.argv[1], sys.argv[1:])
