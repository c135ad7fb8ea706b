"""Draws characters that no terminal may get as they are, on console 1, and prints the bytes of its first row.

A map of characters (PIO_UNISCRNMAP) makes of A, B, C, D: a control character of U+0080 to U+009F, DEL, half a pair of
UTF-16, and a place of the font.
"""
import fcntl
import os
import struct
import subprocess

PIO_UNISCRNMAP = 0x4B6A
CODES = {"A": 0x9B, "B": 0x7F, "C": 0xD800, "D": 0xF041}

terminal = os.open("/dev/tty1", os.O_RDWR | os.O_NOCTTY)
words = [CODES.get(chr(i), i) for i in range(256)]
fcntl.ioctl(terminal, PIO_UNISCRNMAP, struct.pack("256H", *words))
os.write(terminal, b"\x1b%@\x1b(KxABCDx")
print(subprocess.run(["vtrun", "row", "1", "0"], stdout=subprocess.PIPE, check=True).stdout)
