#!/usr/bin/env python3
"""Plays test files on a proved console, and reports which assertions hold: `expect.py --help` has the form.

This is the module libvt.expect of the Python package. Status 3: the C library isn't there.
"""
import sys

sys.dont_write_bytecode = True

import package  # noqa: E402: after the line that keeps the package's folder clean

if __name__ == "__main__":
    sys.exit(package.run("expect", 3, 2))
