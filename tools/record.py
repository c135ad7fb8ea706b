#!/usr/bin/env python3
"""Records what a program writes to a Linux console, and types what a script contains: `record.py --help` has the form.

This is the module libvt.record of the Python package. Status 2 also if the C library isn't there.
"""
import sys

sys.dont_write_bytecode = True

import package  # noqa: E402: after the line that keeps the package's folder clean

if __name__ == "__main__":
    sys.exit(package.run("record", 2))
