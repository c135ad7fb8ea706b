#!/usr/bin/env python3
"""Draws an asciinema recording as one moving picture in SVG: `animation.py --help` has the form.

This is the module libvt.animation of the Python package. Status 2 also if the C library isn't there.
"""
import sys

sys.dont_write_bytecode = True

import package  # noqa: E402: after the line that keeps the package's folder clean

if __name__ == "__main__":
    sys.exit(package.run("animation", 2))
