"""Builds programs and the C library without proofs: the parts of tools/build.py."""
