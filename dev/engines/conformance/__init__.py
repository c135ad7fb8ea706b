"""The conformance corpus: its cases, the engines that are given them, and what is printed of both."""
