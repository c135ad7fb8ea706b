"""The command lines of the tools: each says the name by which it was called."""
from __future__ import annotations

import argparse
import os
import sys
from typing import Callable, NoReturn


def called() -> str:
    """The name by which the tool was called: that of its file, or of a link to it, such as `vt-expect`."""
    return os.path.basename(sys.argv[0])


class Words(argparse.ArgumentParser):
    """The words of a module's command line; words that aren't of the form end it with this fault."""

    def __init__(self, module: str, text: str, fault: Callable[[str], Exception]) -> None:
        text = text.replace(f"python3 -m libvt.{module}", called())
        super().__init__(prog=called(), description=text, formatter_class=argparse.RawDescriptionHelpFormatter)
        self.fault = fault

    def error(self, message: str) -> NoReturn:
        raise self.fault(f"{message}; {called()} --help has the form")
