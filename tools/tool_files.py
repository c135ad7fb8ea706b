"""Files of the tools: they are read and written whole, and a fault ends the tool with a status and a message."""
import os
import sys

MOST_SHOWN = 60


class Stop(Exception):
    """Why a tool ends: a status and its message."""

    def __init__(self, status, message):
        super().__init__(message)
        self.status = status


def reason(fault):
    """What the system says of a fault."""
    return getattr(fault, "strerror", None) or str(fault)


def shown(text):
    """A text in a message, of at most 60 characters."""
    return text if len(text) <= MOST_SHOWN else text[: MOST_SHOWN - 3] + "..."


def open_streams():
    """Puts a stream in place of each standard one that is closed: a read of the first and a write of the second fail."""
    for number, (name, mode, way) in enumerate(
        (("stdin", "r", os.O_WRONLY), ("stdout", "w", os.O_RDONLY), ("stderr", "w", os.O_WRONLY))
    ):
        if getattr(sys, name) is None:
            opened = os.open(os.devnull, way)
            if opened != number:
                os.dup2(opened, number)
                os.close(opened)
            setattr(sys, name, open(number, mode, encoding="utf-8", errors="backslashreplace", closefd=False))


def drop_output():
    """What standard output still holds can't be written, and is given up."""
    nothing = os.open(os.devnull, os.O_WRONLY)
    os.dup2(nothing, 1)
    os.close(nothing)


def run(main, unwritten=1):
    """Runs a tool, and gives its status: `unwritten` if standard output can't be written, and 1 after an interrupt."""
    open_streams()
    try:
        try:
            return main()
        finally:
            sys.stdout.flush()
    except OSError as fault:
        drop_output()
        message, status = f"{fault.filename or 'standard output'}: {reason(fault)}", unwritten
    except KeyboardInterrupt:
        message, status = "interrupted", 1
    print(f"{os.path.basename(sys.argv[0])}: {message}", file=sys.stderr)
    return status


def read_file(path, status=1):
    """A file's bytes."""
    try:
        with open(path, "rb") as file:
            return file.read()
    except (OSError, ValueError) as fault:
        raise Stop(status, f"{path}: {reason(fault)}") from None


def read_input(status=1):
    """The bytes of standard input."""
    try:
        return sys.stdin.buffer.read()
    except OSError as fault:
        raise Stop(status, f"standard input: {reason(fault)}") from None


def write_file(path, given, status=1):
    """Writes a file, or standard output where there is no path."""
    try:
        if path is None:
            sys.stdout.buffer.write(given)
            sys.stdout.buffer.flush()
        else:
            with open(path, "wb") as file:
                file.write(given)
    except (OSError, ValueError) as fault:
        if path is None:
            drop_output()
        raise Stop(status, f"{path or 'standard output'}: {reason(fault)}") from None


def text_lines(path, status=1):
    """The lines of a text in UTF-8, each with its number; a CR before the line's end is none of them."""
    for place, line in enumerate(read_file(path, status).split(b"\n"), 1):
        try:
            yield place, line.removesuffix(b"\r").decode()
        except UnicodeDecodeError:
            raise Stop(status, f"{path}:{place}: wanted UTF-8") from None


def number(text, least, most, what):
    """A decimal number within bounds; a ValueError says what was wanted."""
    if not (text.isascii() and text.isdigit() and len(text) < 10 and least <= int(text) <= most):
        raise ValueError(f"wanted {what} from {least} to {most}, found {text!r}")
    return int(text)


def size(text):
    """The rows and columns of a screen; a ValueError says what was wanted."""
    words = text.split()
    if len(words) != 2:
        raise ValueError(f"wanted rows and columns, found {text!r}")
    return number(words[0], 1, 255, "rows"), number(words[1], 1, 255, "columns")
