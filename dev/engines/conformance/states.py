"""The states of the screen in which the sequences are tried, on six rows of twelve columns: what is written before."""

ROWS, COLUMNS = 6, 12
FILL = b"0123456789ABCDEFGHIJKLMNOPQRSTUVWXYZabcdefghijklmnopqrstuvwxyz!#$%&*+-=@"
WIDE = "a中中中中中b".encode() * ROWS


def place(row, column):
    """CUP to this row and column, counted from 1."""
    return b"\x1b[%d;%dH" % (row, column)


def before(state, at):
    """What makes the state; `at` is the row of the region: 0 the first, 1 a middle one, 2 the last."""
    row = (2, 3, 5)[at]
    return {
        "home": FILL + place(1, 1),
        "wrap": FILL + place(row, COLUMNS) + b"Z",
        "region": FILL + b"\x1b[2;5r" + place(row, 6),
        "origin": FILL + b"\x1b[2;5r\x1b[?6h" + place(row - 1, 6),
        "insert": FILL + b"\x1b[4h" + place(row, 6),
        "wide": WIDE + place(row, 7),
        "charset": FILL + b"\x1b)0\x0e" + place(row, 6),
        "pen": FILL + b"\x1b[1;33;44m" + place(row, 6),
    }[state]


# The rules of docs/reference/screen.md that decide beside the page in a state.
OWN = {
    "wrap": "the pending wrap", "wide": "the columns of characters", "charset": "what SO and SI do beside",
    "pen": "blanks have the pen's two colours alone",
}  # fmt: skip
STATES = ["home", "wrap", "region", "origin", "insert", "wide", "charset", "pen"]
