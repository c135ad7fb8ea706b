"""What check_expect.py gives the tools: files that are refused, and runs of record.py, each with what comes of it."""
from repository import TOP

# Test files that are refused: the text, the line, and what the message has.
REFUSED_TESTS = [
    ("", 1, "wanted an assertion"),
    ('PUSH "a"\n', 2, "wanted an assertion"),
    ("PUSH a\n?bells = 0\n", 1, "wanted a text"),
    ('PUSH "a\n?bells = 0\n', 1, "wanted a text"),
    ('\nPUSH "\\q"\n', 2, "isn't an escape"),
    ('PUSH "a" "b"\n', 1, "wanted a text"),
    ('PUSH "a" x 99999999\n', 1, "wanted at most 8,000,000 bytes"),
    ("SIZE 25\n", 1, "wanted rows and columns"),
    ("SIZE 0 80\n", 1, "wanted rows from 1 to 255"),
    ("SIZE 25 256\n", 1, "wanted columns from 1 to 255"),
    ('PUSH "a"\nSIZE 2 2\n', 2, "wanted SIZE before"),
    ("FILE\n", 1, "wanted the name of a file"),
    ("FILE nosuch\n", 1, "No such file"),
    ("RESIZE x y\n", 1, "wanted rows from 1 to 255"),
    ('PULL "a"\n', 1, "wanted SIZE, PUSH"),
    ('?row 25 = "a"\n', 1, "wanted a row from 0 to 24"),
    ('?row 0 "a"\n', 1, "wanted = and a value"),
    ("?row 0 = a\n", 1, "wanted a text"),
    ('RESIZE 3 3\n?row 3 = ""\n', 2, "wanted a row from 0 to 2"),
    ("?cursor = 1\n", 1, "wanted a row and a column"),
    ("?cursor 1 = 1,1\n", 1, "wanted nothing between"),
    ("?cell 0,80 = U+0041\n", 1, "wanted a column from 0 to 79"),
    ("?cell 0,0 = A\n", 1, "wanted U+"),
    ("?cell 0,0 = U+110000\n", 1, "wanted U+"),
    ("?attr 0,0 = red\n", 1, "wanted two colours"),
    ("?attr 0,0 = red pink\n", 1, "wanted two colours"),
    ("?attr 0,0 = red blue bold bold\n", 1, "at most once"),
    ("?mode loud\n", 1, "wanted one of insert"),
    ("?mode insert = 1\n", 1, "wanted on or off"),
    ("?bells = many\n", 1, "wanted a number"),
    ('?title = "a"\n', 1, "wanted ?screen"),
    ("|a|\n", 1, "wanted SIZE, PUSH"),
    ("SIZE 1 2\n?screen\n|a|\n|b|\n", 4, "at most 1 rows"),
    ("?screen\n|a\n", 2, "wanted a row between two bars"),
    ('?row 0 = "\\xff"\n', 1, "wanted a row in UTF-8"),
    (b'?row 0 = "\xff"\n', 1, "wanted UTF-8"),
]

# Key scripts that are refused, in the same way.
REFUSED_KEYS = [
    ("typo a\n", 1, "wanted type, wait, sleep or resize"),
    ("# a\n\ntype \\q\n", 3, "isn't an escape"),
    ("type\n", 1, "wanted a text"),
    ("wait \n", 1, "wanted a text"),
    ("sleep long\n", 1, "wanted seconds"),
    ("sleep nan\n", 1, "wanted seconds"),
    ("sleep -1\n", 1, "wanted seconds"),
    ("resize 25\n", 1, "wanted rows and columns"),
    ("resize 25 300\n", 1, "wanted columns"),
    ("type \\x{110000}\n", 1, "is no character"),
    (b"type \xff\n", 1, "wanted UTF-8"),
]

# Casts that are refused.
REFUSED_CASTS = [
    ("", 1, "found nothing"),
    ("[]\n", 1, "wanted an asciinema recording of version 1, 2 or 3"),
    ('{"version": 9}\n', 1, "of version 1, 2 or 3"),
    ("{\n", 1, "wanted JSON"),
    ('{"version": 2}\n[1, "o"\n', 2, "wanted JSON"),
    ('{"version": 2}\n[1, "o", 2]\n', 2, "wanted an event"),
    ('{"version": 1, "stdout": [3]}\n', 1, "wanted an event"),
    ("[" * 100_000, 1, "wanted JSON"),
]

# Runs of record.py: the script, the words, the status, and what the message has.
RUNS = [
    ("", ["3", "20", "--", "echo", "hi"], 0, ""),
    ("", ["3", "20", "--", "sh", "-c", "exit 7"], 0, "ended with status 7"),
    ("", ["3", "20"], 1, "wanted rows, columns, -- and a command"),
    ("", ["3", "0", "--", "true"], 1, "wanted columns from 1 to 255"),
    ("", ["3", "20", "--loud", "--", "true"], 1, "unrecognized arguments"),
    ("", ["3", "20", "--limit", "x", "--", "true"], 1, "wanted seconds"),
    ("", ["3", "20", "--", "/nosuch/program"], 2, "/nosuch/program: can't be started"),
    ("", ["3", "20", "--", str(TOP)], 2, "can't be started"),
    ("", ["3", "20", "--", "sh", "-c", "kill -SEGV $$"], 3, "was ended by signal 11"),
    ("sleep 5\ntype a\n", ["3", "20", "--", "true"], 3, ":2: the program ended before this line"),
    ("wait never\n", ["3", "20", "--", "echo", "hi"], 4,
        ":1: wait: \"never\" wasn't shown before the program ended with status 0"),
    ("wait never\n", ["3", "20", "--limit", "0.5", "--", "sleep", "20"], 4,
        ":1: wait: \"never\" wasn't shown within 0.5 s"),
    ("", ["3", "20", "--limit", "0.5", "--", "sleep", "20"], 5, "didn't end within 0.5 s"),
    ("wait go\n", ["3", "20", "--leave", "--", "sh", "-c", "echo go; sleep 20"], 0, ""),
    ("", ["3", "20", "--out", "/nosuch/file", "--", "true"], 1, "/nosuch/file: No such file"),
    ("type hi\\r\nwait hi\nwait hi\n", ["3", "20", "--leave", "--", "cat"], 0, ""),
    ("wait go\nresize 7 33\nwait 7 33\n", ["3", "20", "--leave", "--", "sh", "-c",
        "trap 'stty size' WINCH; echo go; while :; do sleep 0.1; done"], 0, ""),
    ("sleep 0.1\ntype \\cC\n", ["3", "20", "--", "sleep", "20"], 3, "was ended by signal 2"),
]  # fmt: skip
