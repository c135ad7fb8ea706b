"""Speaks the protocol of the control socket, and breaks it; prints the answers as JSON.

The function `ask` is that of docs/reference/vtrun.md, which dev/checks/check_vtrun.py puts in place of the line ASK.
"""
import json
import os
import socket
import time

MANY = 20000


def connected():
    """A new connection."""
    one = socket.socket(socket.AF_UNIX)
    one.connect(os.environ["VTRUN_SOCKET"])
    return one


ASK


def connected_stream(one):
    """What a connection sends, up to its end."""
    one.settimeout(100)
    return one.makefile("rb")


def has_room():
    """Whether eight more connections are served: those that were closed don't count any more."""
    streams = [connected().makefile("rwb") for _ in range(8)]
    try:
        return all(ask(stream, "hello") for stream in streams)
    except (OSError, ValueError):
        return False


def asked(stream, line, body=b""):
    """The answer to a request, or its refusal."""
    try:
        return ["ok", ask(stream, line, body).decode()]
    except RuntimeError as refusal:
        return ["no", str(refusal)]


stream = connected().makefile("rwb")
seen = {}
LINES = (
    "hello", "front", "consoles", "row 1 0", "row 1 25", "snap 7", "snap x", "bogus", "wait front 2 10",
    "wait front 0 10", "journal", "wait program 1 5", "scan 1", "scan 1e9e", "scan", "scan 1e ", "hello 1", "front ",
    "consoles 1", "processes 1", "journal x", "end now", "end\0now", "snap 1 2", "snap 1 ", "redraw 1 2", "svg 1 2",
    "row 1 0 2", "wait front 1 1 1", "type", "type x",
)  # fmt: skip
for line in LINES:
    seen[line] = asked(stream, line)
for line in ("type 1 3", "wait text 1 1 1 3"):
    seen[line] = asked(stream, line, b"abc")
seen["typed"] = asked(stream, "type 6", b"<A-F2>")
seen["type bad"] = asked(stream, "type 4", b"<A-x")
seen["front after"] = asked(stream, "front")
seen["wait text"] = asked(stream, "wait text 1 5 3", b"abc")
words = b"sh\0-c\0echo abc; exit 5\0"
seen["run"] = asked(stream, f"run 1 {len(words)}", words)
seen["wait text 2"] = asked(stream, "wait text 1 100000 3", b"abc")
seen["program"] = asked(stream, "wait program 1 100000")
seen["run bad"] = asked(stream, "run 1 3", b"abc")
seen["svg"] = asked(stream, "svg 1")[1][:4]
seen["redraw"] = "abc" in asked(stream, "redraw 1")[1]
many = [connected() for _ in range(70)]
del many
end = time.monotonic() + 100
while not has_room() and time.monotonic() < end:
    time.sleep(0.1)
half = connected()
half.sendall(b"type 100\nabc")
deaf = connected()
deaf.setblocking(False)
try:
    for _ in range(100000):
        deaf.sendall(b"snap 1\n")
except BlockingIOError:
    pass
half = connected()
half.sendall(b"wait front 1 100\n")
half.shutdown(socket.SHUT_WR)
seen["half"] = half.recv(100).decode()
full = connected()
full.sendall(b"wait front 1 1000\n" + MANY * b"front\n")
seen["full"] = connected_stream(full).read(MANY * 7 + 28).count(b"ok 2\n2\n")
long = connected()
long.sendall(b"x" * 10000)
big = connected()
big.sendall(b"type 99999999\n")
seen["big"] = big.recv(100).decode().split("\n")[0]
stream = connected().makefile("rwb")
seen["still"] = asked(stream, "front")
screen = connected()
screen.sendall(b"attach 25 80\n")
drawn = screen.recv(65536)
seen["attached"] = drawn.startswith(b"ok 0\n")
screen.sendall(b"\x1b[1;3P")
seen["attached switch"] = asked(stream, "wait front 1 100000")
print(json.dumps(seen))
