"""Types a character of UTF-8 in two pieces on a terminal of the control socket, and prints whether console 1 shows it."""
import os
import socket
import time

SECONDS, PAUSE = 100, 0.3
one = socket.socket(socket.AF_UNIX)
one.connect(os.environ["VTRUN_SOCKET"])
one.settimeout(SECONDS)
one.sendall(b"attach 25 80\n")
answer, end = one.recv(65536), time.monotonic() + SECONDS
for piece in (b"a\xc3", b"\xa4b"):
    one.sendall(piece)
    time.sleep(PAUSE)
while b"b" not in answer.partition(b"a")[2] and time.monotonic() < end:
    answer += one.recv(65536)
print("typed", "a\u00e4b".encode() in answer)
