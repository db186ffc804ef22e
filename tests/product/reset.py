#!/usr/bin/env python3
"""reset.py COMMAND..: the job program on a TCP connection whose far end breaks off.

The program reads J, or its first 100 bytes, from the near end. Where the far end closes in order the input has ended, and
is judged. Where it resets the connection a read fails, and nothing may be printed: a part of a file is never judged.
Exit status: 0 all as it should be; 1 something else was printed, or the program ended with another status; 2 bad usage.
"""

import pathlib
import select
import socket
import struct
import subprocess
import sys

PROGRAM = pathlib.Path(__file__).resolve().parents[2] / "crates/job"
JOB = (PROGRAM / "stdin").read_bytes()
LINES = (PROGRAM / "stdout").read_bytes()
PART = JOB[:100]
LIMIT = 8  # seconds

# What the far end sends, whether it resets, and what has to be printed.
CASES = [
    ("a part, then an orderly close", PART, False, b"1 25\n"),
    ("a part, then a reset", PART, True, b""),
    ("all, then an orderly close", JOB, False, LINES),
    ("all, then a reset", JOB, True, b""),
    ("nothing, then a reset", b"", True, b""),
]


def connection():
    """Near end and far end."""
    with socket.create_server(("127.0.0.1", 0)) as listener:
        far = socket.create_connection(listener.getsockname(), LIMIT)
        near, _ = listener.accept()
    return near, far


def printed(command, sent, resets):
    """Status and output of the program, started once the near end knows that the far end is gone."""
    near, far = connection()
    with near, far:
        far.sendall(sent)
        if resets:
            far.setsockopt(socket.SOL_SOCKET, socket.SO_LINGER, struct.pack("ii", 1, 0))
        far.close()
        gone = select.poll()
        gone.register(near, select.POLLRDHUP)
        if not gone.poll(1000 * LIMIT):
            raise TimeoutError("the far end's close did not arrive")
        ended = subprocess.run(command, stdin=near, stdout=subprocess.PIPE, timeout=LIMIT, check=False)
    return ended.returncode, ended.stdout


def main():
    command = sys.argv[1:]
    if not command:
        print(__doc__, file=sys.stderr)
        return 2
    failed = 0
    for name, sent, resets, expected in CASES:
        status, text = printed(command, sent, resets)
        if (status, text) != (0, expected):
            print(f"{name}: status {status}, printed {text!r}, expected {expected!r}")
            failed = 1
    return failed


if __name__ == "__main__":
    sys.exit(main())
