#!/usr/bin/env python3
"""Sends a DDT Map-Request to a running server and prints its reply: tools/ask.py ADDRESS XEID

ADDRESS is that of the server, within 127.0.0.0/8. The request has nonce 1 and names 127.0.0.53 as its ITR-RLOC. The
reply is printed in hexadecimal digits, for `ddt show`. Where none comes within a second it prints `silent`, and the
status is 1.
"""
from __future__ import annotations

import pathlib
import socket
import sys

# The plain code of the oracles is taken from their folder, and no compiled copies of it are left there.
sys.path.append(str(pathlib.Path(__file__).resolve().parent.parent / "fuzz"))
sys.dont_write_bytecode = True

import plain_replay  # noqa: E402
import plain_wire  # noqa: E402


def main(words: list[str]) -> int:
    xeid = plain_replay.read_xeid(words[1]) if len(words) == 2 else None
    if xeid is None or not words[0].startswith("127."):
        sys.exit(__doc__)
    with socket.socket(socket.AF_INET, socket.SOCK_DGRAM) as resolver:
        resolver.settimeout(1)
        resolver.sendto(plain_wire.written_request(1, xeid), (words[0], plain_wire.PORT))
        try:
            print(resolver.recv(65535).hex())
        except OSError:
            print("silent")
            return 1
    return 0


if __name__ == "__main__":
    sys.exit(main(sys.argv[1:]))
