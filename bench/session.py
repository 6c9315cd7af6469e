"""The session printer over one side, so that tests/compare.py can hold it against the model.

    SIDE=plain python3 tests/compare.py bench/session.py --lines 100000

SIDE is plain (also when it is not said) or valve; bench/count has to have built it.
"""

import os
import re
import struct
import sys

import sides

PUBLISHED = [struct.pack("<BHB4x", 0x40, 0x7330, n) for n in (1, 2, 3, 4)] + [struct.pack("<BHB4x", 0x40, 0x1001, 0)]


def events_of(line):
    """What the line asks for; a tick is followed by reading what is printed of it. None for any other line."""
    if re.fullmatch(rb"S [0-9A-F]{16}", line):
        return [bytes.fromhex(line[2:].decode())]
    if re.fullmatch(rb"T( -?[0-9]{1,5}){4}", line):
        samples = tuple(map(int, line.split()[1:]))
        if all(-32768 <= sample <= 32767 for sample in samples):
            return [samples, *PUBLISHED]
    return None


def printed(line_events, replies):
    if line_events is None:
        return "?"
    if len(line_events) == 1:
        return replies[0].hex().upper() or "-"
    values = [struct.unpack_from("<h", reply, 4)[0] for reply in replies[1:]]
    return "O %d %d %d %d %02X" % tuple(values)


def main():
    lines = sys.stdin.buffer.read().split(b"\n")
    if not lines[-1]:
        lines.pop()
    asked = [events_of(line) for line in lines]
    replies = iter(sides.answers(str(sides.OUT / os.environ.get("SIDE", "plain")), [e for es in asked for e in es or ()]))
    for line_events in asked:
        print(printed(line_events, [next(replies) for _ in line_events or ()]))


if __name__ == "__main__":
    main()
