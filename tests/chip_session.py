"""The session printer over a library on an emulated chip, so that tests/compare.py and tests/sdo_client.py can hold it against the paper.

    CHIP=cortex-m4f python3 tests/compare.py tests/chip_session.py --lines 20000

The commands and the register of a tick are asked for by valve_commands and valve_error_register.
"""

import os
import struct
import sys

import chip

sys.path.insert(0, str(chip.ROOT / "bench"))
import session  # noqa: E402

AT_ONCE = 20000


def event(asked):
    return b"S" + asked[0] if isinstance(asked[0], bytes) else b"T" + struct.pack("<4h", *asked[0])


def printed(asked, answer):
    if isinstance(asked[0], bytes):
        return answer[1 : 1 + answer[0]].hex().upper() or "-"
    return "O %d %d %d %d %02X" % (*struct.unpack("<4h", answer[1:]), answer[0])


def main():
    lines = sys.stdin.buffer.read().split(b"\n")
    if not lines[-1]:
        lines.pop()
    asked = [session.events_of(line) for line in lines]
    happening = [event(each) for each in asked if each]
    driver = chip.Driver(os.environ["CHIP"], "events")
    driver.ask(b"N")
    came = b"".join(driver.ask(b"E" + b"".join(happening[k : k + AT_ONCE])) for k in range(0, len(happening), AT_ONCE))
    answers = (came[k : k + 9] for k in range(0, len(came), 9))
    print("".join((printed(each, next(answers)) if each else "?") + "\n" for each in asked), end="")
    return driver.end()


if __name__ == "__main__":
    sys.exit(main())
