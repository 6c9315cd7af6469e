"""The twin-coil spool product against document 02 (iv): by hand, against the model, and as it is shown to people.

    python3 spool.py PROGRAM [--lines N] [--seed S]

PROGRAM serves sessions of the product; through C (spool.c, the libraries spool and firmware in one program) whoever calls lends
other numbers as sent, too. The picture in docs/requests must be what spool_picture.py draws, PROGRAM must print what is drawn, and the note must have its numbers.
At the first difference the exit status is 1.
"""

import argparse
import pathlib
import re
import struct
import sys

import compare
import images
import model
import program
import sessions
import spool_picture
import spool_sessions
from images import sides

ROOT = pathlib.Path(__file__).resolve().parent.parent
PICTURE = ROOT / "docs" / "requests" / "spool.svg"
NOTE = PICTURE.with_name("iv-twin-coil-spool.md")
NAMES = model.Dictionary()
TICK = sessions.tick_line(spool_sessions.CALM)


def write(index, sub, value):
    return sessions.write_line(NAMES.entry(index, sub), value)


# Each coil from an EC value of its own, without ramps: 1000 asks for 1500 mA, 500 for 750, 0 for nothing.
BUTTONS = [write(0x2340, coil, 1) for coil in (1, 2)] + [write(0x2341, coil, coil) for coil in (1, 2)]
BUTTONS += [write(ramp, coil, 0) for ramp in (0x2330, 0x2331) for coil in (1, 2)] + [write(0x2340, 3, 1), write(0x2341, 3, 1), write(0x2330, 3, 0), write(0x2331, 3, 0)]

# The two EC values before a tick, and what the tick prints of coil 1, coil 2, output 3 (on EC 1, too) and output 4; worked out by hand.
BY_HAND = (
    ((0, 0), "O 0 0 0 0 00"),
    ((1000, 0), "O 1500 0 1500 0 00"),  # coil 1 asks, and coil 2 was sent 0
    ((1000, 500), "O 1500 0 1500 0 00"),  # coil 2 waits
    ((500, 500), "O 750 0 750 0 00"),  # and waits, while coil 1 goes on asking
    ((0, 500), "O 0 0 0 0 00"),  # coil 1 was above 0 on the tick before: both at 0
    ((0, 500), "O 0 750 0 0 00"),  # now coil 2 goes
    ((1000, 500), "O 0 750 1500 0 00"),  # coil 1 waits; output 3 does not
    ((1000, 0), "O 0 0 1500 0 00"),
    ((1000, 1000), "O 1500 0 1500 0 00"),  # both ask while both are at 0: coil 1 wins
    ((0, 0), "O 0 0 0 0 00"),
    ((0, 1000), "O 0 1500 0 0 00"),
    ((500, 0), "O 0 0 750 0 00"),
    ((500, 1000), "O 750 0 750 0 00"),
)
# The same through C, which lends other numbers: what is lent, the EC values, what is sent.
LENT_BY_HAND = (
    ((0, -1), (1000, 0), (0, 0)),  # less than 0 is not 0: coil 1 waits
    ((-1, 0), (1000, 0), (1500, 0)),
    ((-32768, 0), (0, 1000), (0, 0)),
    ((0, -5), (0, 1000), (0, 1500)),
    ((5, 7), (1000, 1000), (0, 0)),  # both above 0 comes from outside, and is over with a tick
    ((0, 7), (1000, 1000), (0, 1500)),  # coil 2 goes on
    ((0, 0), (1000, 1000), (1500, 0)),
)


class Wrong(Exception):
    """What was wrong, in a line."""


def expect(what, wanted, came):
    if wanted != came:
        raise Wrong("%s: expected %s, came %s" % (what, wanted, came))


def sessions_of(path, lines):
    """What the program prints for a session of the product, line by line."""
    came, status = program.run(path, b"".join(line + b"\n" for line in lines), "spool")
    expect("the exit status", 0, status)
    return came.decode().splitlines()


def check_by_hand(path):
    lines = list(BUTTONS)
    for (one, two), _ in BY_HAND:
        lines += [write(0x2500, 1, one), write(0x2500, 2, two), TICK]
    for name, came in (("the model", [model.Spool.answer(m, line).decode() for m in [model.Spool()] for line in lines]), (path, sessions_of(path, lines))):
        ticks = [line for line in came if line.startswith("O")]
        for number, ((asked, wanted), printed) in enumerate(zip(BY_HAND, ticks, strict=True), 1):
            expect("%s, tick %d by hand, EC 1 and 2 %s" % (name, number, asked), wanted, printed)
    for data, wanted in compare.STREAMS:
        expect("the input %r" % data[:60], (wanted, 0), program.run(path, data, "spool"))
    return "%d ticks and %d inputs by hand" % (len(BY_HAND), len(compare.STREAMS))


def check_sessions(path, seed, lines):
    ticks = 0
    for number, session in enumerate(spool_sessions.plan(seed, lines, lends=False), 1):
        came = sessions_of(path, [line for line, _ in session])
        for place, ((line, wanted), printed) in enumerate(zip(session, came, strict=True), 1):
            expect("session %s.%d, line %d, %s" % (seed, number, place, line.decode()), wanted.decode(), printed)
        ticks += sum(line.startswith(b"T") for line, _ in session)
    return "%d lines, %d ticks of them, as the model" % (lines, ticks)


# --------------------------------------------------------------------------- Through C


def event(line):
    """The nine bytes of a line that C can be asked, None of another."""
    if isinstance(line, tuple):
        return b"L" + struct.pack("<hhI", *line, 0)
    asked = sides_session.events_of(line)
    if asked is None:
        return None
    return b"S" + asked[0] if isinstance(asked[0], bytes) else b"T" + struct.pack("<4h", *asked[0])


def printed(line, answer):
    """What a session would print of the answer, None where numbers are lent."""
    expect("all else, after %r" % (line,), 1, answer[9])
    if isinstance(line, tuple):
        return None
    if line.startswith(b"S"):
        return answer[1 : 1 + answer[0]].hex().upper() or "-"
    return "O %d %d %d %d %02X" % (*struct.unpack_from("<4h", answer, 1), answer[0])


def through_c(driver, lines):
    """What C gives for the lines that it can be asked."""
    expect("all else at the start", struct.pack("<i", 1), driver.ask(b"N"))
    asked = [(line, event(line)) for line in lines if event(line) is not None]
    came = driver.ask(b"E" + b"".join(nine for _, nine in asked))
    return [(line, printed(line, came[10 * k : 10 * k + 10])) for k, (line, _) in enumerate(asked)]


def check_through_c(driver, seed, lines):
    by_hand = list(BUTTONS)
    for lent, (one, two), _ in LENT_BY_HAND:
        by_hand += [lent, write(0x2500, 1, one), write(0x2500, 2, two), TICK]
    ticks = [came for line, came in through_c(driver, by_hand) if line == TICK]
    for (lent, asked, wanted), came in zip(LENT_BY_HAND, ticks, strict=True):
        expect("through C, %s lent, EC 1 and 2 %s" % (lent, asked), "O %d %d" % wanted, " ".join(came.split()[:3]))
    for number, session in enumerate(spool_sessions.plan(seed, lines, lends=True), 1):
        wanted = [(line, answer and answer.decode()) for line, answer in session if event(line) is not None]
        for place, (expected, came) in enumerate(zip(wanted, through_c(driver, [line for line, _ in session]), strict=True), 1):
            expect("through C, session %s.%d, line %d" % (seed, number, place), expected, came)
    return "through C %d ticks by hand and %d lines as the model, the unit as valve_tick leaves it" % (len(LENT_BY_HAND), lines)


# --------------------------------------------------------------------------- For people


def check_picture(path):
    if PICTURE.read_text() != spool_picture.text():
        raise Wrong("docs/requests/spool.svg is not what spool_picture.py draws")
    ticks = spool_picture.played()
    came = [line for line in sessions_of(path, list(spool_picture.session(NAMES))) if line.startswith("O")]
    for number, ((_, _, sent), line) in enumerate(zip(ticks, came, strict=True), 1):
        expect("tick %d of the picture" % number, "O %d %d 0 0 00" % sent, line)
    rows = re.findall(r"^\| (\d+) \| (-?\d+) \| (\d+) and (\d+) \| (\d+) and (\d+) \|", NOTE.read_text(), re.M)
    for number, at, *numbers in (map(int, row) for row in rows):
        expect("tick %d of the note" % number, ticks[number - 1], (at, tuple(numbers[:2]), tuple(numbers[2:])))
    both = sum(sent == (0, 0) for _, _, sent in ticks)
    return "the picture is as drawn and %d rows of the note as played, %d ticks, %d of them with both coils at 0" % (len(rows), len(ticks), both)


def main(words):
    parser = argparse.ArgumentParser(description="the spool product against document 02 (iv)")
    parser.add_argument("program")
    parser.add_argument("--lines", type=int, default=20000)
    parser.add_argument("--seed", default="1")
    chosen = parser.parse_args(words)
    try:
        print(check_by_hand(chosen.program))
        print(check_picture(chosen.program))
        print(check_sessions(chosen.program, chosen.seed, chosen.lines))
        if not chosen.program.endswith(".py"):
            driver = images.Driver("spool", [sides.library("spool"), sides.library("firmware")])
            print(check_through_c(driver, chosen.seed, chosen.lines))
            expect("the C program's status", 0, driver.end())
    except (Wrong, images.Difference) as wrong:
        print(wrong)
        return 1
    return 0


sys.path.insert(0, str(ROOT / "bench"))
import session as sides_session  # noqa: E402

if __name__ == "__main__":
    sys.exit(main(sys.argv[1:]))
