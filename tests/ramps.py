"""Ramps that last as long as they say (request (i)), in ticks: what a fitter sees, from the ramp's own sentence, and the longest ones.

    python3 ramps.py PROGRAM    the fitter's case and others, worked out here; then 120,002 ticks against the model
"""

import sys

import compare
import program
import sessions

TICK = sessions.tick_line((2500, 2500, 2500, 2500))

# FV1, FV2, ramp, and what is typed by hand: after so many ticks from rest at FV1 the command is so much.
CASES = (
    (0, 1500, 10000, {1: 0, 6: 0, 7: 1, 14: 2, 5000: 750, 9993: 1498, 9994: 1499, 9999: 1499, 10000: 1500, 10001: 1500}),  # the fitter's own
    (0, 1500, 1000, {1: 1, 2: 3, 3: 4, 999: 1498, 1000: 1500}),  # the paper's own
    (300, 1500, 7, {1: 471, 2: 642, 6: 1328, 7: 1500}),
    (0, 2500, 1, {1: 2500}),
    (0, 2500, 0, {1: 2500}),
    (2499, 2500, 60, {59: 2499, 60: 2500}),
)


def write(index, value, size=2):
    return sessions.frame_line(sessions.WRITE_COMMAND[size], index, 1, value.to_bytes(4, "little"))


def commands(path, fv1, fv2, ramp, rising):
    """Output 1 at each tick on its way from the one end to the other, by the ramp of that way, the other ramp 0; two ticks too many."""
    lever, ready = (1000, 0) if rising else (0, 1000)
    before = [write(0x2340, 1, 1), write(0x2341, 1, 1), write(0x7323, fv2), write(0x7321, fv1), write(0x2330, 0), write(0x2331, 0)]
    before += [write(0x2500, ready), TICK, write(0x2330 if rising else 0x2331, ramp), write(0x2500, lever)]
    printed, status = program.run(path, b"".join(line + b"\n" for line in before + (ramp + 2) * [TICK]))
    assert status == 0, status
    return [int(line.split()[1]) for line in printed.splitlines()[len(before) :]]


def check_ends(path):
    """ "its movement after k ticks must be k x (FV2 - FV1) / ramp rounded down, stopped at the target; falling likewise" """
    count = 0
    for fv1, fv2, ramp, known in CASES:
        for rising in (True, False):
            came = commands(path, fv1, fv2, ramp, rising)
            for k, command in enumerate(came, 1):
                moved = min(k * (fv2 - fv1) // ramp, fv2 - fv1) if ramp else fv2 - fv1
                assert command == (fv1 + moved if rising else fv2 - moved), (fv1, fv2, ramp, rising, k, command)
            assert not rising or all(came[k - 1] == command for k, command in known.items()), (fv1, fv2, ramp)
            count += len(came)
    return "%d ramps, up and down, in %d ticks" % (len(CASES), count)


def main(arguments):
    path = arguments[0]
    print("good: " + check_ends(path))
    lines = compare.compare_session(path, "long ramps", sessions.long_ramp_session(), True)
    if lines is None:
        return 1
    print("good: ramps of 10,000 to 60,000 ms, %d lines against the model" % lines)
    return 0


if __name__ == "__main__":
    sys.exit(main(sys.argv[1:]))
