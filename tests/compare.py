"""Compares the session program with the model, byte for byte, on the walk and on random sessions.

    python3 compare.py PROGRAM [--lines N] [--seed S] [--long]

--long adds one session of 65,700 ticks with the longest delays.

At the first difference the session is cut down to the lines that it needs, these are
printed with both answers, and the exit status is 1.
"""

import argparse
import itertools
import sys

import model
import program
import sessions

# Whole inputs whose line ends matter (OP 85 to 89), with what they print, typed by hand.
STREAMS = (
    (b"", b""),
    (b"\n", b"?\n"),
    (b"\n\n", b"?\n?\n"),
    (b"T 0 0 0 0", b"O 0 0 0 0 00\n"),
    (b"T 0 0 0 0\n", b"O 0 0 0 0 00\n"),
    (b"T 0 0 0 0\r\n", b"?\n"),
    (b"T 0 0 0 0\rT 0 0 0 0\n", b"?\n"),
    (b"\nS 4001100000000000", b"?\n4F01100000000000\n"),
    (b"S 4001100000000000\n\n", b"4F01100000000000\n?\n"),
    (b"S 8001100000000000\n", b"-\n"),
    (b"S", b"?\n"),
    (b"x" * 64, b"?\n"),
    (b"x" * 65 + b"\nS 4001100000000000\n", b"?\n4F01100000000000\n"),
    (b"x" * 100000, b"?\n"),
    (b"x" * 128 + b"S 4001100000000000\n" + b"T 1 1 1 1", b"?\nO 0 0 0 0 00\n"),
    (b"x" * 64 + b"\nS 4001100000000000\n", b"?\n4F01100000000000\n"),
    (b"S 4001100000000000\x0bT 0 0 0 0\n", b"?\n"),
    (b"\x00\n\x1a\n\x04\nT 0 0 0 0\n", b"?\n?\n?\nO 0 0 0 0 00\n"),
)


def printed_by_model(lines):
    return list(model.session(lines))


def printed_by(path, lines, last_line_end=True):
    data = b"".join(line + b"\n" for line in lines)
    if lines and lines[-1] and not last_line_end:  # "The last line may lack its line end."
        data = data[:-1]
    return program.run(path, data)


def first_difference(expected, printed):
    """The place of the first answer that differs, None where all are equal."""
    came = printed.splitlines(keepends=True)
    for place, answer in enumerate(expected):
        if place >= len(came) or came[place] != answer:
            return place
    return len(expected) if len(came) > len(expected) else None


def still_differs(path, lines):
    printed, status = printed_by(path, lines)
    return status != 0 or printed != b"".join(printed_by_model(lines))


def cut_down(path, lines, tries=150):
    """The lines that the difference needs: pieces are left out while it stays, big ones first."""
    piece = max(1, len(lines) // 2)
    while piece and tries > 0:
        at = 0
        while at < len(lines) - 1 and tries > 0:
            shorter = lines[:at] + lines[min(at + piece, len(lines) - 1) :]
            tries -= 1
            if still_differs(path, shorter):
                lines = shorter
            else:
                at += piece
        piece //= 2
    return lines


def show(path, title, lines, place, status):
    print("difference in session %s at line %d (exit status %d)" % (title, place + 1, status))
    if not still_differs(path, lines[: place + 1]):
        print("the lines up to it alone are answered well: look at the last line's end, or at what follows")
        return
    needed = cut_down(path, lines[: place + 1])
    expected = printed_by_model(needed)
    came = printed_by(path, needed)[0].splitlines()
    print("the lines that matter, on a fresh unit:")
    for k, (line, answer) in enumerate(zip(needed, expected)):
        given = came[k] if k < len(came) else b"(nothing)"
        same = given == answer[:-1]
        print("  %-32s %s" % (shown(line), shown(given) if same else ""))
        if not same:
            print("    expected %s\n    came     %s" % (shown(answer[:-1]), shown(given)))


def shown(line):
    text = line.decode("ascii", "backslashreplace").encode("unicode_escape").decode()
    return text if len(text) <= 80 else text[:77] + "..."


def compare_streams(path):
    for data, expected in STREAMS:
        printed, status = program.run(path, data)
        if printed != expected or status != 0:
            print("input    %r\nexpected %r\ncame     %r, exit status %d" % (data[:80], expected, printed[:200], status))
            return False
    return True


def compare_session(path, title, session, last_line_end):
    """The number of lines where all are equal, else None, and the difference is shown."""
    lines, answers = [], []
    for line, answer in session:
        lines.append(line)
        answers.append(answer + b"\n")
    printed, status = printed_by(path, lines, last_line_end)
    if status == 0 and printed == b"".join(answers):
        return len(lines)
    place = first_difference(answers, printed)
    show(path, title, lines, len(lines) - 1 if place is None else min(place, len(lines) - 1), status)
    return None


def main(arguments):
    parser = argparse.ArgumentParser(description="session program against the model")
    parser.add_argument("program")
    parser.add_argument("--lines", type=int, default=100000)
    parser.add_argument("--seed", default="1")
    parser.add_argument("--long", action="store_true")
    chosen = parser.parse_args(arguments)
    if not compare_streams(chosen.program):
        return 1
    planned = sessions.plan(chosen.seed, chosen.lines)
    if chosen.long:
        planned = itertools.chain(planned, [("long", sessions.long_session())])
    total = runs = 0
    for title, session in planned:
        runs += 1
        count = compare_session(chosen.program, title, session, last_line_end=runs % 2 == 1)
        if count is None:
            return 1
        total += count
    print("%d lines compared, in %d sessions and %d short inputs: all equal" % (total, runs, len(STREAMS)))
    return 0


if __name__ == "__main__":
    sys.exit(main(sys.argv[1:]))
