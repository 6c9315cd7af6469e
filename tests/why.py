"""Questions why: `valve_why`, linked into a C program (why.c), and the words of `../run why`, against the model (why_model.py).

    python3 why.py [--seed S] [--wirings N] [--lines N] [--words N] [--library FILE]

At the first difference the session is shown and the exit status is 1. It is 1 too where the sessions do not reach each rule, each end of a
trail, both refusals, a circle of blocks and a trail of twelve steps.
"""

import argparse
import collections
import pathlib
import struct
import subprocess
import sys

import images
import images_model
import why_cases
import why_model
from images import sides

sys.path.insert(0, str(sides.HERE))
import session  # noqa: E402

HERE = pathlib.Path(__file__).resolve().parent
HEADER = sides.ROOT / "crates" / "firmware" / "valve.h"
TRAIL = 43
STARTER = sides.ROOT / "run"


def event(line):
    """A line as the C program takes it; nothing for a line that is none."""
    asked = session.events_of(line)
    if not asked:
        return b""
    return b"S" + asked[0] if isinstance(asked[0], bytes) else b"T" + struct.pack("<4h", *asked[0])


def values(configuration):
    return [images_model.value_of(entry, data) for entry, data in zip(images_model.ENTRIES, configuration)]


class Bench:
    """The program, the model beside it, and what was reached."""

    def __init__(self, driver):
        self.driver, self.reached, self.questions = driver, collections.Counter(), 0

    def play(self, steps):
        """The steps on a fresh unit; the first difference is raised. Gives the model's controller."""
        self.driver.ask(b"N")
        printer, waiting = why_model.Printer(), []
        for step in steps:
            if isinstance(step, bytes):
                printer.answer(step)
                waiting.append(event(step))
                continue
            if any(waiting):
                self.driver.ask(b"E" + b"".join(waiting))
            waiting = []
            if isinstance(step, int):
                self.question(printer.controller, step)
            else:
                self.load(printer.controller, *step)
        return printer.controller

    def load(self, controller, image, configuration):
        if configuration is not None:
            controller.load(values(configuration))
        refused = images_model.read_image(image)[0]
        images.compare(self.driver, b"L" + image, struct.pack("<i", -refused), 0)

    def question(self, controller, output):
        self.questions += 1
        filler = self.questions % 251
        told = controller.why(output)
        said = b"" if isinstance(told, int) else why_model.trail_bytes(told)
        number = told if isinstance(told, int) else told.rule
        expected = struct.pack("<ii", number, 0) + said + bytes((filler,)) * (TRAIL - len(said))
        images.compare(self.driver, b"Q" + bytes((output, filler)), expected, 2)
        self.count(told, number)

    def count(self, told, number):
        self.reached["rule %d" % number if number > 0 else "refusal %d" % number] += 1
        if number > 0 and told.end:
            self.reached["end %d" % told.end] += 1
            self.reached["a circle"] += told.steps.count(told.steps[-1]) > 1
            self.reached["twelve steps"] += len(told.steps) == 12


WANTED = ["rule %d" % n for n in range(1, 8)] + ["end 1", "end 2", "end 3", "refusal -1", "refusal -2", "a circle", "twelve steps"]


def check_by_hand(bench):
    for title, steps, number, trail in why_cases.BY_HAND:
        controller = bench.play(steps)
        told = controller.why(steps[-1])
        came = (told, "") if isinstance(told, int) else (told.rule, why_model.trail_bytes(told).hex().upper())
        assert came == (number, trail.replace(" ", "")), "%s: the model says %s" % (title, came)


def longest():
    """Logic 1 from table 6, and so on down to table 1, from math 4 and so on down to math 1, from input 1."""
    write, pair = why_cases.write, why_cases.pair
    steps = [*why_cases.NO_DELAY, *pair(0x2340, 1, 4, 1), write(0x4000, 1, 1), write(0x4101, 1, 6), *pair(0x3010, 0, 5, 4), *pair(0x4600, 1, 2, 1)]
    for k in range(2, 7):
        steps += pair(0x3000 + 0x10 * k, 0, 3, k - 1)
    for n in (1, 2, 3, 4):
        steps.append(write(0x4500, n, 1))
        if n > 1:
            steps += pair(0x4500 + 0x100 * n, 1, 5, n - 1)
    return [*steps, why_cases.tick((6000, 0, 0, 0)), 1]


# ---- the words


def said(lines, output):
    done = subprocess.run([STARTER, "why", str(output)], input=b"\n".join(lines), stdout=subprocess.PIPE, timeout=900)
    return done.stdout.decode(), done.returncode


def check_words(seed, count):
    """By hand, then against the model; the number of runs."""
    runs = [(lines, output, (text, status)) for lines, output, text, status in why_cases.IN_WORDS]
    sessions = [why_cases.BY_HAND[k][1] for k in range(len(why_cases.BY_HAND))] + [longest()]
    sessions += [why_cases.faulty("%s.%d" % (seed, k)) for k in range(count)]
    for steps in sessions:
        lines = [step for step in steps if isinstance(step, bytes)]
        printer = why_model.Printer()
        for line in lines:
            printer.answer(line)
        for output in (1, 2, 3, 4, 0, 255, 300) if steps is sessions[0] else (1, 2, 3, 4):
            texts, status = why_model.words(printer.controller, output)
            runs.append((lines, output, ("".join(text + "\n" for text in texts), status)))
    for lines, output, expected in runs:
        came = said(lines, output)
        if came != expected:
            print("output %d of\n%s\nexpected %s\ncame     %s" % (output, b"\n".join(lines).decode(), expected, came))
            return 0
    for words, status in ((["x"], 1), ([""], 1), ([], 2), (["1", "2"], 2)):
        done = subprocess.run([STARTER, "why", *words], input=b"", capture_output=True, timeout=900)
        if done.returncode != status:
            print("run why %s: status %d" % (words, done.returncode))
            return 0
    return len(runs) + 4


def main(arguments):
    parser = argparse.ArgumentParser(description="questions why against the model")
    parser.add_argument("--seed", default="1")
    parser.add_argument("--wirings", type=int, default=400)
    parser.add_argument("--lines", type=int, default=20000)
    parser.add_argument("--words", type=int, default=40)
    parser.add_argument("--library", type=pathlib.Path)
    chosen = parser.parse_args(arguments)
    assert "#define VALVE_TRAIL %d" % TRAIL in HEADER.read_text()
    driver = images.Driver("why", [chosen.library or sides.library("firmware")])
    bench = Bench(driver)
    try:
        check_by_hand(bench)
        bench.play(longest())
        for title, steps in why_cases.cases(chosen.seed, chosen.wirings, chosen.lines):
            bench.play(steps)
    except images.Difference as found:
        print("%s: %s, %s" % (title if "title" in locals() else "by hand", found, found.request.hex()))
        return 1
    missing = [what for what in WANTED if not bench.reached[what]]
    if missing or driver.end() != 0:
        print("not reached: %s" % ", ".join(missing))
        return 1
    print("%d questions (%s): all equal" % (bench.questions, ", ".join("%s: %d" % (what, bench.reached[what]) for what in WANTED)))
    runs = check_words(chosen.seed, chosen.words)
    print("%d answers in words: %s" % (runs, "all equal" if runs else "NOT EQUAL"))
    return 0 if runs else 1


if __name__ == "__main__":
    sys.exit(main(sys.argv[1:]))
