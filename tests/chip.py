"""The libraries on emulated chips, against the same model as on x86-64: sessions, images, lists and questions why.

    python3 chip.py [--seed S] [--lines N] [CHIP ..]

A Cortex-M is a board of Debian's qemu-system-arm, on which a bare program (chip/bare.h) reads and writes by semihosting. The
libraries for Linux, and rv32imac's, run as Linux programs (chip/linux.h): by the machine itself where it is such a one, else by
qemu-user. A chip for which there is no emulator is named and left out. At the first difference the exit status is 1.
"""

import argparse
import os
import pathlib
import platform
import random
import shutil
import subprocess
import sys
import time

import images
import images_cases
import lists
import lists_cases
import spool
import why
import why_cases

HERE = pathlib.Path(__file__).resolve().parent
ROOT = HERE.parent
sys.path.insert(0, str(ROOT / "chip"))
import build  # noqa: E402

OUT = build.OUT / "tests"
# The M0+'s code runs on an M3 too; the emulator has no board with an M0+.
BOARDS = {"cortex-m4f": "mps2-an386", "cortex-m7": "mps2-an500", "cortex-m3": "mps2-an385", "cortex-m0plus": "mps2-an385"}
LINUX = {"aarch64-linux": "aarch64", "armv7-linux": "arm", "rv32imac": "riscv32"}
NOT_WHOLE = ("cortex-m0plus", "cortex-m3", "rv32imac", "armv7-linux")  # without REAL32, or without a division: chip/real32.c has them


def starter(chip):
    """The words before a program that start it, None where nothing can."""
    if chip in BOARDS:
        emulator = shutil.which("qemu-system-arm")
        quiet = "-nographic -monitor none -serial none -semihosting-config enable=on,target=native".split()
        return emulator and [emulator, "-M", BOARDS[chip], *quiet, "-kernel"]
    if LINUX[chip] == platform.machine():
        return []
    emulator = shutil.which("qemu-" + LINUX[chip])
    return emulator and [emulator]


def linked(chip, source, libraries):
    """A program for the chip from a C file of the tests; one that is younger than all that it is made of is taken as it is."""
    program = OUT / ("%s.%s" % (chip, source.stem))
    start = HERE / "chip" / ("bare.h" if chip in BOARDS else "linux.h")
    made_of = [*HERE.glob("*.[ch]"), *(HERE / "chip").iterdir(), *libraries]
    if program.exists() and program.stat().st_mtime > max(file.stat().st_mtime for file in made_of):
        return program
    OUT.mkdir(parents=True, exist_ok=True)
    places = (HERE, ROOT / "bench", ROOT / "bench" / "include", *(ROOT / "crates" / crate for crate in build.HEADERS))
    words = ["-O2", *("-I%s" % place for place in places)]
    parts = [build.compiled(chip, source, OUT / (program.name + ".o"), "-include", start, *words)]
    if chip in NOT_WHOLE:
        parts.append(build.compiled(chip, HERE / "chip" / "real32.c", OUT / (program.name + ".real32.o"), *words))
    memory = ["-T", HERE / "chip" / "link.ld"] if chip in BOARDS else []
    subprocess.run([build.tools() / "ld.lld", *memory, "--gc-sections", "-o", program, *parts, *libraries], check=True)
    return program


class Driver(images.Driver):
    """One of the tests' C programs over the libraries for a chip."""

    def __init__(self, chip, name):
        source = HERE / (name + ".c") if name != "events" else HERE / "chip" / "events.c"
        program = linked(chip, source, [build.library(chip, crate) for crate in build.HEADERS])
        self.process = subprocess.Popen([*starter(chip), program], stdin=subprocess.PIPE, stdout=subprocess.PIPE)


# ---- what is compared


def is_shut(chip):
    """A program that touches what it was not lent ends, so that images and lists tell such a touch."""
    try:
        Driver(chip, "events").ask(b"X")
    except images.Difference:
        return True, "memory that is not lent is shut"
    return False, "MEMORY THAT IS NOT LENT IS OPEN"


def compare_sessions(chip, seed, lines):
    """The walk over every name and random sessions against the model; every name, sub and command byte against the paper's table."""
    for words in (["compare.py", "--lines", str(lines), "--seed", seed], ["sdo_client.py"]):
        command = [sys.executable, HERE / words[0], HERE / "chip_session.py", *words[1:]]
        done = subprocess.run(command, env={**os.environ, "CHIP": chip}, stdout=subprocess.PIPE, text=True)
        yield done.returncode == 0, done.stdout.strip()


def thinned(cases, every):
    """Of each group the first and every so many behind it."""
    counts = {}
    for case in cases:
        counts[case[0]] = counts.get(case[0], -1) + 1
        if counts[case[0]] % every == 0:
            yield case


def compare_images(chip, seed, every):
    driver = Driver(chip, "images")
    bench = images.Bench(driver, random.Random(seed))
    try:
        images.compare_with_frames(bench)
        images.compare_saving(bench)
        for bench.part, image, wanted in thinned(images_cases.cases(images_cases.AIMED + images_cases.EVERYWHERE, seed), every):
            bench.read(image, wanted)
    except images.Difference as found:
        return False, "images, %s: %s" % (bench.part, found)
    said = "%d images read (refusal %s), %d saved, %d frames: all equal"
    return driver.end() == 0, said % (sum(bench.images.values()), images.by_number(bench.images), sum(bench.saves.values()), bench.frames)


def compare_lists(chip, seed, every):
    driver = Driver(chip, "lists")
    bench = lists.Bench(driver, random.Random(seed))
    try:
        lists.check_by_hand(bench)
        for bench.part, first, second in thinned(lists_cases.cases(lists_cases.GOOD, seed), every):
            current, wanted = images.image_of(first), images.image_of(second)
            needed, made = bench.call(current, wanted, images.IMAGE_BYTES, (0, first, second))
            bench.call(current, wanted, needed - 1, (0, first, second))
            bench.send(first, second, made)
        for bench.part, current, wanted, known in thinned(lists_cases.cases(lists_cases.DAMAGED, seed), every):
            bench.call(current, wanted, images.IMAGE_BYTES)
    except images.Difference as found:
        return False, "lists, %s: %s" % (bench.part, found)
    said = "%d lists made, %d refusals, %d lists played, %d records and %d events between: all equal"
    return driver.end() == 0, said % (bench.lists, bench.refusals, bench.played, bench.records, bench.between)


def compare_spools(chip, seed, lines):
    """The spool product, with the firmware in one program."""
    driver = Driver(chip, "spool")
    try:
        said = spool.check_through_c(driver, seed, lines)
    except (spool.Wrong, images.Difference) as found:
        return False, "the spool product: %s" % found
    return driver.end() == 0, "the spool product, " + said


def compare_questions(chip, seed, every):
    driver = Driver(chip, "why")
    bench = why.Bench(driver)
    part = "by hand"
    try:
        why.check_by_hand(bench)
        bench.play(why.longest())
        for part, steps in why_cases.cases(seed, 400 // every, 2000):
            bench.play(steps)
    except images.Difference as found:
        return False, "questions why, %s: %s" % (part, found)
    return driver.end() == 0, "%d questions why: all equal" % bench.questions


def compare(chip, seed, lines, every):
    """Whether all is equal on the chip; what was compared is said."""
    began, good = time.monotonic(), True
    parts = [is_shut(chip), *compare_sessions(chip, seed, lines), compare_images(chip, seed, every), compare_lists(chip, seed, every), compare_spools(chip, seed, lines // 4), compare_questions(chip, seed, every)]
    for right, said in parts:
        good &= right
        print("\n".join("%s: %s" % (chip, line) for line in said.splitlines()), flush=True)
    print("%s: %s, %d s" % (chip, "all equal" if good else "NOT EQUAL", time.monotonic() - began), flush=True)
    return good


def main(words):
    parser = argparse.ArgumentParser(description="the libraries on emulated chips against the model")
    parser.add_argument("--seed", default="1")
    parser.add_argument("--lines", type=int, default=20000)
    parser.add_argument("--every", type=int, default=40, help="of the images and lists of each kind, one in so many")
    parser.add_argument("chips", nargs="*", default=list(build.CHIPS))
    chosen = parser.parse_args(words)
    good = True
    for chip in chosen.chips:
        if starter(chip) is None:
            print("%s: NOT RUN: no emulator here (%s)" % (chip, "qemu-system-arm" if chip in BOARDS else "qemu-user"))
        else:
            good &= compare(chip, chosen.seed, chosen.lines, chosen.every)
    return 0 if good else 1


if __name__ == "__main__":
    try:
        sys.exit(main(sys.argv[1:]))
    except build.Refused as why:
        print(why)
        sys.exit(why.status)
