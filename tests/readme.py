"""README.md's commands, as they stand there, in a copy of the repository: what they print against what was typed here by hand.

    python3 readme.py

Run are the first command but for what proves and builds its program, which the gate has done, and the five lines that link both
libraries into a C program; the first of the five, which builds the libraries, is run once for all tests. The firmware for a chip is compiled
for it and linked: beside the board's own functions it asks for memory copies at most. The copy has the repository's own
files and what was proved, so that nothing is proved twice and no other test is disturbed. The exit status is 1 where something
else is printed.
"""

import pathlib
import shutil
import subprocess
import sys
import tempfile

ROOT = pathlib.Path(__file__).resolve().parent.parent
sys.path.insert(0, str(ROOT / "bench"))
import sides  # noqa: E402
from sides import chips  # noqa: E402
import elf  # noqa: E402
import helpers  # noqa: E402

# What stands before each block, and the last lines that it prints: the paper's own session, and a list of one record, 4 bytes
# of count, then 3015h:2, its size and 150.
FIRST = "Run it:", ["4F01100000000000", "6015300200000000", "O 0 0 0 0 00"]
LINKED = "There are three static libraries:", ["13 bytes: 01 00 00 00 15 30 02 02 00 00 00 96 00"]
DONE_BY_THE_GATE = "(cd crates/session && rt run </dev/null) && "
PROGRAM = "crates/session/out/session"
BUILT = "firmware", "gateway"
ON_A_CHIP = "makes `target/chip/cortex-m4f/`"
BOARD = {"read_inputs", "drive_coils", "can_send"}


def block(opening):
    """The indented lines behind the paragraph that opens so."""
    lines = (ROOT / "README.md").read_text().splitlines()
    starts = [n for n, line in enumerate(lines) if line.startswith(opening)]
    assert len(starts) == 1, "README.md has %d paragraphs '%s'" % (len(starts), opening)
    behind = lines[lines.index("", starts[0]) + 1 :]
    return [line.strip() for line in behind[: behind.index("")]]


def copy(place):
    """The repository's files, and what was proved of them."""
    listed = subprocess.run(["git", "ls-files", "-z"], cwd=ROOT, check=True, stdout=subprocess.PIPE, text=True).stdout
    for name in listed.split("\0")[:-1]:
        (place / name).parent.mkdir(parents=True, exist_ok=True)
        shutil.copy2(ROOT / name, place / name)
    (place / PROGRAM).parent.mkdir()
    (place / PROGRAM).symlink_to(ROOT / PROGRAM)
    (place / "target").mkdir()
    (place / "target" / "staticlib").symlink_to(ROOT / "target" / "staticlib")


def prints(place, lines, expected):
    """Whether a plain shell runs the lines, and the last that is printed is what is expected."""
    done = subprocess.run(["sh", "-e"], input="\n".join(lines), cwd=place, stdout=subprocess.PIPE, stderr=subprocess.STDOUT, text=True)
    printed = done.stdout.splitlines()
    if done.returncode == 0 and printed[-len(expected) :] == expected:
        return True
    print("README.md: status %d of" % done.returncode, *lines, "which must end with", *expected, "but prints", *printed, sep="\n")
    return False


def links_on_a_chip(place):
    """Whether the firmware compiles for the M4F with its header, and what is linked asks for the board's functions and memory copies."""
    library = chips.library("cortex-m4f", "firmware")
    (place / "firmware.c").write_text("\n".join(block(ON_A_CHIP)))
    words = ["-Wall", "-Wextra", "-Werror", "-I%s" % library.parent, "-I%s" % (ROOT / "bench" / "include")]
    made = chips.compiled("cortex-m4f", place / "firmware.c", place / "firmware.o", *words)
    calls = ["-u", "power_up", "-u", "every_millisecond", "-u", "can_received"]
    linker = [chips.tools() / "ld.lld", "-r", "--gc-sections", "-e", "power_up", *calls, "-o", place / "linked.o", made, library]
    subprocess.run(linker, check=True)
    asked = set(elf.Object((place / "linked.o").read_bytes()).asked())
    if BOARD <= asked and asked - BOARD <= helpers.MEMORY:
        return True
    print("README.md: the firmware on a chip asks for %s" % " ".join(sorted(asked)))
    return False


def main():
    with tempfile.TemporaryDirectory() as folder:
        place = pathlib.Path(folder)
        copy(place)
        first = block(FIRST[0])
        assert len(first) == 1 and first[0].startswith(DONE_BY_THE_GATE), first
        linking = block(LINKED[0])
        assert len(linking) == 5 and linking[0] == "./run staticlib " + " ".join(BUILT), linking
        for crate in BUILT:
            sides.library(crate)
        good = prints(place, [first[0].removeprefix(DONE_BY_THE_GATE)], FIRST[1])
        good &= prints(place, linking[1:], LINKED[1])
        good &= links_on_a_chip(place)
    return 0 if good else 1


if __name__ == "__main__":
    sys.exit(main())
