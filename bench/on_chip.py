"""The sides on an emulated Cortex-M: builds them for it, runs events on one, counts the instructions of a run, sizes what is linked.

A side is drive.c's program as in sides.py; `ours` and plain C are compiled with the same flags, at -Os or at -O2. Every instruction is a
single step in the log of Debian's qemu-system-arm. The programs stand on tests/chip/bare.h.
"""

import subprocess
import sys

import sides
from sides import ROOT, chips

sys.path.insert(0, str(ROOT / "tests"))
import chip as emulated  # noqa: E402
import elf  # noqa: E402

OUT = chips.OUT / "bench"
DRIVER = (b" take\n", b" run\n", b" _start\n")  # drive.c's own functions, as the log names them


class Level:
    """A chip at an optimization level."""

    def __init__(self, chip, level):
        chips.flags(chip)
        if chip not in emulated.BOARDS or emulated.starter(chip) is None:
            raise chips.Refused("%s is not counted: there is no board of qemu-system-arm for it here" % chip, 2)
        self.chip, self.level, self.place = chip, level, OUT / (chip + level)
        self.place.mkdir(parents=True, exist_ok=True)

    def compiled(self, source, out, *words):
        headers = (sides.HERE, sides.HERE / "include", ROOT / "crates" / "firmware", ROOT / "crates" / "gateway")
        return chips.compiled(self.chip, source, self.place / out, "-std=c11", self.level, *("-I%s" % place for place in headers), *words)

    def linked(self, out, words):
        subprocess.run([sides.TOOLS / "ld.lld", "--gc-sections", "-o", self.place / out, *words], check=True)
        return self.place / out

    def parts_of(self, side):
        if side == "plain":
            return [self.compiled(sides.HERE / "plain.c", "plain.o")]
        other = [] if self.level == "-Os" else [self.level]
        return [chips.library(self.chip, crate, *other) for crate in chips.HEADERS] if side == "valve" else []

    def build(self, side):
        words = ["-include", ROOT / "tests" / "chip" / "bare.h", *sides.words_for(side)]
        parts = [self.compiled(sides.HERE / "drive.c", side + ".drive.o", *words), *self.parts_of(side)]
        return self.linked(side, ["-T", ROOT / "tests" / "chip" / "link.ld", *parts])

    def started(self, program, *words):
        *before, kernel = emulated.starter(self.chip)
        return [*before, *words, kernel, program]

    def answers(self, program, events):
        with sides.input_of(events) as file:
            out = subprocess.run(self.started(program), stdin=file, stdout=subprocess.PIPE, check=True).stdout
        return sides.read_answers(out, len(events))[0]

    def steps(self, program, events):
        """The place of each instruction of the run, in order."""
        words = ["-singlestep", "-d", "exec,nochain"]
        with sides.input_of(events) as file:
            run = subprocess.Popen(self.started(program, *words), stdin=file, stdout=subprocess.DEVNULL, stderr=subprocess.PIPE)
            for line in run.stderr:
                if line.startswith(b"Trace"):
                    yield line
            if run.wait() != 0:
                raise RuntimeError("%s: status %d" % (program, run.returncode))

    def instructions(self, program, events):
        return sum(1 for _ in self.steps(program, events))

    def dearest(self, program, call, events):
        """The most instructions of one call in a run, its return among them, and how many calls there were."""
        entry = next(place & ~1 for name, _, section, place, _ in elf.Object(program.read_bytes()).symbols if section and name == call)
        most = calls = count = 0
        inside = False
        for line in self.steps(program, events):
            if b"/%08x/" % entry in line:
                inside, calls, count = True, calls + 1, 0
            elif inside and line.endswith(DRIVER):
                inside, most = False, max(most, count)
            count += inside
        return most, calls

    def flash(self, calls, parts):
        """Bytes of code and of constants that a linker takes for the calls, and the bytes of each function."""
        roots = [word for name in calls for word in ("-u", name)]
        made = elf.Object(self.linked("flash", ["-e", calls[0], *roots, "--unresolved-symbols=ignore-all", *parts]).read_bytes())
        code = constants = 0
        for name, flags, length in made.sections():
            if flags & 4:
                code += length
            elif flags & 2 and name.startswith(".rodata"):
                constants += length
            elif flags & 1 and length:
                raise RuntimeError("%s is %d bytes of memory that is written to" % (name, length))
        return code, constants, sorted(made.functions(), key=lambda each: -each[1])
