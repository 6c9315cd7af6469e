"""The yard, end to end: the C program of yard.c, linked with the gateway library, on running session programs.

    python3 yard.py [--library FILE] [--show]

A unit's configuration is kept and restored into another unit with other settings; then the
kept file is damaged, a unit says what cannot be, one refuses a record and one falls silent.
What is shown to the fitter, what is sent and what is kept is held against what was typed
here by hand. FILE is a library to be tried in place of the gateway's; --show prints what
the fitter sees.
"""

import argparse
import pathlib
import subprocess
import sys
import tempfile
import threading

import images
import images_cases
import images_model
from images import sides
from lists import MOVED_POINTS, with_records

SECONDS = 60  # far more than a run needs; what hangs is ended
UNIT = [str(sides.ROOT / "run"), "session"]

# --------------------------------------------------------------------------- Typed by hand

# One unit: 3015h moved up by 500, input 2's span moved up, constant 3 = 1.0, detect 1 off, math 1 on; an EC value, which is no setting.
KEPT_SETTINGS = """
    2B15300BDC050000 2B15300A78050000 2B15300914050000 2B153008B0040000 2B1530074C040000 2B153006E8030000
    2B15300584030000 2B15300420030000 2B153003BC020000 2B15300258020000 2B153001F4010000
    2B497102581B0000 2B22710270170000 2B2071028A130000 2B48710289130000
    231050030000803F 2F10210100000000 2F00450101000000 2B002501E7030000
"""
KEPT = with_records(
    MOVED_POINTS,
    "10 21 01 01 00 00 00 00",
    "00 45 01 01 00 00 00 01",
    "10 50 03 04 00 00 00 00 00 80 3F",
    "20 71 02 02 00 00 00 8A 13",
    "22 71 02 02 00 00 00 70 17",
    "48 71 02 02 00 00 00 89 13",
    "49 71 02 02 00 00 00 58 1B",
)

# The other unit: the last point at 1100, EC scaling 1 of 1 at 10, output 1's FV2 at 2500.
OTHER_SETTINGS = "2B15300B4C040000 2B2025010A000000 2B237301C4090000"

# What has to be sent to it: what rises, the upper of two neighbours first, then what falls.
SENT = """
    2B497102581B0000 2B22710270170000 2B2071028A130000 2B48710289130000 2F00450101000000
    2B15300BDC050000 2B15300A78050000 2B15300914050000 2B153008B0040000 2B1530074C040000 2B153006E8030000
    2B15300584030000 2B15300420030000 2B153003BC020000 2B15300258020000 2B153001F4010000
    2F10210100000000 2B20250100000000 231050030000803F 2B237301DC050000
"""

READ = """\
  100 of 611 entries read
  200 of 611 entries read
  300 of 611 entries read
  400 of 611 entries read
  500 of 611 entries read
  600 of 611 entries read
  611 of 611 entries read
"""
KEEPS = "Reading the unit.\n" + READ + "Kept 611 entries, 5207 bytes.\n"
COMPARES = "Reading the unit.\n" + READ + "Comparing it with the kept image.\n"
RESTORES = COMPARES + """\
The list has 20 records, 184 bytes.
Sending the list.
  10 of 20 records sent
  20 of 20 records sent
Reading the unit again.
""" + READ + "Done: 20 of 20 records sent, a tick after each; 611 of 611 entries are as kept.\n"
RESTORES_NOTHING = COMPARES + """\
The list has 0 records, 4 bytes.
Sending the list.
Reading the unit again.
""" + READ + "Done: 0 of 0 records sent, a tick after each; 611 of 611 entries are as kept.\n"

# A kept file in which all entries but the six axis types are other than in a fresh unit: 4 + 605 * 7 + 926 - 6 bytes.
ALL_BUT_AXES = images_model.image_of(
    [
        images_cases.beside_default(place) if place in images_cases.CHANGEABLE else data
        for place, data in enumerate(images_cases.DEFAULTS)
    ]
)
RESTORES_ALL = COMPARES + """\
The list has 605 records, 5159 bytes.
Sending the list.
""" + "".join("  %d of 605 records sent\n" % sent for sent in (*range(10, 601, 10), 605)) + """\
Reading the unit again.
""" + READ + "Done: 605 of 605 records sent, a tick after each; 611 of 611 entries are as kept.\n"

# Somebody sets 7321h:1 to 2000 once the unit has been read: the list's last record, 7323h:1 = 1500, is then refused.
MEDDLES = "2B217301D0070000"
IS_REFUSED = COMPARES + """\
The list has 20 records, 184 bytes.
Sending the list.
  10 of 20 records sent
Refused: 7323h:1 = 1500: the value is too low (06090032h).
Reading the unit again.
""" + READ + "NOT RESTORED: 19 of 20 records sent, a tick after each; 609 of 611 entries are as kept.\n"

# A unit that says its fault mode 1 (6340h:1) were 7.
FALSE_ANSWER = "S 4040630100000000", "4F40630107000000"
IS_NO_CONFIGURATION = COMPARES + "Refused: what the unit holds is no configuration, a value is out of its range (-5). Nothing was sent.\n"

# A unit that has no 7341h:4, the last entry.
MISSING = "S 4041730400000000", "8041730411000906"
IS_MISSING = "Reading the unit.\n" + READ.replace("  611 of 611 entries read\n", "") + """\
The unit does not give 7341h:4: there is no such sub-index (06090011h).
"""

# A unit that falls silent at its last entry.
IS_SILENT = "Reading the unit.\n" + READ.replace("  611 of 611 entries read\n", "") + "The unit does not answer.\n"

# The kept file with one damage for each number, and what is said of it.
DAMAGES = (
    (KEPT[:-1], "it ends early (-11)"),
    (b"", "it ends early (-11)"),
    (bytes.fromhex("62 02 00 00") + KEPT[4:], "it does not count 611 records (-12)"),
    (KEPT[:6] + b"\x02" + KEPT[7:], "a record is not that of the next entry (-13)"),
    (KEPT[:7] + b"\x02" + KEPT[8:], "a record has the wrong size (-14)"),
    (with_records(KEPT, "10 21 01 01 00 00 00 02"), "a value is out of its range (-15)"),
    (with_records(KEPT, "20 71 02 02 00 00 00 88 13"), "two values are not in order (-16)"),  # FV1 one below the span's start
    (KEPT + b"\0", "there are bytes behind the last record (-17)"),
)

# --------------------------------------------------------------------------- Units


class Unit:
    """A running session program."""

    def __init__(self, settings=""):
        self.process = subprocess.Popen(UNIT, stdin=subprocess.PIPE, stdout=subprocess.PIPE)
        for frame in settings.split():
            reply = self.answer("S " + frame)
            assert reply == "60" + frame[2:8] + "00000000", (frame, reply)

    def answer(self, line):
        self.process.stdin.write(line.encode() + b"\n")
        self.process.stdin.flush()
        return self.process.stdout.readline().decode().rstrip("\n")

    def __enter__(self):
        return self

    def __exit__(self, *_):
        self.process.stdin.close()
        self.process.stdout.close()
        try:
            self.process.wait(SECONDS)
        except subprocess.TimeoutExpired:
            self.process.kill()


class Says(Unit):
    """One line is answered otherwise; with None the unit falls silent there."""

    def __init__(self, settings, line, otherwise):
        super().__init__(settings)
        self.line, self.otherwise = line, otherwise

    def answer(self, line):
        return self.otherwise if line == getattr(self, "line", None) else super().answer(line)


class Meddled(Unit):
    """Somebody else writes to the unit once its last entry has been read."""

    def answer(self, line):
        answer = super().answer(line)
        if line == MISSING[0]:
            super().answer("S " + MEDDLES)
        return answer


# --------------------------------------------------------------------------- The program


class Program:
    def __init__(self, library):
        self.path = sides.linked("yard", [sides.compiled(pathlib.Path(__file__).parent / "yard.c", "yard.o"), library])

    def run(self, unit, *words):
        """Its status, what it showed, and each line that it sent. The lines go to the unit, and the answers back."""
        with tempfile.TemporaryFile() as screen:
            process = subprocess.Popen(
                [*sides.EMULATOR, self.path, *map(str, words)], stdin=subprocess.PIPE, stdout=subprocess.PIPE, stderr=screen
            )
            watch = threading.Timer(SECONDS, process.kill)
            watch.start()
            lines = self.relayed(process, unit)
            status = process.wait()
            watch.cancel()
            screen.seek(0)
            return status, screen.read().decode(), lines

    @staticmethod
    def relayed(process, unit):
        lines = []
        with process.stdin, process.stdout:
            for line in process.stdout:
                lines.append(line.decode().rstrip("\n"))
                answer = unit.answer(lines[-1])
                if answer is None:
                    break
                process.stdin.write(answer.encode() + b"\n")
                process.stdin.flush()
        return lines


# --------------------------------------------------------------------------- All of it

READS = ["S " + images.read_frame(entry).hex().upper() for entry in images_model.ENTRIES]
TICK = "T 2500 2500 2500 2500"


def writes(frames):
    """The lines of a list that is sent, a tick after each record."""
    return [line for frame in frames.split() for line in ("S " + frame, TICK)]


class Check:
    def __init__(self, program, show):
        self.program, self.show = program, show
        self.runs = self.lines = 0

    def expect(self, unit, words, status, screen, lines):
        """A run on the unit, by status, screen and lines sent; None for lines that cannot be typed."""
        came = self.program.run(unit, *words)
        if self.show:
            print("yard %s\n%s" % (" ".join(map(str, words)), came[1]))
        for what, expected, got in (("screen", screen, came[1]), ("status", status, came[0]), ("lines", lines, came[2])):
            if expected is not None and expected != got:
                raise AssertionError("yard %s: %s\nexpected: %s\ncame: %s" % (" ".join(map(str, words)), what, expected, got))
        self.runs += 1
        self.lines += len(came[2])

    def all(self, folder):
        kept = folder / "kept"
        with Unit(KEPT_SETTINGS) as unit:
            self.expect(unit, ("keep", kept), 0, KEEPS, READS)
        assert kept.read_bytes() == KEPT, "the kept image"
        with Unit(OTHER_SETTINGS) as unit:
            self.restored(unit, folder, kept)
        with Unit() as unit:
            (folder / "all").write_bytes(ALL_BUT_AXES)
            self.expect(unit, ("restore", folder / "all"), 0, RESTORES_ALL, None)
            self.expect(unit, ("restore", folder / "all"), 0, RESTORES_NOTHING, READS + READS)
        with Meddled(OTHER_SETTINGS) as unit:
            self.expect(unit, ("restore", kept), 1, IS_REFUSED, READS + writes(SENT)[:-1] + READS)
        with Says(OTHER_SETTINGS, *FALSE_ANSWER) as unit:
            self.expect(unit, ("restore", kept), 1, IS_NO_CONFIGURATION, READS)
        with Says("", *MISSING) as unit:
            self.expect(unit, ("keep", folder / "never"), 1, IS_MISSING, READS)
        with Says("", READS[-1], None) as unit:
            self.expect(unit, ("keep", folder / "never"), 1, IS_SILENT, READS)
            self.expect(unit, ("restore", folder / "never"), 1, "The file cannot be opened: %s\n" % (folder / "never"), [])
            self.expect(unit, ("keep",), 2, "yard keep FILE, or yard restore FILE\n", [])
        assert not (folder / "never").exists(), "a file of a unit that was not read"

    def restored(self, unit, folder, kept):
        """Damaged images first, which send nothing; then the kept one, twice; then the unit holds it."""
        damaged = folder / "damaged"
        for image, words in DAMAGES:
            damaged.write_bytes(image)
            said = COMPARES + "Refused: the kept image is damaged, %s. Nothing was sent.\n" % words
            self.expect(unit, ("restore", damaged), 1, said, READS)
        self.expect(unit, ("restore", kept), 0, RESTORES, READS + writes(SENT) + READS)
        self.expect(unit, ("restore", kept), 0, RESTORES_NOTHING, READS + READS)
        self.expect(unit, ("keep", folder / "again"), 0, KEEPS, READS)
        assert (folder / "again").read_bytes() == KEPT, "the image of the restored unit"


def main(arguments):
    parser = argparse.ArgumentParser(description="the yard, end to end")
    parser.add_argument("--library", type=pathlib.Path)
    parser.add_argument("--show", action="store_true")
    chosen = parser.parse_args(arguments)
    check = Check(Program(chosen.library or sides.library("gateway")), chosen.show)
    try:
        with tempfile.TemporaryDirectory() as folder:
            check.all(pathlib.Path(folder))
    except AssertionError as difference:
        print(difference)
        return 1
    print("%d runs of the yard's program, %d lines to units: all as typed by hand" % (check.runs, check.lines))
    return 0


if __name__ == "__main__":
    sys.exit(main(sys.argv[1:]))
