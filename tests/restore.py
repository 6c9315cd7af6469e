"""The command for the yard: `./run restore`, and what `./run` says of itself.

    python3 restore.py [--seed S] [--reals N]

Lists are held against those typed in lists.py and against the model's; what is shown of two
images against words written here from the paper's table of names and against values worked
out with fractions. Then come damaged images, files that cannot be read, and lists that
cannot be written: each time the words, the status and every file in the folder.
"""

import argparse
import contextlib
import fractions
import functools
import itertools
import os
import pathlib
import random
import resource
import shutil
import signal
import struct
import subprocess
import sys
import tempfile
import time

import lists_cases
import lists_model
import model
from images_cases import CHANGEABLE, DEFAULTS, REALS, beside_default, with_bits
from images_model import ENTRIES, PLACES, image_of, value_of
from lists import DAMAGED, DEFAULT, LISTS, MIXED, MOVED_POINTS, MOVED_SPAN

ROOT = pathlib.Path(__file__).resolve().parent.parent
RUN = str(ROOT / "run")
SECONDS = 60  # far more than a run needs; what hangs is ended

# --------------------------------------------------------------------------- Typed by hand

USES = """\
./run session                        serves a session: frames and ticks on standard input, an answer to each line
./run spool                          serves a session of the twin-coil spool product: after O what the two coils are sent
./run why OUTPUT                     reads the lines of a session, then says in words why the output has its command
./run restore CURRENT WANTED LIST    writes the restore list of two image files, all of it or nothing
./run restore --show CURRENT WANTED  one line for each entry that differs, in send order
./run staticlib NAME..               builds libraries for C, firmware, spool or gateway, into target/staticlib
./run chip [CHIP]                    builds them for a chip into target/chip/CHIP; without one, says which chips there are
"""
USE = "restore CURRENT WANTED LIST, or restore --show CURRENT WANTED\n"
REFUSALS = {
    1: "it ends early",
    2: "it does not count 611 records",
    3: "a record is not that of the next entry",
    4: "a record has the wrong size",
    5: "a value is out of its range",
    6: "two values are not in order",
    7: "there are bytes behind the last record",
}
SHOWN = (
    (
        DEFAULT,
        MOVED_SPAN,
        "7149h:2 input 2, span end: 5000 -> 7000\n7122h:2 input 2, FV2: 4500 -> 6000\n"
        "7120h:2 input 2, FV1: 500 -> 5002\n7148h:2 input 2, span start: 0 -> 5001\n",
    ),
    (
        DEFAULT,
        MIXED,
        "2300h:1 output 1, override FV: 2000 -> 2001\n2110h:1 input 1, detect: 1 -> 0\n5010h:15 constant 15: 0 -> 1\n",
    ),
    (DEFAULT, DEFAULT, ""),
)

# A REAL32's bits and its shortest decimal. At 2^-96, 2^87 and 2^90 the nearest with eight digits does not read back, and the next
# above does; 1 + 2^-8 is in the middle between two.
REAL_WORDS = {
    0x00000000: "0",
    0x80000000: "-0",
    0x3F800000: "1",
    0xBF800000: "-1",
    0x3DCCCCCD: "0.1",
    0x40200000: "2.5",
    0x3EAAAAAB: "0.33333334",
    0x3F808000: "1.0039063",
    0x00000001: "1e-45",
    0x007FFFFF: "1.1754942e-38",
    0x00800000: "1.1754944e-38",
    0x7F7FFFFF: "3.4028235e38",
    0xFF7FFFFF: "-3.4028235e38",
    0x38D1B717: "0.0001",
    0x38D1B716: "9.999999e-5",
    0x4B189680: "1e7",
    0x4B18967F: "9999999",
    0x4B800001: "1.6777218e7",
    0x0F800000: "1.2621775e-29",
    0x6B000000: "1.5474251e26",
    0x6C800000: "1.2379401e27",
}

# --------------------------------------------------------------------------- The paper's words


def rows_of_words():
    """Each object of the table of names: index, first and last sub, and what the entry is."""
    for index, what in ((0x2502, "digits"), (0x2520, "scaling 1"), (0x2522, "scaling 2")):
        yield index, 1, 12, "EC {sub}, " + what
    inputs = {0x6132: "digits", 0x7120: "FV1", 0x7121: "PV1", 0x7122: "FV2", 0x7123: "PV2"}
    inputs |= {0x7148: "span start", 0x7149: "span end", 0x2110: "detect", 0x2111: "hysteresis", 0x2112: "delay"}
    for index, what in inputs.items():
        yield index, 1, 4, "input {sub}, " + what
    for z in range(1, 7):
        for digit, what in enumerate(("X source", "X number", "X digits", "Y digits")):
            yield 0x3000 + 16 * z + digit, 0, 0, "table %d, %s" % (z, what)
        yield 0x3004 + 16 * z, 1, 1, "table %d, axis type" % z
        yield 0x3004 + 16 * z, 2, 11, "table %d, response {sub}" % z
        yield 0x3005 + 16 * z, 1, 11, "table %d, X {sub}" % z
        yield 0x3006 + 16 * z, 1, 11, "table %d, Y {sub}" % z
    yield 0x4000, 1, 2, "logic {sub}, enable"
    for x, (sub, letter) in itertools.product((1, 2), enumerate("ABC", 1)):
        yield 0x4001 + 256 * x, sub, sub, "logic %d, table for %s" % (x, letter)
        yield 0x4002 + 256 * x, sub, sub, "logic %d, operator for %s" % (x, letter)
        for condition in (1, 2, 3):
            for part, what in enumerate(("source 1", "number 1", "source 2", "number 2", "comparison"), 1):
                words = "logic %d, condition %d for %s, %s" % (x, condition, letter, what)
                yield 0x4000 + 256 * x + 16 * sub + condition, part, part, words
    for index, what in ((0x4500, "enable"), (0x4521, "scaling 1 PV"), (0x4523, "scaling 2 PV"), (0x4532, "digits")):
        yield index, 1, 4, "math {sub}, " + what
    operands = {0x00: "source", 0x01: "number", 0x02: "digits", 0x20: "scaling 1", 0x22: "scaling 2", 0x40: "gain"}
    for y in range(6, 10):
        for digits, what in operands.items():
            yield 0x4000 + 256 * y + digits, 1, 4, "math %d, input {sub}, %s" % (y - 5, what)
        yield 0x4050 + 256 * y, 1, 3, "math %d, operator {sub}" % (y - 5)
    yield 0x5010, 3, 15, "constant {sub}"
    outputs = {0x6302: "digits", 0x7320: "PV1", 0x7322: "PV2", 0x7321: "FV1", 0x7323: "FV2", 0x6340: "fault mode"}
    outputs |= {0x7341: "fault FV", 0x2300: "override FV", 0x2330: "ramp up", 0x2331: "ramp down"}
    outputs |= {0x2340: "control source", 0x2341: "control number"}
    for index, what in ((0x2350, "enable"), (0x2360, "override")):
        outputs |= {index: what + " source", index + 1: what + " number", index + 2: what + " response"}
    for index, what in outputs.items():
        yield index, 1, 4, "output {sub}, " + what


WORDS = {(index, sub): words.format(sub=sub) for index, low, high, words in rows_of_words() for sub in range(low, high + 1)}
assert sorted(WORDS) == sorted(PLACES), "the words are not those of the 611 entries"


# --------------------------------------------------------------------------- REAL32 in decimal


def real_of(bits):
    """The exact value."""
    return fractions.Fraction(struct.unpack("<f", struct.pack("<I", bits))[0])


def reads_back(decimal, bits):
    """Whether the REAL32 nearest to it is this one, above 0; of two that are as near, the one whose last bit is 0."""
    value = real_of(bits)
    below = real_of(bits - 1)
    above = real_of(bits + 1) if bits < 0x7F7FFFFF else 2 * value - below
    low, high = (below + value) / 2, (value + above) / 2
    return low < decimal < high or bits % 2 == 0 and decimal in (low, high)


def shortest(bits):
    """The digits as a number, and its power of ten: as few digits as can be, then the nearest, halves upward."""
    value = real_of(bits)
    power = 39
    while value < fractions.Fraction(10) ** power:
        power -= 1
    for count in range(1, 10):
        unit = fractions.Fraction(10) ** (power - count + 1)
        near = sorted((value // unit + 1, value // unit), key=lambda digits: abs(digits * unit - value))
        for digits in near:
            if reads_back(digits * unit, bits):
                return digits, power - count + 1
    raise AssertionError("%08X: nine digits are not enough" % bits)


def real_words(bits):
    if bits >= 0x80000000:
        return "-" + real_words(bits - 0x80000000)
    if bits == 0:
        return "0"
    digits, power = shortest(bits)
    text = str(digits).rstrip("0")
    first = len(str(digits)) - 1 + power  # the first digit's power of ten
    if not -4 <= first < 7:
        return text[0] + ("." + text[1:] if text[1:] else "") + "e%d" % first
    if first < 0:
        return "0." + (-first - 1) * "0" + text
    whole, rest = text[: first + 1].ljust(first + 1, "0"), text[first + 1 :]
    return whole + ("." + rest if rest else "")


def value_words(entry, data):
    return real_words(struct.unpack("<I", data)[0]) if entry.type is model.REAL32 else str(value_of(entry, data))


def shown_lines(first, second):
    lines = []
    for place in lists_model.sent(first, second):
        entry = ENTRIES[place]
        values = value_words(entry, first[place]), value_words(entry, second[place])
        lines.append("%r %s: %s -> %s\n" % (entry, WORDS[entry.index, entry.sub], *values))
    return "".join(lines)


# --------------------------------------------------------------------------- Running


class Check:
    """Runs of the command in a folder of its own."""

    def __init__(self, folder):
        self.folder, self.runs = folder, 0

    def write(self, name, data):
        (self.folder / name).write_bytes(data)

    def files(self):
        return {path: path.read_bytes() if path.is_file() else None for path in self.folder.rglob("*")}

    def run(self, *words, **how):
        """Status, standard output, standard error."""
        self.runs += 1
        how = {"stdout": subprocess.PIPE, "timeout": SECONDS, "cwd": self.folder, "program": RUN} | how
        done = subprocess.run([how.pop("program"), *words], stderr=subprocess.PIPE, **how)
        return done.returncode, (done.stdout or b"").decode(), done.stderr.decode()

    def expect(self, words, status, said="", complained="", changed=None, **how):
        """What is said, and which files are other than before."""
        expected = self.files() | {self.folder / name: data for name, data in (changed or {}).items()}
        came = self.run(*words, **how)
        wanted = status, said, complained
        assert came == wanted, "%s\n  expected %s\n  came     %s" % (words, wanted, came)
        other = {path.name for path, _ in self.files().items() ^ expected.items()}
        assert not other, "%s: not as expected: %s" % (words, other)

    def made(self, current, wanted, made, name="list"):
        """The list is made, whatever the name stood for before."""
        self.write("current", current)
        self.write("wanted", wanted)
        said = "%d records, %d bytes\n" % (struct.unpack_from("<I", made)[0], len(made))
        self.expect(["restore", "current", "wanted", name], 0, said, changed={name: made})

    def shows(self, current, wanted, lines):
        self.write("current", current)
        self.write("wanted", wanted)
        self.expect(["restore", "--show", "current", "wanted"], 0, lines)

    def refused(self, current, wanted, which, number):
        """Both ways; an old list stays."""
        self.write("current", current)
        self.write("wanted", wanted)
        said = "%s image refused, %d: %s\n" % (which, number, REFUSALS[number])
        self.expect(["restore", "current", "wanted", "list"], 1, said)
        self.expect(["restore", "--show", "current", "wanted"], 1, said)


def check_lists(check, seed):
    for _, current, wanted, text in LISTS:
        check.made(current, current if wanted is None else wanted, bytes.fromhex(text))
    for case in SHOWN:
        check.shows(*case)
    pairs = list(lists_cases.cases(lists_cases.GOOD, seed))
    rng = random.Random("lists %s" % seed)
    for _, first, second in rng.sample(pairs, 60):
        check.made(image_of(first), image_of(second), lists_model.list_of(first, second))
    for _, first, second in rng.sample(pairs, 60):
        check.shows(image_of(first), image_of(second), shown_lines(first, second))
    # every entry that can be another: all but the axis types
    second = [beside_default(place) if place in CHANGEABLE else data for place, data in enumerate(DEFAULTS)]
    lines = shown_lines(DEFAULTS, second)
    assert len(lines.splitlines()) == 605
    check.shows(DEFAULT, image_of(second), lines)
    check.shows(image_of(second), DEFAULT, shown_lines(second, DEFAULTS))
    check.made(DEFAULT, image_of(second), lists_model.list_of(DEFAULTS, second))


def check_reals(check, seed, count):
    """REAL32 by hand, at every power of two and beside it, and so many at random."""
    for bits, words in REAL_WORDS.items():
        assert real_words(bits) == words, "%08X is %s and not %s" % (bits, words, real_words(bits))
    rng = random.Random("reals %s" % seed)
    some = list(REAL_WORDS)
    some += [(exponent << 23) + beside for exponent in range(1, 255) for beside in (-1, 0, 1)]
    some += [struct.unpack("<I", struct.pack("<f", n / 10**k))[0] for k in range(6) for n in rng.sample(range(100000), 100)]
    some += [bits for bits in (rng.getrandbits(32) for _ in range(count)) if bits >> 23 & 0xFF < 255]
    for at in range(0, len(some), 2 * len(REALS)):
        first, second = list(DEFAULTS), list(DEFAULTS)
        for place, bits, other in zip(REALS, some[at::2], some[at + 1 :: 2]):
            first, second = with_bits(first, place, bits), with_bits(second, place, other)
        check.shows(image_of(first), image_of(second), shown_lines(first, second))
    return len(some)


def check_refusals(check, seed):
    check.write("list", b"an old list")
    for number, damaged in DAMAGED.items():
        check.refused(damaged, MOVED_POINTS, "current", number)
        check.refused(MOVED_POINTS, damaged, "wanted", number)
        check.refused(damaged, DAMAGED[8 - number], "current", number)
    # However long a file is, the first fault in it decides.
    check.refused(DEFAULT + bytes(1000000), DEFAULT, "current", 7)
    check.refused(DEFAULT, DEFAULT + DEFAULT, "wanted", 7)
    for number in (2, 3, 4, 5):
        check.refused(DEFAULT, DAMAGED[number] + bytes(1000000), "wanted", number)
    check.refused(DAMAGED[6] + b"\0", DEFAULT, "current", 7)
    pairs = list(lists_cases.cases(lists_cases.DAMAGED, seed))
    for _, current, wanted, _ in random.Random("refusals %s" % seed).sample(pairs, 40):
        told = lists_model.refusal_of(current, wanted)[0]
        if told:
            check.refused(current, wanted, *(("current", -told) if told > -10 else ("wanted", -told - 10)))


# --------------------------------------------------------------------------- Files


def check_words(check):
    check.expect([], 0, USES)
    for words in (["help"], ["--help"], [""], ["session", "more"], ["restor", "current", "wanted", "list"]):
        check.expect(words, 2, "", USES)
    for words in ("", "current", "current wanted", "current wanted list more", "--show", "--show current", "--show a b list"):
        check.expect(["restore", *words.split()], 1, "", USE)
    check.expect(["restore", "--shown", "current", "wanted"], 1, "", "--shown: No such file or directory\n")
    check.expect(["session"], 0, "4F01100000000000\n?\n", input=b"S 4001100000000000\nS\n")


def check_images(check):
    """Images that cannot be read; the first that cannot is told."""
    missing = "nobody: No such file or directory\n"
    check.expect(["restore", "nobody", "wanted", "list"], 1, "", missing)
    check.expect(["restore", "current", "nobody", "list"], 1, "", missing)
    check.expect(["restore", "nobody", "no one", "list"], 1, "", missing)
    check.expect(["restore", "--show", "current", "nobody"], 1, "", missing)
    check.expect(["restore", ".", "wanted", "list"], 1, "", ".: Is a directory\n")
    check.expect(["restore", "current/x", "wanted", "list"], 1, "", "current/x: Not a directory\n")
    check.expect(["restore", "", "wanted", "list"], 1, "", ": No such file or directory\n")
    check.expect(["restore", 4096 * "x", "wanted", "list"], 1, "", 4096 * "x" + ": File name too long\n")
    check.expect(["restore", 5000 * "x", "wanted", "list"], 1, "", "file name: File name too long\n")
    check.write("empty", b"")
    check.expect(["restore", "current", "empty", "list"], 1, "wanted image refused, 1: %s\n" % REFUSALS[1])
    check.expect(["restore", "/dev/zero", "wanted", "list"], 1, "current image refused, 2: %s\n" % REFUSALS[2])
    # A pipe is read piece by piece.
    words = ["restore", "--show", "/dev/stdin", "wanted"]
    check.expect(words, 0, input=DEFAULT)
    check.expect(words, 1, "current image refused, 7: %s\n" % REFUSALS[7], input=12 * DEFAULT)


def check_names(check):
    """Lists under any name; an old list is replaced whole."""
    check.write("list", 9000 * b"an old list")
    for name in ("list", "new", "-x", "--show", "two words", "*", "line\nend", "é", "folder/list", 250 * "n" + ".", "./list"):
        (check.folder / name).parent.mkdir(exist_ok=True)
        if len(name) < 200:
            check.made(DEFAULT, MIXED, bytes.fromhex(LISTS[4][3]), name)
        else:
            check.expect(["restore", "current", "wanted", name], 1, "", name + ": File name too long\n")
    check.write("-c", DEFAULT)
    check.expect(["restore", "-c", "two words", "list"], 1, "wanted image refused, 2: %s\n" % REFUSALS[2])
    mask = os.umask(0o027)
    (check.folder / "list").unlink()
    check.made(DEFAULT, MIXED, bytes.fromhex(LISTS[4][3]))
    os.umask(mask)
    assert (check.folder / "list").stat().st_mode & 0o777 == 0o640, "others than the umask says may read the list"


def check_unwritable(check):
    """Names that no list can have: an image, a link, or what is not a file."""
    check.write("current", DEFAULT)
    check.write("wanted", MIXED)
    (check.folder / "linked").symlink_to("wanted")
    os.link(check.folder / "current", check.folder / "same")
    for name in ("current", "./wanted", "linked", "same", str(check.folder / "current")):
        check.expect(["restore", "current", "wanted", name], 1, "", name + ": is one of the images\n")
    (check.folder / "to empty").symlink_to("empty")
    (check.folder / "to nothing").symlink_to("nobody")
    (check.folder / "to output").symlink_to("/proc/self/fd/1")
    for name in ("to empty", "to nothing", "to output"):
        check.expect(["restore", "current", "wanted", name], 1, "", name + ": is a link\n")
    os.mkfifo(check.folder / "pipe")
    for name in (".", "folder", "pipe"):
        check.expect(["restore", "current", "wanted", name], 1, "", name + ": is not a file\n")
    check.expect(["restore", "current", "wanted", "nowhere/list"], 1, "", "nowhere/list: No such file or directory\n")
    check.expect(["restore", "current", "wanted", "current/list"], 1, "", "current/list: Not a directory\n")
    check.expect(["restore", "current", "wanted", ""], 1, "", ": No such file or directory\n")
    check.expect(["restore", "current", "wanted", 4090 * "x"], 1, "", 4090 * "x" + ": File name too long\n")


def limited(size):
    return lambda: resource.setrlimit(resource.RLIMIT_FSIZE, (size, size))


def check_full(check):
    """No room for the list, from its first byte on and from a later one; an old list stays, and nothing beside it."""
    check.write("list", b"an old list")
    for size in (0, 1, 20):
        for name in ("list", "another"):
            words = ["restore", "current", "wanted", name]
            check.expect(words, 1, "", name + ": File too large\n", preexec_fn=limited(size))
    made = {"list": bytes.fromhex(LISTS[4][3])}
    check.expect(["restore", "current", "wanted", "list"], 0, "3 records, 32 bytes\n", "", made, preexec_fn=limited(32))
    with open("/dev/full", "wb") as full:
        for words in (["--show", "current", "wanted"], ["current", "wanted", "list"]):
            status, _, complained = check.run("restore", *words, stdout=full)
            assert status == 1 and complained, (words, status, complained)


def check_full_disk(check):
    """A file system with no room left, where one may be mounted; whether it may."""
    small = check.folder / "small"
    small.mkdir()
    script = """mount -t tmpfs -o size=4k tmpfs small && echo mounted && echo old >small/list || exit
        "$0" restore current wanted small/list 2>&1; echo $?; cat small/list; ls small"""
    said = ""
    if shutil.which("unshare"):
        command = ["unshare", "--map-root-user", "--mount", "sh", "-c", script, RUN]
        said = subprocess.run(command, cwd=check.folder, capture_output=True, text=True, timeout=SECONDS).stdout
    small.rmdir()
    if not said.startswith("mounted\n"):
        return False
    assert said == "mounted\nsmall/list: No space left on device\n1\nold\nlist\n", "a full disk: " + said
    return True


def opened_pipe(path, program):
    """The pipe's writing end, as soon as the program has opened it for reading."""
    for _ in range(100 * SECONDS):
        with contextlib.suppress(OSError):
            return os.open(path, os.O_WRONLY | os.O_NONBLOCK)
        assert program.poll() is None, "the command ended before it read"
        time.sleep(0.01)
    raise AssertionError("the command does not read")


def check_signals(check):
    """The command is ended while the images are read: it does not say that it worked, and the list is written whole."""
    os.mkfifo(check.folder / "fed")
    for number in (signal.SIGINT, signal.SIGTERM, signal.SIGHUP):
        (check.folder / "list").unlink()
        how = {"cwd": check.folder, "start_new_session": True, "stderr": subprocess.PIPE}
        how["preexec_fn"] = functools.partial(signal.signal, number, signal.SIG_DFL)  # it is ignored where this runs in the background
        ended = subprocess.Popen([RUN, "restore", "fed", "wanted", "list"], **how)
        pipe = opened_pipe(check.folder / "fed", ended)
        os.killpg(ended.pid, number)
        os.write(pipe, DEFAULT)
        os.close(pipe)
        complained = ended.stderr.read()  # to its end, which is the program's
        assert (ended.wait(SECONDS), complained) == (-number, b""), (number, ended.returncode, complained)
        assert (check.folder / "list").read_bytes() == bytes.fromhex(LISTS[4][3]), "signal %d: the list is not whole" % number
        assert not list(check.folder.glob("list.*")), "signal %d: a file is left beside the list" % number
        check.runs += 1


def check_broken(check):
    """A program that is missing, or that ends without saying that it is done."""
    with tempfile.TemporaryDirectory() as folder:
        program = pathlib.Path(folder, "crates", "restore", "out", "restore")
        starter = shutil.copy(RUN, folder)
        words = ["restore", "current", "wanted", "list"]
        check.expect(words, 1, "", "no %s: build it first, with 'rt run' in crates/restore\n" % program, program=starter)
        program.parent.mkdir(parents=True)
        program.write_bytes(b"no program")
        program.chmod(0o755)
        status, said, _ = check.run(*words, program=starter)
        assert (status, said) == (1, ""), "a program that cannot be started: %s" % ((status, said),)


def main(arguments):
    parser = argparse.ArgumentParser(description="the command for the yard")
    parser.add_argument("--seed", default="1")
    parser.add_argument("--reals", type=int, default=5000)
    asked = parser.parse_args(arguments)
    try:
        with tempfile.TemporaryDirectory() as folder:
            check = Check(pathlib.Path(folder).resolve())
            check_lists(check, asked.seed)
            reals = check_reals(check, asked.seed, asked.reals)
            check_refusals(check, asked.seed)
            check.made(DEFAULT, DEFAULT, bytes(4))
            for part in (check_words, check_images, check_names, check_unwritable, check_full, check_signals, check_broken):
                part(check)
            full = check_full_disk(check)
    except AssertionError as difference:
        print(difference)
        return 1
    print("%d runs of the command, %d REAL32: words, statuses and files as they must be" % (check.runs, reals))
    print("a full disk: " + ("the old list stays" if full else "only a limit on a file's size was tried, nothing may be mounted here"))
    return 0


if __name__ == "__main__":
    sys.exit(main(sys.argv[1:]))
