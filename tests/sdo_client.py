"""An SDO client that knows DS-301 and the paper's table of names, and nothing else.

It builds expedited frames from DS-301's bit fields, walks every name of document 01 with
good and bad requests, and checks each reply against what the paper says, and document 02 of
writes that do not tell their size and of the error list. It has its own table of names and its own memory of what
was accepted; it shares nothing with the model.

    python3 sdo_client.py PROGRAM

prints what was checked in one line, or the first difference, with exit status 1.
"""

import collections
import re
import sys

import program

# --------------------------------------------------------------------------- DS-301: bit fields
# Byte 0 of a request or a reply: the command specifier in bits 7 to 5, then, where data
# comes along, n in bits 3 and 2 (how many of the four data bytes hold none), e in bit 1
# (expedited) and s in bit 0 (size told). Bytes 1 and 2 are the index, low byte first,
# byte 3 the sub-index, bytes 4 to 7 the data, low byte first.

INITIATE_DOWNLOAD, INITIATE_UPLOAD = 1, 2  # client command specifiers
DOWNLOAD_DONE, UPLOAD_DONE = 3, 2  # server command specifiers
ABORT = 4


def command_byte(specifier, n=0, e=0, s=0):
    return specifier << 5 | n << 2 | e << 1 | s


def frame(command, index, sub, data):
    """The eight bytes; the data is filled up with zeros."""
    return bytes((command, index & 0xFF, index >> 8, sub)) + data + bytes(4 - len(data))


def download(index, sub, data):
    """A write of 1 to 4 bytes: expedited, size told."""
    return frame(command_byte(INITIATE_DOWNLOAD, n=4 - len(data), e=1, s=1), index, sub, data)


def download_untold(index, sub, data):
    """A write whose size is not told: expedited, s and therefore n 0. The entry's own bytes count, whatever stands behind them."""
    return frame(command_byte(INITIATE_DOWNLOAD, n=0, e=1, s=0), index, sub, data)


def upload(index, sub, data=b""):
    return frame(command_byte(INITIATE_UPLOAD), index, sub, data)


Reply = collections.namedtuple("Reply", "kind index sub size number")


def parsed(text):
    """A printed reply taken apart; None where it is no reply that DS-301 knows."""
    if text == b"-":
        return NO_REPLY
    if not re.fullmatch(rb"[0-9A-F]{16}", text):
        return None
    raw = bytes.fromhex(text.decode())
    specifier, n, e, s = raw[0] >> 5, raw[0] >> 2 & 3, raw[0] >> 1 & 1, raw[0] & 1
    index, sub, data = raw[1] | raw[2] << 8, raw[3], raw[4:]
    number = int.from_bytes(data, "little")
    if raw[0] & 0x10:  # bit 4 is reserved, always 0
        return None
    if specifier == UPLOAD_DONE and e and s:
        size = 4 - n
        # the bytes that hold no data are zeros, so the number is that of all four bytes
        return Reply("value", index, sub, size, number) if number < 256**size else None
    if n or e or s:
        return None
    if specifier == DOWNLOAD_DONE and number == 0:
        return Reply("written", index, sub, 0, 0)
    if specifier == ABORT:
        return Reply("abort", index, sub, 0, number)
    return None


NO_REPLY = Reply("no reply", 0, 0, 0, 0)


def told(reply):
    if reply is None:
        return "no SDO reply"
    if reply.kind == "no reply":
        return "no reply"
    name = "%04Xh:%d" % (reply.index, reply.sub)
    if reply.kind == "abort":
        return "abort %s %08Xh" % (name, reply.number)
    if reply.kind == "written":
        return "written %s" % name
    return "value %s %d bytes %0*Xh" % (name, reply.size, 2 * reply.size, reply.number)


# --------------------------------------------------------------------------- The paper's names
# Letters: z = 1..6, x = 1..2, y = 6..9. A name without subs is a VAR. Then the type, the
# lowest and the highest value, and the defaults: one for all subs, or one for each.

CONFIGURATION = """
2502:1-12  u8   0       3      0
2520:1-12  i16  -32768  32767  0
2522:1-12  i16  -32768  32767  1000
6132:1-4   u8   0       3      0
7120:1-4   i16  -32768  32767  500
7121:1-4   i16  -32768  32767  0
7122:1-4   i16  -32768  32767  4500
7123:1-4   i16  -32768  32767  1000
7148:1-4   i16  -32768  32767  0
7149:1-4   i16  -32768  32767  5000
2110:1-4   u8   0       1      1
2111:1-4   i16  0       32767  100
2112:1-4   u16  0       60000  1000
30z0       u8   0       6      0
30z1       u8   0       15     0
30z2       u8   0       3      0
30z3       u8   0       3      0
30z4:1-1   u8   0       0      0
30z4:2-11  u8   0       2      1
30z5:1-11  i16  -32768  32767  0 100 200 300 400 500 600 700 800 900 1000
30z6:1-11  i16  -32768  32767  0 100 200 300 400 500 600 700 800 900 1000
4000:1-2   u8   0       1      0
4101:1-3   u8   1       6      1 2 3
4201:1-3   u8   1       6      4 5 6
4x02:1-3   u8   0       4      1 1 0
4500:1-4   u8   0       1      0
4521:1-4   i16  -32768  32767  0
4523:1-4   i16  -32768  32767  1000
4532:1-4   u8   0       3      0
4y00:1-4   u8   0       6      0
4y01:1-4   u8   0       15     0
4y02:1-4   u8   0       3      0
4y20:1-4   i16  -32768  32767  0
4y22:1-4   i16  -32768  32767  1000
4y40:1-4   i16  -100    100    100
4y50:1-3   u8   0       5      0
5010:3-15  real 0       0      0
6302:1-4   u8   0       3      0
7320:1-4   i16  -32768  32767  0
7322:1-4   i16  -32768  32767  1000
7321:1-4   i16  0       2500   0
7323:1-4   i16  0       2500   1500
6340:1-4   u8   0       1      1
7341:1-4   i16  0       2500   0
2300:1-4   i16  0       2500   2000
2330:1-4   u16  0       60000  1000
2331:1-4   u16  0       60000  1000
2340:1-4   u8   0       6      0
2341:1-4   u8   0       15     0
2350:1-4   u8   0       6      0
2351:1-4   u8   0       15     0
2352:1-4   u8   0       1      0
2360:1-4   u8   0       6      0
2361:1-4   u8   0       15     0
2362:1-4   u8   0       1      0
"""

# 4x11h-13h, 21h-23h, 31h-33h: source, number, source, number, comparison
CONDITIONS = "11 12 13 21 22 23 31 32 33"
CONDITION = """
4x{c}:1-1  u8   0       6      0
4x{c}:2-2  u8   0       15     0
4x{c}:3-3  u8   0       6      0
4x{c}:4-4  u8   0       15     0
4x{c}:5-5  u8   0       5      0
"""

EC_VALUES = """
2500:1-12  i16  -32768  32767  0
"""

# Document 02 (viii): the number kept, which can be written; the list itself can only be read.
ERRORS_KEPT = """
1003       u8   0       0      0
"""

ERRORS = """
1003:1-8   u32  0       4294967295 0
"""

# 5010h:2 is 1.0, whose REAL32 pattern is 3F800000h.
READ_ONLY = """
1001       u8   0       255    0
7100:1-4   i16  -32768  32767  0
7130:1-4   i16  -32768  32767  0
30z7       i16  -32768  32767  0
4010:1-2   u8   0       255    0
4020:1-2   i16  -32768  32767  0
4530:1-4   real 0       0      0
7330:1-4   i16  -32768  32767  0
5010:1-2   real 0       0      0 1065353216
"""

# Each line one chain, lowest first; the names have their subs in common.
CHAINS = """
7148 <= 7120 < 7122 <= 7149
2520 < 2522
4y20 < 4y22
4521 < 4523
7320 < 7322
7321 < 7323
"""

SIZES = {"u8": 1, "u16": 2, "u32": 4, "i16": 2, "real": 4}
LETTERS = {"z": "123456", "x": "12", "y": "6789"}


class Name:
    """One index and sub. A REAL32 is kept as its 32 bits, so that nothing here rounds."""

    def __init__(self, index, sub, type, low, high, default, writable):
        self.index, self.sub, self.type, self.size = index, sub, type, SIZES[type]
        self.low, self.high, self.default = low, high, default
        self.writable = writable
        self.held = default
        self.below = self.above = None  # (name, gap)

    def type_range(self):
        """What the type's bytes can hold."""
        bits = 8 * self.size
        return (-(2 ** (bits - 1)), 2 ** (bits - 1) - 1) if self.type == "i16" else (0, 2**bits - 1)

    def bytes_of(self, value):
        return (value % 256**self.size).to_bytes(self.size, "little")

    def value_of(self, data):
        return int.from_bytes(data, "little", signed=self.type == "i16")


def spelled(text):
    """30z5 -> 3015 3025 .. for the letter in it, if any."""
    for letter, digits in LETTERS.items():
        if letter in text:
            return [int(text.replace(letter, digit), 16) for digit in digits]
    return [int(text, 16)]


def names_of(rows, writable):
    for row in rows.strip().splitlines():
        name, type, low, high, *defaults = row.split()
        text, _, subs = name.partition(":")
        first, last = (int(sub) for sub in subs.split("-")) if subs else (0, 0)
        for index in spelled(text):
            for sub in range(first, last + 1):
                default = int(defaults[0] if len(defaults) == 1 else defaults[sub - first])
                yield Name(index, sub, type, int(low), int(high), default, writable)


class Paper:
    """All names, with the arrays' sub 0 and the chains."""

    def __init__(self):
        conditions = "".join(CONDITION.replace("{c}", c) for c in CONDITIONS.split()).replace("\n\n", "\n")
        self.configuration = list(names_of(CONFIGURATION, True)) + list(names_of(conditions, True))
        self.others = list(names_of(EC_VALUES, True)) + list(names_of(READ_ONLY, False))
        self.others += list(names_of(ERRORS_KEPT, True)) + list(names_of(ERRORS, False))
        self.names = {(n.index, n.sub): n for n in self.configuration + self.others}
        self.indexes = collections.defaultdict(list)
        for name in self.configuration + self.others:
            self.indexes[name.index].append(name)
        self.subs_zero = [self._sub_zero(index) for index, row in self.indexes.items() if row[0].sub]
        self.names.update({(n.index, 0): n for n in self.subs_zero})
        self._chain_points()
        self._chain_lines()

    def _sub_zero(self, index):
        """ "For an ARRAY, sub 0 is the largest sub-index (UNSIGNED8, read only)." """
        largest = max(name.sub for name in self.indexes[index])
        return Name(index, 0, "u8", 0, 255, largest, False)

    def _chain_points(self):
        """ "30z5h:1 <= :2 <= .. <= :11" """
        for index in spelled("30z5"):
            for sub in range(1, 11):
                self._link(index, sub, "<=", index, sub + 1)

    def _chain_lines(self):
        for row in CHAINS.strip().splitlines():
            words = row.split()
            for lower, sign, upper in zip(words[0::2], words[1::2], words[2::2]):
                for low_index, high_index in zip(spelled(lower), spelled(upper)):
                    for name in self.indexes[low_index]:
                        self._link(low_index, name.sub, sign, high_index, name.sub)

    def _link(self, low_index, low_sub, sign, high_index, high_sub):
        lower, upper = self.names[low_index, low_sub], self.names[high_index, high_sub]
        gap = 1 if sign == "<" else 0
        lower.above, upper.below = (upper, gap), (lower, gap)


# --------------------------------------------------------------------------- What the paper answers

CODES = {
    "command": 0x05040001,
    "index": 0x06020000,
    "sub": 0x06090011,
    "read only": 0x06010002,
    "longer": 0x06070012,
    "shorter": 0x06070013,
    "not finite": 0x06090030,
    "not 0": 0x06090030,
    "above": 0x06090031,
    "below": 0x06090032,
}
DOWNLOAD_COMMANDS = {command_byte(INITIATE_DOWNLOAD, 4 - size, 1, 1): size for size in (1, 2, 3, 4)}
UNTOLD = command_byte(INITIATE_DOWNLOAD, n=0, e=1, s=0)


def reason_against(name, data):
    """Why a write of these bytes to a known name is refused, in the paper's order; None if it is good."""
    if not name.writable:
        return "read only"
    if len(data) != name.size:
        return "longer" if len(data) > name.size else "shorter"
    value = name.value_of(data)
    if name.index == 0x1003:  # "another value at sub 0 gives 06090030h, after order 6"
        return "not 0" if value else None
    if name.type == "real":  # an exponent of all ones is an infinity or no number
        return "not finite" if value >> 23 & 0xFF == 0xFF else None
    if not name.low <= value <= name.high:
        return "above" if value > name.high else "below"
    if name.above and not value + name.above[1] <= name.above[0].held:
        return "above"
    if name.below and not name.below[0].held + name.below[1] <= value:
        return "below"
    return None


class Client:
    """Collects requests with the reply that the paper asks for, in the order they are sent."""

    def __init__(self):
        self.paper = Paper()
        self.lines = []
        self.expected = []
        self.flagged = set()
        self.counts = collections.Counter()

    def request(self, raw):
        """Send eight bytes, any eight; remember what must come back."""
        reply = self.reply_to(raw)
        self.lines.append(b"S " + raw.hex().upper().encode())
        self.expected.append(reply)
        self.counts[reply.kind] += 1

    def reply_to(self, raw):
        command, index, sub = raw[0], raw[1] | raw[2] << 8, raw[3]
        if command >> 5 == ABORT and command == command_byte(ABORT):
            return NO_REPLY
        reading = command == command_byte(INITIATE_UPLOAD)
        if not reading and command != UNTOLD and command not in DOWNLOAD_COMMANDS:
            return Reply("abort", index, sub, 0, CODES["command"])
        if index not in self.paper.indexes:
            return Reply("abort", index, sub, 0, CODES["index"])
        name = self.paper.names.get((index, sub))
        if name is None or index == 0x1003 and sub > self.paper.names[0x1003, 0].held:
            return Reply("abort", index, sub, 0, CODES["sub"])
        if reading:
            return Reply("value", index, sub, name.size, int.from_bytes(name.bytes_of(name.held), "little"))
        data = raw[4 : 4 + (name.size if command == UNTOLD else DOWNLOAD_COMMANDS[command])]
        reason = reason_against(name, data)
        if reason:
            return Reply("abort", index, sub, 0, CODES[reason])
        name.held = name.value_of(data)
        return Reply("written", index, sub, 0, 0)

    def read(self, name):
        self.request(upload(name.index, name.sub))

    def write(self, name, value):
        """Where the type can hold the value; then read what the unit has."""
        lowest, highest = name.type_range()
        if lowest <= value <= highest:
            self.request(download(name.index, name.sub, name.bytes_of(value)))
            self.read(name)

    def every_name(self):
        return [self.paper.names[key] for key in sorted(self.paper.names)]

    # -- the walk

    def as_delivered(self):
        for name in self.every_name():
            self.read(name)

    def ends_of_ranges(self):
        for name in self.every_name():
            if name.type == "real":
                continue
            for value in (name.low, name.high, name.low - 1, name.high + 1, name.default):
                self.write(name, value)

    def constants(self):
        patterns = (
            0x80000000, 0x00000001, 0x807FFFFF, 0x00800000, 0x7F7FFFFF, 0xFF7FFFFF, 0x40200000, 0x3F800000,
            0x7F800000, 0xFF800000, 0x7F800001, 0x7FC00000, 0xFFFFFFFF, 0x7FBFFFFF, 0xFFA00000, 0x00000000,
        )  # fmt: skip
        for name in self.every_name():
            if name.type == "real":
                for pattern in patterns:
                    self.write(name, pattern)

    def wrong_sizes(self):
        """Every name, sub 0 and read-only ones too, with 1, 2, 3 and 4 bytes, low and all ones."""
        for name in self.every_name():
            for size in (1, 2, 3, 4):
                for data in (bytes(size), b"\xff" * size):
                    self.request(download(name.index, name.sub, data))
            self.restore(name)

    def sizes_not_told(self):
        """Every name, sub 0 and read-only ones too, by 22h: its ends and a step beyond, something behind its own bytes."""
        for name in self.every_name():
            lowest, highest = name.type_range()
            values = (name.low, name.high, name.low - 1, name.high + 1, 0x7F7FFFFF, 0x7F800000, name.default)
            for value in values:
                if lowest <= value <= highest:
                    for junk in (b"\x00\x00\x00", b"\xee\xdd\xcc"):
                        self.request(download_untold(name.index, name.sub, (name.bytes_of(value) + junk)[:4]))
                    self.read(name)
            self.restore(name)

    def every_sub(self):
        for index in sorted(self.paper.indexes):
            for sub in range(256):
                self.request(upload(index, sub))
                if (index, sub) not in self.paper.names:
                    self.request(download(index, sub, b"\x00\x00"))
                    self.request(download_untold(index, sub, b"\x00\x00"))

    def every_index(self):
        for index in range(65536):
            self.request(upload(index, 0))
            if index not in self.paper.indexes and index % 5 == 0:
                self.request(download(index, 1, b"\x00"))
                self.request(download_untold(index, 1, b"\x00"))

    def every_command(self):
        for command in range(256):
            for index, sub in ((0x2110, 1), (0x5010, 3), (0x1001, 0), (0x3015, 0), (0x3015, 12), (0x1000, 0), (0x0000, 255)):
                self.request(frame(command, index, sub, b"\x01\x00\x00\x00"))
            for index, sub in ((0x2110, 1), (0x5010, 3)):
                self.restore(self.paper.names[index, sub])

    def unused_bytes(self):
        """ "Unused data bytes of a write are ignored", and those of a read too."""
        for name in self.every_name():
            self.request(upload(name.index, name.sub, b"\xa5\x5a\xff\x01"))
            if name.writable and name.size < 4:
                raw = download(name.index, name.sub, name.bytes_of(name.default))
                self.request(raw[: 4 + name.size] + b"\xee\xdd\xcc"[: 4 - name.size])
                self.read(name)

    def chains(self):
        """Each chain: its members against their neighbours, then all of it up and down again."""
        for name in self.every_name():
            for neighbour in (name.above, name.below):
                if neighbour:
                    for step in (-2, -1, 0, 1, 2):
                        self.write(name, neighbour[0].held + step)
                        self.request(download_untold(name.index, name.sub, name.bytes_of(neighbour[0].held + step)))
                    self.restore(name)
        for lowest in self.every_name():
            if lowest.above and not lowest.below:
                self.up_and_down(lowest)

    def up_and_down(self, lowest):
        members = [lowest]
        while members[-1].above:
            members.append(members[-1].above[0])
        # as far as the topmost member's own range lets the whole chain go, 500 at most
        way = min(500, members[-1].high - members[-1].held)
        for name in members[:-1]:  # the order that is refused: the lowest first, past its neighbour
            self.write(name, name.above[0].held - name.above[1] + 1)
        for name in reversed(members):
            self.write(name, name.held + way)
        for name in reversed(members[1:]):  # refused too: the topmost first, past its neighbour
            self.write(name, name.below[0].held + name.below[1] - 1)
        for name in members:
            self.write(name, name.held - way)

    def tick(self, flagged):
        """A tick with these inputs above their span, the others inside; each new flagging must enter the list."""
        errors = [self.paper.names[0x1003, sub] for sub in range(9)]
        for n in sorted(flagged - self.flagged):
            for newer, older in zip(errors[7:0:-1], errors[8:1:-1]):
                older.held = newer.held
            errors[1].held = n * 0x10000 + 0xFF00
            errors[0].held = min(8, errors[0].held + 1)
        self.flagged = flagged
        self.lines.append(b"T %d %d %d %d" % tuple(5001 if n in flagged else 2500 for n in (1, 2, 3, 4)))
        self.expected.append(b"O 0 0 0 0 21" if flagged else b"O 0 0 0 0 00")

    def error_list(self):
        """Flaggings alone and together, ten in all; every sub read and written after each, then cleared under the flag."""
        delays = [self.paper.names[0x2112, n] for n in (1, 2, 3, 4)]
        names = [self.paper.names[0x1003, sub] for sub in range(9)]
        for name in delays:
            self.write(name, 0)
        for flagged in ({2}, {2, 3}, set(), {1, 2, 3, 4}, set(), {4}, {4}, {1, 4}, set(), {3}):
            self.tick(flagged)
            for name in names:
                self.read(name)
                self.request(download(name.index, name.sub, b"\x01"))
                self.request(download(name.index, name.sub, bytes(4)))
                self.request(download_untold(name.index, name.sub, b"\xff\x00\x00\x00"))
            self.request(upload(0x1001, 0))  # 1001h is another name: what it holds is not kept here, a flag is
            self.expected[-1] = Reply("value", 0x1001, 0, 1, 0x21 if flagged else 0)
        self.write(names[0], 0)
        for flagged in ({3}, set()):
            self.tick(flagged)
            for name in names:
                self.read(name)
                self.request(download(name.index, name.sub, bytes(4)))
        for name in names[1:]:  # what nobody can read is as delivered
            name.held = name.default
        for name in delays:
            self.restore(name)

    def restore(self, name):
        if name.writable:
            self.write(name, name.default)

    def ticks_leave_settings(self):
        """All is as delivered again: no output has a control, so the commands stay 0."""
        assert all(name.held == name.default for name in self.paper.names.values())
        for _ in range(3):
            self.lines.append(b"T 2500 2500 2500 2500")
            self.expected.append(b"O 0 0 0 0 00")
        for name in self.paper.configuration:
            self.read(name)

    def walk(self):
        for part in (
            self.as_delivered,
            self.ends_of_ranges,
            self.constants,
            self.wrong_sizes,
            self.sizes_not_told,
            self.every_sub,
            self.every_index,
            self.every_command,
            self.unused_bytes,
            self.chains,
            self.as_delivered,
            self.error_list,
            self.ticks_leave_settings,
        ):
            part()


# --------------------------------------------------------------------------- Running it


def first_difference(client, printed):
    """The place of the first reply that is not as expected, with what came; None where all are."""
    came = printed.split(b"\n")
    for place, expected in enumerate(client.expected):
        text = came[place] if place < len(came) else b""
        good = text == expected if isinstance(expected, bytes) else parsed(text) == expected
        if not good:
            return place, text
    if came[len(client.expected) :] != [b""]:
        return len(client.expected), b"more lines than were asked for"
    return None


def check(path):
    """Run the program at this path through the walk: (all as expected, what to say)."""
    client = Client()
    client.walk()
    printed, status = program.run(path, b"".join(line + b"\n" for line in client.lines))
    difference = first_difference(client, printed)
    if difference:
        place, text = difference
        sent = client.lines[place].decode() if place < len(client.lines) else "(nothing)"
        wanted = client.expected[place] if place < len(client.expected) else b"nothing"
        if not isinstance(wanted, bytes):
            wanted, text = told(wanted), "%s (%s)" % (told(parsed(text)), text.decode("ascii", "backslashreplace"))
        return False, "line %d: sent     %s\nexpected %s\ncame     %s" % (place + 1, sent, wanted, text)
    if status != 0:
        return False, "all replies as expected, but the exit status is %d" % status
    counts = client.counts
    return True, "%d frames checked over %d names: %d values, %d writes taken, %d aborts, %d without a reply" % (
        len(client.expected),
        len(client.paper.names),
        counts["value"],
        counts["written"],
        counts["abort"],
        counts["no reply"],
    )


def main(arguments):
    if len(arguments) != 1:
        print(__doc__)
        return 2
    good, text = check(arguments[0])
    print(text)
    return 0 if good else 1


if __name__ == "__main__":
    sys.exit(main(sys.argv[1:]))
