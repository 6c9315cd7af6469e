"""The electronic data sheet against its maker, CiA 306's layout, the model and the running program.

The sheet is read with an ini parser. Every name that it lists is walked by SDO on fresh units:
default, size, access, both limits, wrong sizes; then every name that it does not list.

    python3 eds.py PROGRAM

prints what was checked, a line for each part, or the first differences, with exit status 1.
"""

import configparser
import pathlib
import re
import struct
import subprocess
import sys

import model
import program
import sdo_client
from sdo_client import Reply, download, upload

EDS = pathlib.Path(__file__).resolve().parent.parent / "eds"
SHEET = EDS / "valve-controller.eds"


class Fault(Exception):
    """What is wrong with the sheet."""


def demand(holds, text):
    if not holds:
        raise Fault(text)


# --------------------------------------------------------------------------- CiA 306: layout

FILE_INFO = {
    "FileName": re.escape(SHEET.name),
    "FileVersion": r"\d+",
    "FileRevision": r"\d+",
    "EDSVersion": r"4\.0",
    "Description": r".+",
    "CreatedBy": r".+",
    "ModifiedBy": r".+",
    "CreationTime": r"(0[1-9]|1[0-2]):[0-5]\d(AM|PM)",
    "ModificationTime": r"(0[1-9]|1[0-2]):[0-5]\d(AM|PM)",
    "CreationDate": r"(0[1-9]|1[0-2])-(0[1-9]|[12]\d|3[01])-\d{4}",
    "ModificationDate": r"(0[1-9]|1[0-2])-(0[1-9]|[12]\d|3[01])-\d{4}",
}
# Nobody here knows these, so they are empty or 0; only the product has a name.
DEVICE_INFO = dict.fromkeys(("VendorName", "OrderCode"), "") | {"ProductName": ".+"}
DEVICE_INFO |= dict.fromkeys(("VendorNumber", "ProductNumber", "RevisionNumber"), "0")
DEVICE_INFO |= {"BaudRate_%d" % rate: "0" for rate in (10, 20, 50, 125, 250, 500, 800, 1000)}
DEVICE_INFO |= dict.fromkeys(("SimpleBootUpMaster", "SimpleBootUpSlave", "Granularity", "DynamicChannelsSupported"), "0")
DEVICE_INFO |= dict.fromkeys(("GroupMessaging", "NrOfRXPDO", "NrOfTXPDO", "LSS_Supported"), "0")
DUMMY_USAGE = {"Dummy%04d" % number: "0" for number in range(1, 8)}

NUMBER = r"-?(0|[1-9]\d*)"
REAL = NUMBER + r"(\.\d+)?(e[+-]\d+)?"
VALUE = {
    "ParameterName": r"[A-Z][A-Za-z0-9 ,()-]{0,240}",
    "ObjectType": "0x7",
    "DataType": r"0x[0-9A-F]{4}",
    "LowLimit": REAL,
    "HighLimit": REAL,
    "AccessType": "ro|rw",
    "DefaultValue": REAL,
    "PDOMapping": "0",  # PDO are left to others
}
SUBS = ["sub%X" % sub for sub in range(255)]
ARRAY = {"ParameterName": VALUE["ParameterName"], "ObjectType": "0x8", "SubNumber": r"\d+"}

MANDATORY = (0x1000, 0x1001, 0x1018)
LISTS = {
    "MandatoryObjects": lambda index: index in MANDATORY,
    "OptionalObjects": lambda index: index not in MANDATORY and (0x1000 <= index < 0x2000 or index >= 0x6000),
    "ManufacturerObjects": lambda index: 0x2000 <= index < 0x6000,
}

TYPES = {0x0003: model.INTEGER16, 0x0005: model.UNSIGNED8, 0x0006: model.UNSIGNED16, 0x0007: model.UNSIGNED32, 0x0008: model.REAL32}
ERRORS = 0x1003  # its sub 0 is no largest sub: how many errors are kept, and 0 clears them; a fresh unit keeps none
LARGEST_REAL32 = struct.unpack("<f", b"\xff\xff\x7f\x7f")[0]


class Entry:
    """One name, as its section tells it."""

    def __init__(self, index, sub, section):
        self.index, self.sub = index, sub
        self.type = TYPES.get(int(section["DataType"], 16))
        demand(self.type, "%r: type %s" % (self, section["DataType"]))
        self.writable = section["AccessType"] == "rw"
        self.low, self.high, self.default = (self._number(section[key]) for key in ("LowLimit", "HighLimit", "DefaultValue"))
        demand(self.low <= self.default <= self.high, "%r: default outside the limits" % self)
        lowest, highest = self.type_range()
        demand(lowest <= self.low and self.high <= highest, "%r: limits outside the type" % self)
        whole, fixed = (self.low, self.high) == (lowest, highest), self.low == self.high
        demand(self.writable or whole or fixed, "%r can only be read: its limits are the type's, or its value" % self)

    def __repr__(self):
        return "%04Xh:%d" % (self.index, self.sub)

    def _number(self, text):
        if self.type is model.REAL32:
            return float(text)
        demand(re.fullmatch(NUMBER, text), "%r: %s is no whole number" % (self, text))
        return int(text)

    def type_range(self):
        """All that the type holds; of a REAL32, all that is finite."""
        return (-LARGEST_REAL32, LARGEST_REAL32) if self.type is model.REAL32 else (self.type.low, self.type.high)

    def bytes_of(self, value):
        return self.type.form.pack(value)

    def holds(self, value):
        return self.type.low <= value <= self.type.high


def fits(title, section, layout):
    """The section has the layout's keys, each with a value of its form."""
    demand(set(section) == set(layout), "[%s]: keys %s" % (title, sorted(set(section) ^ set(layout))))
    for key, form in layout.items():
        demand(re.fullmatch(form, section[key]), "[%s]: %s=%s" % (title, key, section[key]))


# A head, a key with its value, or nothing; ASCII, no spaces at the ends, and no ";", with which some readers begin a comment.
LINE = re.compile(rb"(\[\w+\]|\w+=([!-:<-~]([ -:<-~]*[!-:<-~])?)?)?", re.ASCII)


def sections_of(data):
    """The file's sections, by an ini parser that refuses what stands twice."""
    lines = data.split(b"\r\n")
    demand(lines.pop() == b"", "the last line has no end")
    for line in lines:
        demand(len(line) <= 255 and LINE.fullmatch(line), "line %r" % line)
    parser = configparser.RawConfigParser(delimiters="=", comment_prefixes=None, default_section="", strict=True)
    parser.optionxform = str
    try:
        parser.read_string(data.decode("ascii"))
    except configparser.Error as error:
        raise Fault(str(error)) from error
    return {title: dict(parser.items(title)) for title in parser.sections()}


class Sheet:
    """The names that the file lists; a Fault where it is not laid out as CiA 306 has it."""

    def __init__(self, data):
        self.sections = sections_of(data)
        for title, layout in (("FileInfo", FILE_INFO), ("DeviceInfo", DEVICE_INFO), ("DummyUsage", DUMMY_USAGE)):
            fits(title, self._taken(title), layout)
        self.comments = self._numbered("Comments", "Lines", "Line%d")
        self.indexes = [index for title, kept in LISTS.items() for index in self._listed(title, kept)]
        self.entries = {}  # (index, sub) -> Entry
        self.called = []
        for index in self.indexes:
            self._object(index)
        demand(not self.sections, "not listed: %s" % sorted(self.sections))
        demand(len(set(self.called)) == len(self.called), "a name is given twice")
        for left_out in (0x1000, 0x1018):
            said = any("%04Xh" % left_out in line for line in self.comments)
            demand(said and left_out not in self.indexes, "%04Xh is left to others, and said to be" % left_out)

    def _taken(self, title):
        demand(title in self.sections, "no section [%s]" % title)
        return self.sections.pop(title)

    def _numbered(self, title, count, key):
        """The values of a section that counts its keys from 1."""
        section = self._taken(title)
        keys = [key % number for number in range(1, len(section))]
        demand(list(section) == [count] + keys, "[%s]: keys are not counted from 1" % title)
        demand(section[count] == str(len(keys)), "[%s]: %s=%s" % (title, count, section[count]))
        return [section[key] for key in keys]

    def _listed(self, title, kept):
        texts = self._numbered(title, "SupportedObjects", "%d")
        demand(all(re.fullmatch(r"0x[0-9A-F]{4}", text) for text in texts), "[%s]: an index" % title)
        indexes = [int(text, 16) for text in texts]
        demand(indexes == sorted(set(indexes)) and all(map(kept, indexes)), "[%s]: not ascending, or not of this list" % title)
        return indexes

    def _object(self, index):
        title = "%04X" % index
        section = self._taken(title)
        if section.get("ObjectType") == VALUE["ObjectType"]:
            return self._value(index, 0, title, section)
        fits(title, section, ARRAY)
        self.called.append(section["ParameterName"])
        subs = [sub for sub, number in enumerate(SUBS) if title + number in self.sections]
        demand(int(section["SubNumber"]) == len(subs), "[%s]: SubNumber=%s" % (title, section["SubNumber"]))
        demand(subs[:1] == [0], "[%s]: no sub 0" % title)
        for sub in subs:
            self._value(index, sub, title + SUBS[sub], self._taken(title + SUBS[sub]))
        largest = self.entries[index, 0]
        if index == ERRORS:
            demand(largest.type is model.UNSIGNED8 and largest.writable, "[%ssub0]: not an UNSIGNED8 that can be written" % title)
            return
        demand(largest.type is model.UNSIGNED8 and not largest.writable, "[%ssub0]: not a read-only UNSIGNED8" % title)
        demand(largest.low == largest.default == largest.high == subs[-1], "[%ssub0]: not the largest sub" % title)

    def _value(self, index, sub, title, section):
        fits(title, section, VALUE)
        self.called.append(section["ParameterName"])
        self.entries[index, sub] = Entry(index, sub, section)


# --------------------------------------------------------------------------- Maker and model


def check_maker(data):
    """The stored file is what its maker writes."""
    made = subprocess.run([sys.executable, EDS / "make.py"], stdout=subprocess.PIPE, check=True).stdout
    demand(made == data, "the stored sheet is not what eds/make.py writes")


def check_model(sheet):
    """What SDO cannot show: the sign of what can only be read, and a limit that a chain never lets through."""
    names = model.Dictionary().objects
    known = {(index, sub) for index, subs in names.items() for sub in subs}
    demand(set(sheet.entries) == known, "other names than the model: %s" % sorted(set(sheet.entries) ^ known))
    for (index, sub), entry in sheet.entries.items():
        right = names[index][sub]
        same = (entry.type, entry.default, entry.writable) == (right.type, right.default, right.writable)
        demand(same, "%r: type, default or access is not the model's" % entry)
        if entry.writable:
            low, high = entry.type_range() if entry.type is model.REAL32 else (right.low, right.high)
            demand((entry.low, entry.high) == (low, high), "%r: limits are not the model's" % entry)


# --------------------------------------------------------------------------- The walk: requests, each with the reply it must have


def number_of(data):
    return int.from_bytes(data, "little")


def reading(entry, value):
    return upload(entry.index, entry.sub), Reply("value", entry.index, entry.sub, entry.type.size, number_of(entry.bytes_of(value)))


def writing(entry, data):
    return download(entry.index, entry.sub, data), Reply("written", entry.index, entry.sub, 0, 0)


def refused(frame, index, sub, reason):
    return frame, Reply("abort", index, sub, 0, sdo_client.CODES[reason])


def refused_write(entry, data, reason):
    return refused(download(entry.index, entry.sub, data), entry.index, entry.sub, reason)


def is_error(entry):
    return entry.index == ERRORS and entry.sub > 0


def defaults(sheet):
    for entry in sheet.entries.values():
        yield refused(upload(entry.index, entry.sub), entry.index, entry.sub, "sub") if is_error(entry) else reading(entry, entry.default)


def access(sheet):
    for entry in sheet.entries.values():
        data = entry.bytes_of(entry.default)
        yield writing(entry, data) if entry.writable else refused_write(entry, data, "sub" if is_error(entry) else "read only")


def sizes(sheet):
    """A write of any other size than the type's."""
    for entry in sheet.entries.values():
        for size in {1, 2, 3, 4} - {entry.type.size}:
            if entry.writable:
                yield refused_write(entry, bytes(size), "longer" if size > entry.type.size else "shorter")


def limits(sheet):
    for chain in chains(sheet):
        yield from low_limits(chain)
        yield from high_limits(chain)
    for entry in sheet.entries.values():
        if entry.writable and entry.type is model.REAL32:
            yield from real_limits(entry)


def clearing(sheet):
    """1003h:0 takes what is between its limits, and no other value."""
    kept = sheet.entries[ERRORS, 0]
    for value in range(256):
        data = kept.bytes_of(value)
        yield writing(kept, data) if kept.low <= value <= kept.high else refused_write(kept, data, "not 0")


def chains(sheet):
    """The paper's chains as lists of (entry, gap to the one below), lowest first; an entry in none is a chain of its own."""
    paper = sdo_client.Paper().names
    whole = [key for key, entry in sheet.entries.items() if entry.writable and entry.type is not model.REAL32 and entry.index != ERRORS]
    for key in whole:
        if key in paper and paper[key].below:
            continue
        chain, name = [(sheet.entries[key], 0)], paper.get(key)
        while name and name.above and (name.above[0].index, name.above[0].sub) in whole:
            name, gap = name.above
            chain.append((sheet.entries[name.index, name.sub], gap))
        yield chain


def low_limits(chain):
    """Each entry as low as it goes, the lowest first: those below it are then out of its way, or at their own limit."""
    floor = chain[0][0].low
    for entry, gap in chain:
        floor = max(entry.low, floor + gap)
        for value in {entry.type.low, entry.low - 1, floor - 1}:
            if value < floor and entry.holds(value):
                yield refused_write(entry, entry.bytes_of(value), "below")
        yield writing(entry, entry.bytes_of(floor))
        yield reading(entry, floor)


def high_limits(chain):
    ceiling, gap = chain[-1][0].high, 0
    for entry, gap_below in reversed(chain):
        ceiling = min(entry.high, ceiling - gap)
        for value in {entry.type.high, entry.high + 1, ceiling + 1}:
            if value > ceiling and entry.holds(value):
                yield refused_write(entry, entry.bytes_of(value), "above")
        yield writing(entry, entry.bytes_of(ceiling))
        yield reading(entry, ceiling)
        gap = gap_below


def real_limits(entry):
    """ "REAL32, finite": the pattern after the largest finite one is an infinity."""
    for value in (entry.low, entry.high):
        data = entry.bytes_of(value)
        yield writing(entry, data)
        yield refused_write(entry, (number_of(data) + 1).to_bytes(4, "little"), "not finite")
        yield reading(entry, value)


def other_subs(sheet):
    """Every sub that a listed object does not have."""
    for index in sheet.indexes:
        for sub in range(256):
            if (index, sub) not in sheet.entries:
                yield refused(upload(index, sub), index, sub, "sub")
                yield refused(download(index, sub, b"\0"), index, sub, "sub")


def other_indexes(sheet):
    """Every index that is not listed."""
    for index in sorted(set(range(65536)) - set(sheet.indexes)):
        yield refused(upload(index, 0), index, 0, "index")
        yield refused(download(index, 1, b"\0"), index, 1, "index")


WALK = (defaults, access, sizes, limits, clearing, other_subs, other_indexes)


def walked(path, requests):
    """The requests played on a fresh unit: a line for each reply that is another than it must be."""
    lines = b"".join(b"S " + frame.hex().upper().encode() + b"\n" for frame, _ in requests)
    printed, status = program.run(path, lines)
    replies = printed.splitlines()
    if status or len(replies) != len(requests):
        return ["status %d, %d replies to %d requests" % (status, len(replies), len(requests))]
    differences = []
    for (frame, must), text in zip(requests, replies):
        reply = sdo_client.parsed(text)
        if reply != must:
            differences.append("%s: %s, must be %s" % (frame.hex(" ").upper(), sdo_client.told(reply), sdo_client.told(must)))
    return differences


def main(path):
    data = SHEET.read_bytes()
    try:
        check_maker(data)
        sheet = Sheet(data)
        check_model(sheet)
    except Fault as fault:
        print("%s: %s" % (SHEET.name, fault))
        return 1
    print("good: %d objects, %d names, as made, as laid out and as the model has them" % (len(sheet.indexes), len(sheet.entries)))
    for part in WALK:
        requests = list(part(sheet))
        differences = walked(path, requests)
        if differences:
            print("\n".join(["%s: %d differences" % (part.__name__, len(differences))] + differences[:10]))
            return 1
        print("good: %s, %d requests" % (part.__name__.replace("_", " "), len(requests)))
    return 0


if __name__ == "__main__":
    sys.exit(main(*sys.argv[1:]))
