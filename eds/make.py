"""Writes the electronic data sheet, in CiA 306's layout, from the paper's table of names.

    python3 eds/make.py > eds/valve-controller.eds

It knows document 01, of document 02 request (vii) for a comment and 1003h, document 000's and DS-301's words for the objects, and nothing of the program.
"""

import re
import sys

# Index and subs, the entry in the paper's notation ("type low..high = default"), and its name in plain words. A row without subs
# is a VAR. A name's {sub} is left out for the array itself; an array of several rows has a row with its own name first, and
# one whose sub 0 is no largest sub-index a row for that.
# Letters in an index: z = 1..6, x = 1..2, y = 6..9 for math 1..4, i = 1..3 for functions A to C, j = 1..3.
OBJECTS = """
1001      | ro u8 = 0           | Error register
1003      | ARRAY               | Pre-defined error field
1003:0    | u8 0..0 = 0         | Pre-defined error field, number of errors
1003:1-8  | ro u32 = 0          | Pre-defined error field, error {sub}

2110:1-4  | u8 0..1 = 1         | Input {sub} error detect enable
2111:1-4  | i16 0..32767 = 100  | Input {sub} error clear hysteresis
2112:1-4  | u16 0..60000 = 1000 | Input {sub} error reaction delay (ms)
2300:1-4  | i16 0..2500 = 2000  | Output {sub} override field value (mA)
2330:1-4  | u16 0..60000 = 1000 | Output {sub} ramp up (ms)
2331:1-4  | u16 0..60000 = 1000 | Output {sub} ramp down (ms)
2340:1-4  | SOURCE              | Output {sub} control source
2341:1-4  | NUMBER              | Output {sub} control number
2350:1-4  | SOURCE              | Output {sub} enable source
2351:1-4  | NUMBER              | Output {sub} enable number
2352:1-4  | u8 0..1 = 0         | Output {sub} enable response
2360:1-4  | SOURCE              | Output {sub} override source
2361:1-4  | NUMBER              | Output {sub} override number
2362:1-4  | u8 0..1 = 0         | Output {sub} override response
2500:1-12 | i16 = 0             | Extra received value {sub}
2502:1-12 | D                   | Extra received value {sub} decimal digits
2520:1-12 | i16 = 0             | Extra received value {sub} scaling 1
2522:1-12 | i16 = 1000          | Extra received value {sub} scaling 2

30z0      | SOURCE              | Lookup table {z} X source
30z1      | NUMBER              | Lookup table {z} X number
30z2      | D                   | Lookup table {z} X decimal digits
30z3      | D                   | Lookup table {z} Y decimal digits
30z4      | ARRAY               | Lookup table {z} axis type and responses
30z4:1    | u8 0..0 = 0         | Lookup table {z} axis type
30z4:2-11 | u8 0..2 = 1         | Lookup table {z} point {sub} response
30z5:1-11 | i16 = 0 100 200 300 400 500 600 700 800 900 1000 | Lookup table {z} point {sub} X value
30z6:1-11 | i16 = 0 100 200 300 400 500 600 700 800 900 1000 | Lookup table {z} point {sub} Y value
30z7      | ro i16 = 0          | Lookup table {z} output

4000:1-2  | u8 0..1 = 0         | Logic block {sub} enable
4010:1-2  | ro u8 = 0           | Logic block {sub} selected table
4020:1-2  | ro i16 = 0          | Logic block {sub} output
4101:1-3  | u8 1..6 = 1 2 3     | Logic block 1 function {letter} table
4201:1-3  | u8 1..6 = 4 5 6     | Logic block 2 function {letter} table
4x02:1-3  | u8 0..4 = 1 1 0     | Logic block {x} function {letter} operator
4xij      | ARRAY               | Logic block {x} function {i} condition {j}
4xij:1    | SOURCE              | Logic block {x} function {i} condition {j} argument 1 source
4xij:2    | NUMBER              | Logic block {x} function {i} condition {j} argument 1 number
4xij:3    | SOURCE              | Logic block {x} function {i} condition {j} argument 2 source
4xij:4    | NUMBER              | Logic block {x} function {i} condition {j} argument 2 number
4xij:5    | u8 0..5 = 0         | Logic block {x} function {i} condition {j} comparison

4500:1-4  | u8 0..1 = 0         | Math block {sub} enable
4521:1-4  | i16 = 0             | Math block {sub} output scaling 1 process value
4523:1-4  | i16 = 1000          | Math block {sub} output scaling 2 process value
4530:1-4  | ro real = 0         | Math block {sub} output process value
4532:1-4  | D                   | Math block {sub} output decimal digits
4y00:1-4  | SOURCE              | Math block {y} input {sub} source
4y01:1-4  | NUMBER              | Math block {y} input {sub} number
4y02:1-4  | D                   | Math block {y} input {sub} decimal digits
4y20:1-4  | i16 = 0             | Math block {y} input {sub} scaling 1
4y22:1-4  | i16 = 1000          | Math block {y} input {sub} scaling 2
4y40:1-4  | i16 -100..100 = 100 | Math block {y} input {sub} gain (percent)
4y50:1-3  | u8 0..5 = 0         | Math block {y} operator {sub}
5010      | ARRAY               | Constants
5010:1    | ro real 0..0 = 0    | Constant 1, always 0
5010:2    | ro real 1..1 = 1    | Constant 2, always 1
5010:3-15 | real = 0            | Constant {sub}

6132:1-4  | D                   | Input {sub} process value decimal digits
6302:1-4  | D                   | Output {sub} process value decimal digits
6340:1-4  | u8 0..1 = 1         | Output {sub} fault mode
7100:1-4  | ro i16 = 0          | Input {sub} field value
7120:1-4  | i16 = 500           | Input {sub} scaling 1 field value
7121:1-4  | i16 = 0             | Input {sub} scaling 1 process value
7122:1-4  | i16 = 4500          | Input {sub} scaling 2 field value
7123:1-4  | i16 = 1000          | Input {sub} scaling 2 process value
7130:1-4  | ro i16 = 0          | Input {sub} process value
7148:1-4  | i16 = 0             | Input {sub} span start
7149:1-4  | i16 = 5000          | Input {sub} span end
7320:1-4  | i16 = 0             | Output {sub} scaling 1 process value
7321:1-4  | i16 0..2500 = 0     | Output {sub} scaling 1 field value (mA)
7322:1-4  | i16 = 1000          | Output {sub} scaling 2 process value
7323:1-4  | i16 0..2500 = 1500  | Output {sub} scaling 2 field value (mA)
7330:1-4  | ro i16 = 0          | Output {sub} field value (mA)
7341:1-4  | i16 0..2500 = 0     | Output {sub} fault field value (mA)
"""

WORDS = {"D": "u8 0..3 = 0", "SOURCE": "u8 0..6 = 0", "NUMBER": "u8 0..15 = 0"}

# The digits that a letter of an index stands for, and what they are called in a name.
LETTERS = {"z": ("123456", "123456"), "x": ("12", "12"), "y": ("6789", "1234"), "i": ("123", "ABC"), "j": ("123", "123")}

# CiA 306's code and the whole range; of a REAL32 that is all that is finite.
LARGEST_REAL32 = (2 - 2**-23) * 2.0**127
TYPES = {
    "u8": (0x0005, 0, 255),
    "u16": (0x0006, 0, 65535),
    "u32": (0x0007, 0, 4294967295),
    "i16": (0x0003, -32768, 32767),
    "real": (0x0008, -LARGEST_REAL32, LARGEST_REAL32),
}

VAR, ARRAY = 0x7, 0x8

HEAD = """
[FileInfo]
FileName=valve-controller.eds
FileVersion=1
FileRevision=0
EDSVersion=4.0
Description=Valve controller: object dictionary, inputs, math, lookup tables, logic, current outputs
CreationTime=11:30PM
CreationDate=11-15-2026
CreatedBy=eds/make.py
ModificationTime=11:30PM
ModificationDate=11-15-2026
ModifiedBy=eds/make.py

[DeviceInfo]
VendorName=
VendorNumber=0
ProductName=Valve controller
ProductNumber=0
RevisionNumber=0
OrderCode=
BaudRate_10=0
BaudRate_20=0
BaudRate_50=0
BaudRate_125=0
BaudRate_250=0
BaudRate_500=0
BaudRate_800=0
BaudRate_1000=0
SimpleBootUpMaster=0
SimpleBootUpSlave=0
Granularity=0
DynamicChannelsSupported=0
GroupMessaging=0
NrOfRXPDO=0
NrOfTXPDO=0
LSS_Supported=0

[DummyUsage]
Dummy0001=0
Dummy0002=0
Dummy0003=0
Dummy0004=0
Dummy0005=0
Dummy0006=0
Dummy0007=0
"""

COMMENTS = """
This sheet lists every object that this part of the unit answers to, and no other.
Left out, since they belong to parts left to others: 1000h (device type) and 1018h (identity), which a whole device must have,
NMT, guarding and heartbeat (100Ch, 100Dh, 1016h, 1017h), LSS, all PDO (1400h to 1BFFh), so that PDOMapping is 0 throughout,
filters (2120h to 2127h, 61A0h, 61A1h), dither (2320h, 2321h) and PID (2450h to 2460h, 6458h, 6459h, 7450h to 7456h).
Any other object of DS-301, DS-404 or document 000 is left out as well: an SDO to what is not listed is refused with 06020000h.
Not known here, and so empty or 0 in DeviceInfo: vendor, product number, revision, order code, baud rates, boot-up.
Node-ID and COB-IDs belong to whoever moves the frames.
The limits are an entry's own range. A write must also keep these chains, or it is refused as too high or too low:
30z5h:1 <= :2 <= .. <= :11 for z = 1 to 6, and, for the same sub-index, 7148h <= 7120h < 7122h <= 7149h, 2520h < 2522h,
4521h < 4523h, 4y20h < 4y22h for y = 6 to 9, 7320h < 7322h, 7321h < 7323h.
Decimal digits say what a whole number stands for: 125 with one digit is 12.5. A condition of a logic block (4x11h to 4x33h) compares two whole
numbers by the digits of their sources, 2502h, 6132h or 30z3h. All other digits, and 2520h and 2522h, are stored and used by no block.
A REAL32 takes every finite value: its limits are the largest finite ones, in decimals, as its default is.
1003h:0 reads how many errors are kept, 8 at most, the newest at sub 1. Its limits are what it takes: 0, which clears them all.
While fewer are kept, an SDO to a sub of 1003h above that number is refused with 06090011h.
"""


def meant(index):
    """Each index that one with letters stands for, with what its letters are called there."""
    letter = next((letter for letter in LETTERS if letter in index), None)
    if letter is None:
        yield int(index, 16), {}
        return
    for digit, called in zip(*LETTERS[letter]):
        for number, names in meant(index.replace(letter, digit)):
            yield number, {letter: called, **names}


def entry(text):
    """Type code, low, high, access and the defaults of "ro type low..high = defaults"."""
    access, type, low, high, defaults = re.fullmatch(r"(ro )?(\w+)(?: (-?\d+)\.\.(\d+))? = (.*)", WORDS.get(text, text)).groups()
    code, lowest, highest = TYPES[type]
    number = float if type == "real" else int
    low, high = (lowest, highest) if low is None else (number(low), number(high))
    return code, low, high, "ro" if access else "rw", [number(default) for default in defaults.split()]


def objects():
    """Each index with its name and sub -> what stands in its section, ascending. An array's sub 0 is there only if it has a row."""
    found = {}
    for row in filter(None, OBJECTS.splitlines()):
        place, text, name = (field.strip() for field in row.split("|"))
        index, _, subs = place.partition(":")
        for number, names in meant(index):
            whole = re.sub(r" \{(sub|letter)\}", "", name).format(**names)
            known = found.setdefault(number, (whole, {}))[1]
            if text != "ARRAY":
                known.update(members(subs or "0", text, name, names))
    return [(index, *found[index]) for index in sorted(found)]


def members(subs, text, name, names):
    first, _, last = subs.partition("-")
    *facts, defaults = entry(text)
    for place, sub in enumerate(range(int(first), int(last or first) + 1)):
        called = name.format(sub=sub, letter="ABC"[sub - 1 : sub], **names)
        yield sub, (called, *facts, defaults[place if len(defaults) > 1 else 0])


def value_section(section, name, code, low, high, access, default):
    return [
        "[%s]" % section,
        "ParameterName=" + name,
        "ObjectType=0x%X" % VAR,
        "DataType=0x%04X" % code,
        "LowLimit=%s" % low,
        "HighLimit=%s" % high,
        "AccessType=" + access,
        "DefaultValue=%s" % default,
        "PDOMapping=0",
        "",
    ]


def object_sections(index, name, subs):
    if list(subs) == [0]:
        return value_section("%04X" % index, *subs[0])
    largest = max(subs)
    # sub 0: "the largest sub-index (UNSIGNED8, read only)"
    subs = {0: (name + ", largest sub-index", TYPES["u8"][0], largest, largest, "ro", largest), **subs}
    lines = ["[%04X]" % index, "ParameterName=" + name, "ObjectType=0x%X" % ARRAY, "SubNumber=%d" % len(subs), ""]
    for sub, facts in sorted(subs.items()):
        lines += value_section("%04Xsub%X" % (index, sub), *facts)
    return lines


def listed(section, indexes):
    lines = ["[%s]" % section, "SupportedObjects=%d" % len(indexes)]
    return lines + ["%d=0x%04X" % numbered for numbered in enumerate(indexes, 1)] + [""]


def sheet():
    table = objects()
    comments = COMMENTS.strip().splitlines()
    lines = HEAD.strip().splitlines() + ["", "[Comments]", "Lines=%d" % len(comments)]
    lines += ["Line%d=%s" % numbered for numbered in enumerate(comments, 1)] + [""]
    for section, kept in (
        ("MandatoryObjects", lambda index: index in (0x1000, 0x1001, 0x1018)),
        ("OptionalObjects", lambda index: 0x1002 <= index <= 0x1FFF and index != 0x1018 or index >= 0x6000),
        ("ManufacturerObjects", lambda index: 0x2000 <= index <= 0x5FFF),
    ):
        lines += listed(section, [index for index, _, _ in table if kept(index)])
    for index, name, subs in table:
        lines += object_sections(index, name, subs)
    return "\r\n".join(lines)


if __name__ == "__main__":
    sys.stdout.buffer.write(sheet().encode("ascii"))
