"""Checks the data sheet's check itself, in a few seconds and without the product.

Wrong sheets, each with the part of the check that must notice it. A wrong sheet is a change to
the stored one. One meant for the model or the walk is laid out well, so nothing else notices it
first; the model stands in for the program. One that is not noticed fails the run.

    python3 eds_selfcheck.py [--all]

--all prints for each wrong sheet what is said of it.
"""

import pathlib
import re
import sys

import eds

MODEL = str(pathlib.Path(__file__).resolve().parent / "model.py")
STORED = eds.SHEET.read_bytes()

# --------------------------------------------------------------------------- Changes to a sheet


def section(title):
    """From a section's head to the next one's."""
    return re.compile(rb"\[%s\]\r\n(?:[^\[\r].*\r\n)*(?:\r\n)?" % title.encode())


def replaced(data, pattern, new):
    found = pattern.findall(data)
    assert len(found) == 1, (pattern, len(found))
    return data.replace(found[0], new(found[0]))


def put(title, *texts):
    """put("2112sub1", "DefaultValue=1001"): that key of that section, with another value."""

    def change(data):
        for text in texts:
            line = re.compile(rb"(?m)^%s=.*\r$" % text.partition("=")[0].encode())
            data = replaced(data, section(title), lambda old: replaced(old, line, lambda _: text.encode() + b"\r"))
        return data

    return change


def without(*titles):
    def change(data):
        for title in titles:
            data = replaced(data, section(title), lambda _: b"")
        return data

    return change


def copied(title, new, name):
    """A section once more, under another title and with another name."""

    def change(data):
        old = section(title).search(data)[0]
        text = old.replace(b"[%s]" % title.encode(), b"[%s]" % new.encode())
        return data + b"\r\n" + re.sub(rb"ParameterName=.*", b"ParameterName=%s\r" % name.encode(), text).rstrip() + b"\r\n"

    return change


def relisted(title, change_indexes):
    """A list with other indexes, counted anew."""

    def change(data):
        def listed(old):
            indexes = change_indexes(re.findall(r"\n\d+=(0x\w+)", old.decode()))
            lines = ["[%s]" % title, "SupportedObjects=%d" % len(indexes)]
            lines += ["%d=%s" % numbered for numbered in enumerate(indexes, 1)]
            return "\r\n".join(lines + ["", ""]).encode()

        return replaced(data, section(title), listed)

    return change


def swapped(old, new):
    return lambda data: data.replace(old, new)


def unlisted(index):
    return relisted("ManufacturerObjects", lambda indexes: [other for other in indexes if other != index])


def also_listed(title, index):
    return relisted(title, lambda indexes: sorted(indexes + [index]))


# --------------------------------------------------------------------------- Wrong sheets: what is wrong, who must notice, the changes


def largest_sub(sub):
    """3015h with another largest sub, told the same everywhere."""
    told = ("%s=%d" % (key, sub) for key in ("DefaultValue", "LowLimit", "HighLimit"))
    return put("3015", "SubNumber=%d" % (sub + 1)), put("3015sub0", *told)


WRONG = (
    ("a name in other words", "maker", put("1001", "ParameterName=Error byte")),
    ("another date", "maker", put("FileInfo", "CreationDate=11-16-2026")),
    ("line feeds alone", "layout", swapped(b"\r\n", b"\n")),
    ("a letter that is not ASCII", "layout", swapped(b"(ms)", "(µs)".encode())),
    ("a space at a line's end", "layout", swapped(b"EDSVersion=4.0", b"EDSVersion=4.0 ")),
    ("a semicolon in a value", "layout", swapped(b"controller: object", b"controller; object")),
    ("a date the other way round", "layout", put("FileInfo", "CreationDate=15-11-2026")),
    ("a vendor invented", "layout", put("DeviceInfo", "VendorNumber=661")),
    ("a baud rate invented", "layout", put("DeviceInfo", "BaudRate_125=1")),
    ("a key missing", "layout", swapped(b"Granularity=0\r\n", b"")),
    ("a key twice", "layout", swapped(b"Granularity=0\r\n", b"Granularity=0\r\nGranularity=0\r\n")),
    ("a section missing", "layout", without("DummyUsage")),
    ("a section twice", "layout", copied("1001", "1001", "Error register again")),
    ("comments miscounted", "layout", put("Comments", "Lines=10")),
    ("1018h not said to be left out", "layout", swapped(b"1018h", b"1019h")),
    ("a list miscounted", "layout", put("ManufacturerObjects", "SupportedObjects=124")),
    ("a list with a number left out", "layout", swapped(b"\r\n18=0x7341", b"\r\n19=0x7341")),
    ("a list out of order", "layout", relisted("OptionalObjects", lambda indexes: indexes[::-1])),
    ("an object in the wrong list", "layout", unlisted("0x2112"), also_listed("OptionalObjects", "0x2112")),
    ("an object listed that has no section", "layout", also_listed("ManufacturerObjects", "0x2113")),
    ("an object that is not listed", "layout", unlisted("0x2112")),
    ("a sub's section missing", "layout", without("3015subB")),
    ("sub 0 missing", "layout", without("3015sub0"), put("3015", "SubNumber=11")),
    ("a SubNumber that leaves sub 0 out", "layout", put("3015", "SubNumber=11")),
    ("a sub numbered in decimals", "layout", swapped(b"[3015subB]", b"[3015sub11]")),
    ("a VAR called an ARRAY", "layout", put("3010", "ObjectType=0x8")),
    ("sub 0 writable", "layout", put("3015sub0", "AccessType=rw")),
    ("sub 0 not the largest", "layout", put("3015sub0", "DefaultValue=10")),
    ("the number of errors read only", "layout", put("1003sub0", "AccessType=ro")),
    ("two entries of one name", "layout", put("3015sub2", "ParameterName=Lookup table 1 point 1 X value")),
    ("a type that does not hold the limits", "layout", put("2112sub1", "DataType=0x0005")),
    ("a type that is not here", "layout", put("2112sub1", "DataType=0x0004")),
    ("a default outside the limits", "layout", put("4101sub1", "DefaultValue=0")),
    ("a limit that is no number", "layout", put("2112sub1", "HighLimit=")),
    ("a read-only entry with limits of its own", "layout", put("7330sub1", "HighLimit=2500")),
    ("a PDO mapping", "layout", put("7330sub1", "PDOMapping=1")),
    ("the sign of what can only be read", "model", put("7100sub1", "DataType=0x0006", "LowLimit=0", "HighLimit=65535")),
    ("a limit that the chain hides", "model", put("7323sub1", "LowLimit=1")),
    ("a default one too high", "defaults", put("2112sub1", "DefaultValue=1001")),
    ("a default one too low", "defaults", put("3026subB", "DefaultValue=999")),
    ("a constant 1 of 1 bit more", "defaults", swapped(b"=1.0\r", b"=1.00000012\r")),
    ("a type too long", "defaults", put("2110sub1", "DataType=0x0006")),
    ("an object too many", "defaults", also_listed("ManufacturerObjects", "0x3018"), copied("3017", "3018", "Lookup table 1 more")),
    ("a sub too many", "defaults", *largest_sub(12), copied("3015subB", "3015subC", "Lookup table 1 point 12 X value")),
    ("rw for ro", "access", put("7330sub1", "AccessType=rw")),
    ("ro for rw", "access", put("7121sub1", "AccessType=ro")),
    ("a type too long", "sizes", put("2110sub1", "DataType=0x0006")),
    ("a high limit one too high", "limits", put("2112sub4", "HighLimit=60001")),
    ("a high limit one too low", "limits", put("2112sub4", "HighLimit=59999")),
    ("a low limit one too high", "limits", put("4101sub3", "LowLimit=2")),
    ("a low limit one too low", "limits", put("4101sub3", "LowLimit=0")),
    ("a low limit one too high, below zero", "limits", put("4940sub4", "LowLimit=-99")),
    ("a high limit one too low, of a byte", "limits", put("3061", "HighLimit=14")),
    ("a chain's lower limit one too high", "limits", put("3015sub1", "LowLimit=-32767")),
    ("a chain's inner limit one too low", "limits", put("3015sub6", "HighLimit=32766")),
    ("a chain's upper limit one too low", "limits", put("7149sub4", "HighLimit=32766")),
    ("a strict chain's upper limit one too low", "limits", put("7323sub1", "HighLimit=2499")),
    ("a sign wrong", "limits", put("7341sub1", "DataType=0x0006")),
    ("a REAL32 limit one pattern too low", "limits", put("5010subF", "HighLimit=3.4028232635611926e+38")),
    ("a REAL32 limit one pattern too high", "limits", put("5010subF", "LowLimit=-3.4028232635611926e+38")),
    ("the number of errors to be set", "clearing", put("1003sub0", "HighLimit=8")),
    ("errors to be written", "access", put("1003sub1", "AccessType=rw")),
    ("nine errors", "model", put("1003", "SubNumber=10"), copied("1003sub8", "1003sub9", "Pre-defined error field, error 9")),
    ("a sub missing", "other_subs", without("3015subB"), *largest_sub(10)),
    ("an ARRAY missing", "other_indexes", unlisted("0x2112"), without("2112", *("2112sub%d" % sub for sub in range(5)))),
)  # fmt: skip


def notice(data, part):
    """What that part of the check says of the sheet; None if it finds nothing wrong."""
    try:
        if part == "maker":
            return eds.check_maker(data)
        sheet = eds.Sheet(data)
        if part == "layout":
            return None
    except eds.Fault as fault:
        assert part in ("maker", "layout"), (part, str(fault))
        return str(fault)
    if part == "model":
        return noticed_by_model(sheet)
    walk = {walk.__name__: walk for walk in eds.WALK}[part]
    return "\n".join(eds.walked(MODEL, list(walk(sheet)))[:1]) or None


def noticed_by_model(sheet):
    try:
        return eds.check_model(sheet)
    except eds.Fault as fault:
        return str(fault)


def main(arguments):
    for what, part, *changes in WRONG:
        data = STORED
        for change in changes:
            changed = change(data)
            assert changed != data, what
            data = changed
        said = notice(data, part)
        if said is None:
            print("not noticed by %s: %s" % (part, what))
            return 1
        if "--all" in arguments:
            print("%s: %s: %s" % (part, what, said))
    assert {part for _, part, *_ in WRONG} == {"maker", "layout", "model"} | {walk.__name__ for walk in eds.WALK}
    print("good: %d wrong sheets are noticed" % len(WRONG))
    return 0


if __name__ == "__main__":
    sys.exit(main(sys.argv[1:]))
