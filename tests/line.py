"""The line routine is worked in 32 bits: nothing wider stands in it, so that no chip pulls in a 64-bit division for it (request iii).

    python3 line.py    status 1 at a function of the routine that has something wider, with its name and what it has

What the kit lowers the crate to is read, as `rattle check --generated` prints it: `line` and `limited`, and every function that they reach. A
type, a number or a cast of 64 bits, and any floating-point number, is refused. Of the library's functions only conversions may be reached between numbers of at most 32
bits, as their names tell; any other is refused. The check's own check: the same routine widened to 64 bits, in a copy, where
each function that was widened must be named.
"""

import pathlib
import re
import shutil
import sys
import tempfile

from tree import CRATES, ROOT

sys.path.insert(0, str(ROOT / "tools"))
import kit  # noqa: E402

ROUTINE = ("numbers::whole_line::line", "numbers::whole_line::limited")
WIDER = re.compile(r"\bSyntax\.w(?:64|128)\b|\b\w*(?:float|binary)\w*")
NARROW = re.compile(r"std::(?:prelude::[IU](?:16|32)From[IU](?:8|16)::from|below::core::int::[iu](?:8|16|32)::cast_(?:un)?signed)")


def functions(crate):
    """Every function of the crate `numbers` in that folder, as its lowered code's text. None of it has to be proved."""
    names = []
    for file in sorted((crate / "src").rglob("*.rt")):
        module = "::".join(file.relative_to(crate / "src").with_suffix("").parts)
        names += [name if module == "lib" else "%s::%s" % (module, name) for name in re.findall(r"^(?:pub )?fn (\w+)", file.read_text(), re.M)]
    with tempfile.TemporaryDirectory() as folder:
        done = kit.rattle("check", "numbers", "--generated", folder, *(word for name in names for word in ("--start", name)), folder=crate)
        assert done.returncode == 0, "rattle check --generated: status %d: %s" % (done.returncode, done.stdout[-300:])
        code = pathlib.Path(folder) / "Rattle-numbers-proofs"
        return {"numbers::" + name: (code / name.replace("::", "/") / "Code" / "Mir.antt").read_text() for name in names}


def reached(every):
    """The routine's functions: those that are called from it, however far, but for the library's narrow conversions."""
    found, waiting = [], list(ROUTINE)
    while waiting:
        name = waiting.pop()
        if name not in every:
            assert NARROW.fullmatch(name), "%s is the library's, and no conversion of at most 32 bits" % name
        elif name not in found:
            found.append(name)
            waiting += [path.replace(".proofs.", "::").replace(".", "::") for path in re.findall(r"^use Rattle\.(\S+)\.Symbol\b", every[name], re.M)]
    return found


def wider(crate):
    """What is wider than 32 bits, by the function that has it; and how many functions were looked at."""
    every = functions(crate)
    found = {name: sorted(set(WIDER.findall(every[name]))) for name in reached(every)}
    return {name: what for name, what in found.items() if what}, len(found)


# The routine as somebody would widen it: each line of its file, and the functions that then have something wider.
WIDENED = (
    ("fn rounded(n: u32, d: u32) -> u32", "fn rounded(n: u64, d: u64) -> u32"),
    ("return (n + (d - 1) / 2) / d;", "return ((n + (d - 1) / 2) / d) as u32;"),
    ("    (n + d / 2) / d", "    ((n + d / 2) / d) as u32"),
    ("rounded(y1 * (d - t) + y2 * t, d)", "rounded(y1 as u64 * (d - t) as u64 + y2 as u64 * t as u64, d as u64)"),
)
NOTICED = {"numbers::whole_line::rounded", "numbers::whole_line::weighed"}


def noticed():
    """The functions that the check names in the widened routine."""
    with tempfile.TemporaryDirectory() as folder:
        copy = pathlib.Path(folder) / "numbers"
        shutil.copytree(CRATES / "numbers", copy, ignore=shutil.ignore_patterns("out"))
        file = copy / "src" / "whole_line.rt"
        text = file.read_text()
        for old, new in WIDENED:
            assert text.count(old) == 1, "the routine has no '%s'" % old
            text = text.replace(old, new)
        file.write_text(text)
        return {*wider(copy)[0]}


def main():
    found, many = wider(CRATES / "numbers")
    for name, what in found.items():
        print("%s has %s" % (name, ", ".join(what)))
    others = noticed()
    assert others == NOTICED, "a routine that is widened is not noticed: %s" % sorted(others)
    print("the line routine, %d functions: %s" % (many, "wider than 32 bits" if found else "nothing wider than 32 bits"))
    return 1 if found else 0


if __name__ == "__main__":
    sys.exit(main())
