"""Builds the libraries for C: for x86-64, and for a chip from the module that was proved.

    ./run staticlib NAME..  target/staticlib/libNAME.a, for x86-64 Linux
    ./run chip CHIP         target/chip/CHIP: the libraries for the chip and their headers
    ./run chip              the chips

What C calls of a library NAME is the thin crate NAME_c. The kit lowers such a crate, with all that it reaches, to one LLVM module and
compiles that for x86-64 by the clang beside it. Here the module is kept on its way and goes through the same clang for the chip. Nothing but
the kit is needed, and no file of it is touched. README.md here says why the module means the same on every chip; what would make that wrong
is looked for, and such a module is refused. The status is 0, 1 where a library is not proved or its module is refused, 2 where there is no
such chip, no such library or no kit.
"""

import fcntl
import os
import pathlib
import re
import shutil
import subprocess
import sys
import tempfile

ROOT = pathlib.Path(__file__).resolve().parent.parent
sys.path.insert(0, str(ROOT / "tools"))
import kit  # noqa: E402

OUT = ROOT / "target" / "chip"
LIBRARIES = ROOT / "target" / "staticlib"
HEADERS = {"firmware": "valve.h", "spool": "spool.h", "gateway": "restore_list.h"}

# What clang is told of each chip. No call takes or gives a REAL32, so the hard and the soft convention call alike.
CHIPS = {
    "cortex-m0plus": "--target=thumbv6m-none-eabi -mcpu=cortex-m0plus",
    "cortex-m3": "--target=thumbv7m-none-eabi -mcpu=cortex-m3",
    "cortex-m4f": "--target=thumbv7em-none-eabihf -mcpu=cortex-m4 -mfpu=fpv4-sp-d16",
    "cortex-m7": "--target=thumbv7em-none-eabihf -mcpu=cortex-m7 -mfpu=fpv5-sp-d16",
    "rv32imac": "--target=riscv32-none-elf -march=rv32imac -mabi=ilp32",
    "aarch64-linux": "--target=aarch64-linux-gnu -fPIC",
    "armv7-linux": "--target=armv7-linux-gnueabihf -mfpu=vfpv3-d16 -fPIC",
}
# Each REAL32 operation rounds by itself: none is fused with the next. Each function in a section of its own: a linker leaves out what
# nobody calls.
ALL = "-Os -ffp-contract=off -ffunction-sections -fdata-sections".split()


class Refused(Exception):
    """Why there is no library, in a line, and the status."""

    def __init__(self, line, status=1):
        super().__init__(line)
        self.status = status


def tools():
    """The folder of the kit's clang, ld.lld and llvm-ar."""
    try:
        return kit.tools()
    except kit.Missing as why:
        raise Refused(str(why), 2) from None


# ---- the module

# Keeps what the kit hands to its clang, and the words, and calls the kit's own.
KEEPER = """#!/bin/sh
for word in "$@"; do case $word in *.bc) cp "$word" "{place}/module.bc" && printf '%s\\n' "$@" >"{place}/words" ;; esac; done
exec "{clang}" "$@"
"""


def _mirror(place):
    """A toolchain of links whose clang keeps the module."""
    toolchain = place / "toolchain"
    shutil.copytree(tools().parent, toolchain, copy_function=os.symlink)
    clang = toolchain / "bin" / "clang"
    clang.unlink()
    clang.write_text(KEEPER.format(place=place, clang=tools() / "clang"))
    clang.chmod(0o755)
    return toolchain


# What x86-64 is told in the module: its layout, its name, the processor to compile for.
OF_X86_64 = re.compile(r'^target (?:datalayout|triple) = .*\n|"(?:target-cpu|target-features|tune-cpu|probe-stack|stack-probe-size)"="[^"]*" ?', re.M)

# What could hang on a pointer's width, on a layout or on one processor. An intrinsic is named by what it does and by types; one of a
# processor has the processor's name behind llvm.
WIDTHS = (
    ("a pointer made a number", r"\bptrtoint\b"),
    ("a number made a pointer", r"\binttoptr\b"),
    ("pointers of another width", r"\baddrspacecast\b|\baddrspace\("),
    ("a struct", r"= type |[ (\[]<?\{ *[a-z%\[<]"),
    ("an instruction of one processor", r"\basm\b|\bllvm\.(?:x86|aarch64|arm|riscv|amdgcn|nvvm|ppc)\."),
)

# The one struct that a module may have: whole numbers that a function gives back together, loaded as one, given and taken apart. Where they
# lie when they are loaded is looked at for each chip.
NUMBERS = r"\{ i(?:8|16|32|64)(?:, i(?:8|16|32|64))+ \}"
GIVEN_BACK = re.compile(r"^(define internal (?:noundef )?|  ret |  %%\S+ = (?:call |load |extractvalue ))(%s)" % NUMBERS, re.M)


def _words(text):
    """The module without what is no code: metadata and attributes, and what stands between quotes."""
    lines = (line for line in text.splitlines() if not line.startswith(("!", "attributes ", "source_filename", ";")))
    return re.sub(r'"[^"]*"', '""', "\n".join(lines))


def looked_at(crate, text):
    """The module's text for any chip; refused where something in it hangs on one."""
    words = GIVEN_BACK.sub(r"\1numbers", _words(text))
    for what, pattern in WIDTHS:
        found = re.search(pattern, words, re.M)
        if found:
            line = words[words.rfind("\n", 0, found.start()) + 1 :].splitlines()[0]
            raise Refused("%s: its module has %s, so it may mean something else on a chip: %s" % (crate, what, line.strip()[:200]))
    return OF_X86_64.sub("", text)


def layouts(target, kinds):
    """Where each part of each of these structs lies, for a target, and how long each struct is, as clang's back end has it."""
    places = [(kind, "%s, ptr null, i32 0, i32 %d" % (kind, part)) for kind in kinds for part in range(1, kind.count(",") + 1)]
    places += [(kind, "%s, ptr null, i32 1" % kind) for kind in kinds]
    asked = "".join("@t%d = constant i32 ptrtoint (ptr getelementptr (%s) to i32)\n" % (n, place) for n, (_, place) in enumerate(places))
    words = [tools() / "clang", *target, "-O1", "-S", "-emit-llvm", "-x", "ir", "-Wno-override-module", "-", "-o", "-"]
    told = subprocess.run(words, input=asked, check=True, stdout=subprocess.PIPE, text=True).stdout
    found = dict(re.findall(r"^@t(\d+) = .*constant i32 (\d+)", told, re.M))
    return [(place, found[str(n)]) for n, (_, place) in enumerate(places)]


def held(chip, crate, text):
    """Refuses a module whose structs lie otherwise on the chip than on x86-64."""
    kinds = sorted({found[1] for found in GIVEN_BACK.findall(_words(text))})
    if kinds and layouts(flags(chip), kinds) != layouts(["--target=x86_64-unknown-linux-gnu"], kinds):
        raise Refused("%s: its module has a struct that lies otherwise on %s" % (crate, chip))


def _is_up_to_date(file, crate):
    """Whether no file that it could be made of is younger."""
    files = [ROOT / "crates.txt", pathlib.Path(__file__)]
    files += [of for name in (crate, *kit.below(crate)) for of in kit.files_of(name).values()]
    return file.exists() and max(of.stat().st_mtime for of in files) < file.stat().st_mtime


def lowered(library):
    """The library's module as the kit makes it; target/staticlib/libLIBRARY.a, for x86-64, is made with it. Both are proved and made
    once; who else wants one waits."""
    kept, archive, crate = OUT / (library + ".bc"), LIBRARIES / ("lib%s.a" % library), library + "_c"
    tools()
    for place in (OUT, LIBRARIES):
        place.mkdir(parents=True, exist_ok=True)
    with open(LIBRARIES / "lock", "w") as lock:
        fcntl.flock(lock, fcntl.LOCK_EX)
        if not (_is_up_to_date(kept, crate) and _is_up_to_date(archive, crate)):
            for old in (kept, archive):
                old.unlink(missing_ok=True)  # so that nobody who waited takes it for good
            _lower(crate, kept, archive)
    return kept


def _lower(crate, kept, archive):
    """Checks the thin crate over the libraries below it, proves these first where they are not built, and builds it."""
    library_name = crate.removesuffix("_c")

    def stop_unless(done, words):
        if done.returncode != 0:
            last = (done.stdout.strip().splitlines() or ["it says nothing"])[-1]
            raise Refused("%s is not proved: '%s' ends with status %d: %s" % (library_name, words, done.returncode, last[:200]))

    done = kit.brought_up(crate, "lib")
    if done:
        stop_unless(done, "rt lib")
    with tempfile.TemporaryDirectory() as folder:
        place = pathlib.Path(folder)
        words = ["--toolchain", _mirror(place), "--backend", "llvm", "-o", place / archive.name]
        stop_unless(kit.rattle("build", crate, *words), "rattle build")
        told = (place / "words").read_text().splitlines()
        _said(kept).write_text("\n".join(word for before, word in zip(told, told[1:]) if before == "-mllvm" and "x86" not in word) + "\n")
        shutil.copyfile(place / archive.name, archive)
        shutil.copyfile(place / "module.bc", kept)


def _said(kept):
    return kept.with_suffix(".said")


def left_alone(library):
    """What the kit tells its clang to leave alone, for known faults of it, and what would tell another processor's the same."""
    return [word for said in _said(OUT / (library + ".bc")).read_text().split() for word in ("-mllvm", said)]


def module(crate):
    """The library's module, as text for any chip."""
    kept, made = lowered(crate), OUT / (crate + ".ll")
    read = "--target=x86_64-unknown-linux-gnu -Xclang -disable-llvm-passes -S -emit-llvm -x ir".split()
    with open(OUT / "lock", "w") as lock:
        fcntl.flock(lock, fcntl.LOCK_EX)
        if not made.exists() or made.stat().st_mtime < kept.stat().st_mtime:
            text = subprocess.run([tools() / "clang", *read, kept, "-o", "-"], check=True, stdout=subprocess.PIPE, text=True).stdout
            made.write_text(looked_at(crate, text))
    return made


# ---- the chip


def flags(chip):
    if chip not in CHIPS:
        raise Refused("no chip '%s'; there are %s" % (chip, ", ".join(CHIPS)), 2)
    return CHIPS[chip].split()


def compiled(chip, source, out, *words):
    """An object for the chip from a module or a C file."""
    kind = ["-x", "ir", "-Wno-override-module"] if str(source).endswith(".ll") else ["-std=c99", "-ffreestanding", "-nostdinc"]
    subprocess.run([tools() / "clang", *flags(chip), *ALL, *kind, *words, "-c", source, "-o", out], check=True)
    return out


def archived(out, *objects):
    out.unlink(missing_ok=True)
    subprocess.run([tools() / "llvm-ar", "rcD", out, *objects], check=True)
    return out


def library(chip, crate, *words):
    """target/chip/CHIP/libCRATE.a. Words: other flags behind ours, for a library that is compiled otherwise; it is called after them."""
    flags(chip)
    text = module(crate)
    place = OUT.joinpath(chip, *(word.strip("-") for word in words))
    place.mkdir(parents=True, exist_ok=True)
    archive = place / ("lib%s.a" % crate)
    with open(place / "lock", "w") as lock:
        fcntl.flock(lock, fcntl.LOCK_EX)
        if not archive.exists() or archive.stat().st_mtime < text.stat().st_mtime:
            held(chip, crate, text.read_text())
            with tempfile.TemporaryDirectory() as folder:
                archived(archive, compiled(chip, text, pathlib.Path(folder) / (crate + ".o"), *left_alone(crate), *words))
        shutil.copy(ROOT / "crates" / crate / HEADERS[crate], place)
    return archive


def main(words):
    libraries = words[1:] if words[:1] == ["staticlib"] else None
    if not words:
        print("\n".join(CHIPS))
        return 0
    if libraries == [] or libraries is None and len(words) != 1:
        print(__doc__, file=sys.stderr)
        return 2
    try:
        for library_name in libraries or ():
            if library_name not in HEADERS:
                raise Refused("no library '%s'; there are %s" % (library_name, ", ".join(HEADERS)), 2)
            lowered(library_name)
            made = LIBRARIES / ("lib%s.a" % library_name)
            print("%s, %d bytes" % (made.relative_to(ROOT), made.stat().st_size))
        if libraries:
            return 0
        flags(words[0])
        for crate in HEADERS:
            made = library(words[0], crate)
            print("%s, %d bytes, with %s" % (made.relative_to(ROOT), made.stat().st_size, HEADERS[crate]))
    except Refused as why:
        print(why, file=sys.stderr)
        return why.status
    return 0


if __name__ == "__main__":
    sys.exit(main(sys.argv[1:]))
