"""What the libraries for chips leave to others: no 64-bit division, no double, no 64-bit shift.

    python3 helpers.py [CHIP ..]

Builds both libraries for each chip and reads from their objects which symbols they ask for. What is not allowed is
named with the functions that ask for it, and the exit status is 1. First the check's own check: C with such an
operation, for each chip, where each must be found. The headers are compiled as C99 and as C++ for each chip, and what
`../run chip` refuses is tried: modules that hang on one processor, an unknown chip, no kit, a crate that is not proved. Needs
the kit alone.
"""

import os
import pathlib
import shutil
import subprocess
import sys
import tempfile

ROOT = pathlib.Path(__file__).resolve().parent.parent
sys.path.insert(0, str(ROOT / "chip"))
import build  # noqa: E402
import elf  # noqa: E402

MEMORY = {"memcpy", "memset"} | {"__aeabi_mem%s%s" % (what, size) for what in ("cpy", "set", "clr") for size in ("", "4", "8")}
# REAL32's own: add, subtract, multiply, divide, compare, and from a whole number of 32 bits.
REAL32 = {"__aeabi_%s" % name for name in "fadd fsub fmul fdiv fcmpeq fcmplt fcmple fcmpgt fcmpge fcmpun i2f ui2f".split()}
REAL32_OF_RISC_V = {"__" + name for name in "addsf3 subsf3 mulsf3 divsf3 eqsf2 nesf2 ltsf2 lesf2 gtsf2 gesf2 unordsf2 floatsisf floatunsisf".split()}
DIVISION32 = {"__aeabi_uidiv", "__aeabi_uidivmod", "__aeabi_idiv", "__aeabi_idivmod"}
ALLOWED = {
    "cortex-m0plus": MEMORY | REAL32 | DIVISION32,
    "cortex-m3": MEMORY | REAL32,
    "cortex-m4f": MEMORY,
    "cortex-m7": MEMORY,
    "rv32imac": MEMORY | REAL32_OF_RISC_V,
    "aarch64-linux": MEMORY,
    "armv7-linux": MEMORY | DIVISION32,
}

# What must be noticed: a C function with the operation, and on which chips it takes a helper.
CHIPS32 = ["cortex-m0plus", "cortex-m3", "cortex-m4f", "cortex-m7", "rv32imac"]
WITHOUT_UNIT = ["cortex-m0plus", "cortex-m3", "rv32imac"]
OPERATIONS = (
    ("division", "unsigned long long division(unsigned long long a, unsigned long long b) { return a / b; }", [*CHIPS32, "armv7-linux"]),
    ("rest", "long long rest(long long a, long long b) { return a % b; }", [*CHIPS32, "armv7-linux"]),
    ("doubled", "double doubled(float a) { return a; }", CHIPS32),
    ("twice", "int twice(float a) { return (int)((double)a * 2); }", CHIPS32),
    ("product", "unsigned long long product(unsigned long long a, unsigned long long b) { return a * b; }", ["cortex-m0plus"]),
    ("shifted", "unsigned long long shifted(unsigned long long a, int b) { return a << b; }", ["cortex-m0plus"]),
    ("cut", "int cut(float a) { return (int)a; }", WITHOUT_UNIT),
    ("real", "float real(float a, float b) { return a / b; }", []),
    ("quarter", "unsigned quarter(unsigned a, unsigned b) { return a / b; }", []),
    ("printed", 'extern int puts(const char *); int printed(void) { return puts("x") + 1; }', list(ALLOWED)),
)


def refused(chip, archive):
    """What the archive asks for and may not, with the functions."""
    return {name: functions for name, functions in elf.asked(archive).items() if name not in ALLOWED[chip]}


def check_the_check(chip):
    """Each operation is found where it takes a helper, under its function's name, and nowhere else."""
    wrong = []
    with tempfile.TemporaryDirectory() as folder:
        place = pathlib.Path(folder)
        for name, text, chips in OPERATIONS:
            (place / (name + ".c")).write_text(text)
            made = build.archived(place / "one.a", build.compiled(chip, place / (name + ".c"), place / "one.o"))
            found = refused(chip, made)
            if (chip in chips) != bool(found) or any(functions != {name} for functions in found.values()):
                wrong.append("%s: the check finds %s in '%s'" % (chip, found or "nothing", text))
    return wrong


# Every call, as a C programmer would write it; the lengths are 64 bits wide.
CALLER = """#include "spool.h"
#include "valve.h"
#include "restore_list.h"
int every_call(uint32_t *unit, const uint8_t *in, uint8_t *out, int16_t *four);
int every_call(uint32_t *unit, const uint8_t *in, uint8_t *out, int16_t *four)
{
    valve_start(unit);
    valve_tick(unit, four);
    spool_start(unit, four);
    spool_tick(unit, four, four + 2);
    valve_commands(unit, four);
    return valve_error_register(unit) + valve_serve(unit, in, 8, out, 8) + valve_save(unit, out, VALVE_IMAGE)
        + valve_check(in, VALVE_IMAGE) + valve_load(unit, in, VALVE_IMAGE)
        + restore_list(in, VALVE_IMAGE, in, VALVE_IMAGE, out, RESTORE_LIST_MOST) + (sizeof(uint64_t) == 8);
}
"""
LANGUAGES = (("-x", "c", "-std=c99"), ("-x", "c++", "-std=c++98", "-Wno-c++11-long-long"))
OWN = {"valve_" + name for name in "start serve tick commands error_register save check load".split()} | {"spool_start", "spool_tick", "restore_list"}


def check_headers(chip):
    """The headers stand by themselves in both languages, and name what the libraries have."""
    wrong = []
    with tempfile.TemporaryDirectory() as folder:
        place = pathlib.Path(folder)
        (place / "caller.c").write_text(CALLER)
        headers = ["-I%s" % (ROOT / "bench" / "include"), *("-I%s" % (ROOT / "crates" / crate) for crate in build.HEADERS)]
        for language in LANGUAGES:
            words = ["-pedantic", "-Wall", "-Wextra", "-Werror", *headers, *language]
            made = build.archived(place / "caller.a", build.compiled(chip, place / "caller.c", place / "caller.o", *words))
            if set(elf.asked(made)) - {"__aeabi_unwind_cpp_pr0"} != OWN:
                wrong.append("%s: a caller in %s asks for %s" % (chip, language[1], " ".join(sorted(elf.asked(made)))))
    return wrong


# Lines that no module for a chip may have, and some that it may.
REFUSED = (
    "%a = ptrtoint ptr %p to i64",
    "%p = inttoptr i64 %a to ptr",
    "%q = addrspacecast ptr %p to ptr addrspace(1)",
    "%s = type { i32, ptr }",
    "  %v = load { ptr, i64 }, ptr %p, align 8",
    "  %v = load { i8, ptr }, ptr %p, align 8",
    "  %v = alloca { i8, i64 }, align 8",
    "  store { i8, i64 } %v, ptr %p, align 8",
    "  %q = getelementptr { i8, i64 }, ptr %p, i32 0, i32 1",
    "define { i8, i64 } @valve_start(ptr %a0) {",
    "  call void @f({ i8, i64 } %v)",
    "%v = insertvalue { i32, i1 } undef, i32 %a, 0",
    "@t = constant <{ [4 x i8] }> zeroinitializer",
    'call void asm sideeffect "nop", ""()',
    "%v = call i64 @llvm.x86.rdtsc()",
)
TAKEN = 'define internal void @"a::{ i32 }"(ptr %p, i64 %n) #0 {\n  %v = load [8 x i8], ptr %p, !range !{i8 0, i8 2}\n  ret void\n}'
NUMBERS_GIVEN_BACK = 'define internal noundef { i8, i64 } @"a::b"(ptr %p) #0 {\n  %v = load { i8, i64 }, ptr %p, align 8\n  ret { i8, i64 } %v\n}\n'
NUMBERS_GIVEN_BACK += 'define internal void @"a::c"(ptr %p) #0 {\n  %v = call { i8, i64 } @"a::b"(ptr %p)\n  %w = extractvalue { i8, i64 } %v, 1\n  ret void\n}'
# On an i386 the 64 bits lie nearer.
OTHERWISE = ["--target=i386-unknown-linux-gnu"], ["--target=x86_64-unknown-linux-gnu"], ["{ i8, i64 }"]


def check_modules():
    wrong = []
    for line in REFUSED:
        try:
            build.looked_at("a crate", line)
            wrong.append("a module with '%s' is not refused" % line)
        except build.Refused:
            pass
    for text in (TAKEN, NUMBERS_GIVEN_BACK):
        build.looked_at("a crate", text)
    one, other, kinds = OTHERWISE
    if build.layouts(one, kinds) == build.layouts(other, kinds):
        wrong.append("a struct that lies otherwise is not noticed")
    for chip in build.CHIPS:
        build.held(chip, "a crate", NUMBERS_GIVEN_BACK)
    return wrong


# Stands in for rt where a crate is not proved.
UNPROVED = """#!/bin/sh
[ "$1" = doc ] && { echo "%s/START-HERE.md"; exit; }
echo "rt: FAILED: firmware"
exit 1
"""


def check_refusals():
    """What the command says and its status, in a copy that has no rt, or one that proves nothing."""
    wrong = []
    with tempfile.TemporaryDirectory() as folder:
        place = pathlib.Path(folder)
        shutil.copytree(ROOT / "chip", place / "chip")
        shutil.copytree(ROOT / "tools", place / "tools")
        for file in ("run", "crates.txt"):
            shutil.copy(ROOT / file, place)
        shutil.copytree(ROOT / "crates", place / "crates", ignore=shutil.ignore_patterns("out", "proofs"))
        tools = place / "bin"
        tools.mkdir()
        for tool in ("sh", "dirname"):
            (tools / tool).symlink_to(shutil.which(tool))
        (tools / "python3").symlink_to(sys.executable)

        def tried(chip, said, status):
            done = subprocess.run([place / "run", "chip", chip], env={**os.environ, "PATH": str(tools)}, capture_output=True, text=True)
            lines = (done.stdout + done.stderr).splitlines()
            if done.returncode != status or len(lines) != 1 or not lines[0].startswith(said):
                wrong.append("run chip %s: status %d, %s" % (chip, done.returncode, lines))

        tried("z80", "no chip 'z80'; there are cortex-m0plus, ", 2)
        tried("cortex-m3", "no kit: ", 2)
        (tools / "rt").write_text(UNPROVED % build.kit.home())
        (tools / "rt").chmod(0o755)
        tried("cortex-m3", "firmware is not proved: ", 1)
    return wrong


def main(words):
    wrong = [*check_modules(), *check_refusals()]
    wrong += [line for chip in words or ALLOWED for line in (*check_the_check(chip), *check_headers(chip))]
    for chip in words or ALLOWED:
        left = {}
        for crate in build.HEADERS:
            archive = build.library(chip, crate)
            left[crate] = " ".join(sorted(elf.asked(archive))) or "nothing"
            for name, functions in sorted(refused(chip, archive).items()):
                wrong.append("%s: %s asks for %s, in %s" % (chip, crate, name, ", ".join(sorted(functions))))
        print("%s: %s" % (chip, "; ".join("%s leaves %s" % item for item in left.items())))
    print("\n".join(wrong) or "%d operations are noticed where they take a helper" % len(OPERATIONS))
    return 1 if wrong else 0


if __name__ == "__main__":
    try:
        sys.exit(main(sys.argv[1:]))
    except build.Refused as why:
        print(why)
        sys.exit(why.status)
