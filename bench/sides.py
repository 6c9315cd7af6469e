"""Builds the sides that are compared, runs events on one, and counts the instructions of a run.

A side is the program of drive.c over `plain` (plain.c), `valve` (the crates firmware and gateway) or `empty` (calls
that do nothing). An event is a frame of 8 bytes, a tuple of four samples, one of Save, Check, Load and Spoil, which are
about the image of a run, one of Keep, Make and Digest, which are about its list, Why, or one of Start, Paint and Gone. Only the
kit's compiler is used. On an x86-64 a run is counted by single steps, elsewhere by the log of an emulator; both give
every instruction.
"""

import ctypes
import os
import pathlib
import platform
import struct
import subprocess
import sys
import tempfile
from typing import NamedTuple

HERE = pathlib.Path(__file__).resolve().parent
ROOT = HERE.parent
sys.path.insert(0, str(ROOT / "chip"))
import build as chips  # noqa: E402

OUT = ROOT / "target" / "bench"


TOOLS = chips.tools()
EMULATOR = [] if platform.machine() == "x86_64" else ["qemu-x86_64"]  # Debian's
C = "--target=x86_64-linux-gnu -std=c11 -O2 -ffp-contract=off -Wall -Wextra -Werror -nostdinc -fno-stack-protector".split()
C += ["-ffunction-sections", "-fdata-sections"]  # as the crates' objects are, so that a linker can leave out what nobody calls


def compiled(source, out, *words):
    OUT.mkdir(parents=True, exist_ok=True)
    headers = (HERE, HERE / "include", *(ROOT / "crates" / crate for crate in chips.HEADERS))
    places = ["-I%s" % place for place in headers]
    subprocess.run([TOOLS / "clang", *C, *places, *words, "-c", source, "-o", OUT / out], check=True)
    return OUT / out


def linked(out, parts):
    subprocess.run([TOOLS / "ld.lld", "-o", OUT / out, *parts], check=True)
    return str(OUT / out)


def library(crate):
    """The crate's functions for C. It is built once; tests that run at the same time wait for the one that builds."""
    chips.lowered(crate)
    return chips.LIBRARIES / ("lib%s.a" % crate)


def parts_of(side):
    """What a program links to call the side."""
    if side == "plain":
        return [compiled(HERE / "plain.c", "plain.o")]
    return [library("firmware"), library("gateway")] if side == "valve" else []


def words_for(side):
    """What drive.c is told of the side."""
    words = ["-DSIDE=" + side, '-DHEADER="%s.h"' % side]
    return [*words, "-include", "restore_list.h", "-Dvalve_restore_list=restore_list"] if side == "valve" else words


def build(side):
    """The side's program."""
    return linked(side, [compiled(HERE / "drive.c", side + ".drive.o", *words_for(side)), *parts_of(side)])


def _sections(program):
    """Name, flags and size of each section of an ELF file."""
    data = pathlib.Path(program).read_bytes()
    start, size, count, names = struct.unpack_from("<Q10xHHH", data, 0x28)
    heads = [struct.unpack_from("<IIQQQQ", data, start + size * i) for i in range(count)]
    strings = data[heads[names][4]:]
    for name, _, flags, _, _, length in heads:
        yield strings[name:strings.index(b"\0", name)].decode(), flags, length


def flash(calls, parts):
    """Bytes of code and of constants that a linker takes from the parts for these calls; the C library's are not among them."""
    roots = [word for call in calls for word in ("-u", call)]
    program = linked("flash", ["-e", calls[0], *roots, "--gc-sections", "--unresolved-symbols=ignore-all", *parts])
    code = constants = 0
    for name, flags, length in _sections(program):
        if flags & 4:
            code += length
        elif flags & 2 and name.startswith(".rodata"):
            constants += length
        elif flags & 1 and length:
            raise RuntimeError("%s is %d bytes of memory that is written to" % (name, length))
    return code, constants


IMAGE_BYTES = 5207


class Save(NamedTuple):
    length: int = IMAGE_BYTES


class Check(NamedTuple):
    length: int = IMAGE_BYTES


class Load(NamedTuple):
    length: int = IMAGE_BYTES


class Spoil(NamedTuple):
    """Another byte in the image."""

    place: int
    byte: int


class Keep(NamedTuple):
    """A copy of the image is kept, as the current one."""


class Make(NamedTuple):
    """The list from the current image to the image."""

    current: int = IMAGE_BYTES
    wanted: int = IMAGE_BYTES
    room: int = IMAGE_BYTES


class Digest(NamedTuple):
    """Of the list's bytes, those behind it too, and the trail's."""


class Why(NamedTuple):
    """Why an output has its command."""

    output: int = 1


class Start(NamedTuple):
    """The unit is started again."""


class Paint(NamedTuple):
    """The stack below is painted, PAINTED bytes."""


class Gone(NamedTuple):
    """How many bytes of the paint are gone."""


PAINTED = 8192
LETTERS = {Save: b"W", Check: b"I", Load: b"L"}
OTHER_LETTERS = {Keep: b"K", Make: b"M", Digest: b"D", Why: b"Y", Start: b"N", Paint: b"P", Gone: b"G"}


def _event(event):
    if isinstance(event, bytes):
        return struct.pack("<8s8s", b"S", event)
    if isinstance(event, Spoil):
        return struct.pack("<8sIB3x", b"B", *event)
    if type(event) in LETTERS:
        return struct.pack("<8sI4x", LETTERS[type(event)], event.length)
    if type(event) in OTHER_LETTERS:
        return struct.pack("<8s8s", OTHER_LETTERS[type(event)], struct.pack("<%dH" % len(event), *event))
    return struct.pack("<8s4h", b"T", *event)


def input_of(events):
    file = tempfile.TemporaryFile()
    file.write(b"".join(map(_event, events)))
    file.seek(0)
    return file


def answers_and_memory(program, events):
    """The reply to each frame, empty where there is none, or the number returned; a tick's is empty. Then image, list and trail."""
    with input_of(events) as file:
        out = subprocess.run([*EMULATOR, program], stdin=file, stdout=subprocess.PIPE, check=True).stdout
    return read_answers(out, len(events))


def read_answers(out, count):
    end = 16 * count
    return [reply[:length] for length, reply in struct.iter_unpack("<B7x8s", out[:end])], out[end:]


def answers(program, events):
    return answers_and_memory(program, events)[0]


def _stepped(program, file):
    trace_me, single_step = 0, 9
    ptrace = ctypes.CDLL(None).ptrace
    ptrace.argtypes = (ctypes.c_long, ctypes.c_long, ctypes.c_void_p, ctypes.c_void_p)
    child = os.fork()
    if child == 0:
        os.dup2(file.fileno(), 0)
        os.dup2(os.open(os.devnull, os.O_WRONLY), 1)
        ptrace(trace_me, 0, None, None)
        os.execv(program, [program])
    count, status = 0, os.waitpid(child, 0)[1]
    while os.WIFSTOPPED(status):
        if os.WSTOPSIG(status) != 5:
            raise RuntimeError("%s stopped by signal %d" % (program, os.WSTOPSIG(status)))
        ptrace(single_step, child, None, None)
        count, status = count + 1, os.waitpid(child, 0)[1]
    return count


def _logged(program, file):
    with tempfile.NamedTemporaryFile() as log:
        words = ["-one-insn-per-tb", "-d", "exec,nochain", "-D", log.name, program]
        subprocess.run([*EMULATOR, *words], stdin=file, stdout=subprocess.DEVNULL, check=True)
        return sum(1 for _ in log)


def instructions(program, events):
    """Of the whole run, its start too; deterministic."""
    with input_of(events) as file:
        return _logged(program, file) if EMULATOR else _stepped(program, file)
