"""Works out from the code how much stack a call can need at most. Needs llvm-objdump, which the kit does not have.

The bound holds for every call: a frame is all that a function pushes and takes anywhere in its code, and below it lies the
deepest of what it calls, or what it uses below the stack pointer (the red zone). What would make that wrong is refused: a
function that calls itself, a call through a pointer, a stack pointer that is set in another way.
"""

import re
import subprocess
from typing import NamedTuple

RETURN = 8  # a call puts its return address on the stack
OUTSIDE = ("memcpy", "memset")  # the C library's; what they need themselves is not counted


class Function(NamedTuple):
    frame: int
    below: int
    calls: tuple


def _disassembled(file):
    words = ["llvm-objdump", "--disassemble", "--reloc", "--no-show-raw-insn", file]
    text = subprocess.run(words, check=True, stdout=subprocess.PIPE, text=True).stdout
    return re.findall(r"^[0-9a-f]+ <(.+)>:\n((?:[ \t]+.*\n)+)", text, re.M)


def _taken(line):
    """By how much an instruction lowers the stack pointer; what raises it counts as nothing."""
    if re.search(r"\tpushq\t", line):
        return 8
    taken = re.search(r"\tsubq\t\$(\d+), %rsp\b", line)
    if taken:
        return int(taken[1])
    if re.search(r"\t(?!addq\t\$\d+,|popq\t|cmpq|testq)[a-z]+\t(.*, )?%rsp( |$)", line):
        raise ValueError("the stack pointer is set: " + line)
    return 0


def _callees(lines):
    """The functions that are called or jumped to; a jump through a table stays within the function."""
    for line, behind in zip(lines, [*lines[1:], ""]):
        place = re.search(r"R_X86_64_(?:PLT32|PC32)\t(?:\.text\.)?([\w:]+)-0x4$", behind)
        if re.search(r"\tcallq?\t", line) and not place:
            raise ValueError("a call to nobody knows where: " + line)
        if place and re.search(r"\t(callq?|jmp|j[a-z]+)\t", line):
            yield place[1]


def functions(files):
    """Each function of the files by its name."""
    found = {}
    for file in files:
        for name, text in _disassembled(file):
            lines = text.splitlines()
            below = [int(depth) for depth in re.findall(r"-(\d+)\(%rsp", text)]
            function = Function(sum(map(_taken, lines)), max(below, default=0), tuple(_callees(lines)))
            if found.setdefault(name, function) != function:
                raise ValueError("two functions %s" % name)
    return found


def bound(known, name, above=()):
    """Bytes of stack that a call of the function needs at most, its return address among them."""
    if name in OUTSIDE:
        return RETURN
    if name in above:
        raise ValueError("%s calls itself" % name)
    function = known[name]
    deeper = (bound(known, called, (*above, name)) for called in function.calls)
    return RETURN + function.frame + max(function.below, *deeper, 0)
