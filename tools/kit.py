"""The kit that proves this repository, and what its `rattle` is told of a crate.

`rt` has commands for most that is wanted. Where it has none, for a library's LLVM module, for the lowered code of a function and for what a
check says of a changed crate, `rattle` itself is called, with the words that `rt` gives it (`rattle build --help` tells them).
"""

import os
import pathlib
import re
import subprocess

ROOT = pathlib.Path(__file__).resolve().parent.parent
CRATES = ROOT / "crates"
PARTS = ("src", "specs", "proofs")  # what a check reads of a crate
LINE = re.compile(r"(\w+)( staticlib)?:(.*)")


class Missing(Exception):
    """Why there is no kit."""


def home():
    """The kit's folder."""
    try:
        guide = subprocess.run(["rt", "doc"], check=True, stdout=subprocess.PIPE, text=True, cwd=ROOT).stdout.strip()
    except (OSError, subprocess.CalledProcessError):
        raise Missing("no kit: there is no command rt that knows its guide") from None
    found = pathlib.Path(guide).parent
    if not (found / "toolchain" / "bin" / "clang").exists():
        raise Missing("no kit: no clang in %s" % (found / "toolchain" / "bin"))
    return found


def tools():
    """The folder of its clang, ld.lld and llvm-ar."""
    return home() / "toolchain" / "bin"


def lines():
    """Each crate of crates.txt: whether it is a static library, and what it leans on."""
    rows = (row.partition("#")[0].strip() for row in (ROOT / "crates.txt").read_text().splitlines())
    return {name: (bool(static), below.split()) for name, static, below in (LINE.fullmatch(row).groups() for row in rows if row)}


def below(crate):
    """The repository's libraries below a crate, each after those that it uses."""
    every, found = lines(), []
    for name in every[crate][1]:
        if name in every:
            found += [it for it in (*below(name), name) if it not in found]
    return found


def rlib(crate):
    return CRATES / crate / "out" / "rlib" / (crate + ".rlib")


def files_of(crate):
    """The files that a check of the crate reads, with their paths below it."""
    return {file.relative_to(CRATES / crate).as_posix(): file for part in PARTS for file in sorted((CRATES / crate / part).rglob("*.*")) if file.is_file()}


def stands(crate):
    """Whether each library below the crate is built, and no file that it is made of is younger: `rt ci`, `rt all check` and `rt lib` build them."""
    latest = (ROOT / "crates.txt").stat().st_mtime
    for name in below(crate):
        if not (rlib(name) / "format").exists():
            return False
        if rlib(name).stat().st_mtime < max(latest, *(file.stat().st_mtime for file in files_of(name).values())):
            return False
    return True


def brought_up(crate, verb):
    """Has `rt lib` or `rt check` prove and build what stands below the crate, unless all of it stands. What that said, or nothing."""
    if stands(crate):
        return None
    how = {"stdin": subprocess.DEVNULL, "stdout": subprocess.PIPE, "stderr": subprocess.STDOUT, "text": True, "errors": "replace"}
    done = subprocess.run(["rt", verb], cwd=CRATES / crate, **how)
    for name in below(crate) if done.returncode == 0 else ():
        # rt goes by what the files hold: a file may be younger and say the same.
        os.utime(rlib(name))
    return done


def words(crate):
    """What `rattle check` and `rattle build` are told of a crate, in its folder or in that of a copy; the libraries below it are this repository's."""
    kit, every = home(), lines()
    static, leaning = every[crate]
    root = "src/main.rt" if (CRATES / crate / "src" / "main.rt").exists() else "src/lib.rt"
    said = ["--crate-name", crate, root, "--extern", "std=%s/rlibs/std.rlib" % kit, "-L", "dependency=%s/rlibs" % kit]
    for name in leaning:
        said += ["--extern", "%s=%s" % (name, rlib(name) if name in every else kit / "rlibs" / (name + ".rlib"))]
    for name in below(crate):
        said += ["-L", "dependency=%s" % rlib(name).parent]
    said += ["--antt-project", str(kit / "rattle" / "logic" / "antt-project.json"), "--logic-built", str(kit / "logic_built")]
    return [*said, "--jobs", "1", "--links", crate + "=", *(["--crate-type", "staticlib"] if static else [])]


def rattle(verb, crate, *more, folder=None):
    """What `rattle` says of a crate: its status and its lines."""
    call = [home() / "bin" / "rattle", verb, *words(crate), *more]
    how = {"stdin": subprocess.DEVNULL, "stdout": subprocess.PIPE, "stderr": subprocess.STDOUT, "text": True, "errors": "replace"}
    return subprocess.run(call, cwd=folder or CRATES / crate, **how)
