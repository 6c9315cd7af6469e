"""What a check says of a crate as it stands, and with some of its texts changed.

`rt ci` tries each must-fail edit, and of what its check says it keeps one line. Here a check is made as rt makes it, and all that it says is
given: first of the crate as it stands, over the libraries that `rt ci` or `rt check` built, and then of copies with other texts, each over what the first one
proved, so that only what an edit touches is checked again. What was said of the crate as it stands is kept in target/said.
"""

import contextlib
import fcntl
import hashlib
import os
import pathlib
import shutil
import sys
import tempfile

from tree import CRATES, ROOT

sys.path.insert(0, str(ROOT / "tools"))
import kit  # noqa: E402

SAID = ROOT / "target" / "said"
MEMORY = 3_000_000_000  # more than a check of any crate here takes


def at_a_time():
    """How many checks run side by side: one a processor, as far as memory goes."""
    free = next(int(line.split()[1]) * 1024 for line in open("/proc/meminfo") if line.startswith("MemAvailable:"))
    return max(1, min(len(os.sched_getaffinity(0)), free // MEMORY))


def _sum(crate):
    """Of all that a check of the crate reads."""
    total = hashlib.sha256((kit.home() / "KIT-ID").read_bytes() + (ROOT / "crates.txt").read_bytes())
    for name in (crate, *kit.below(crate)):
        for path, file in kit.files_of(name).items():
            total.update(("%s/%s " % (name, path)).encode() + file.read_bytes())
    return total.hexdigest()


def _linked(folder, to):
    """A copy of what a check proved, by links where these can be made: a check puts another file in such a file's place, and writes into none."""

    def copy(one, other):
        with contextlib.suppress(OSError):
            return os.link(one, other) if one.endswith(".oantt") else shutil.copy2(one, other)
        return shutil.copy2(one, other)

    shutil.copytree(folder, to, copy_function=copy)


@contextlib.contextmanager
def _alone(crate):
    SAID.mkdir(parents=True, exist_ok=True)
    with open(SAID / (crate + ".lock"), "w") as lock:
        fcntl.flock(lock, fcntl.LOCK_EX)
        yield


class Seed:
    """A check of the crate as it stands, and what it proved. It begins with what `rt check` left, where it left something."""

    def __init__(self, crate):
        done = kit.brought_up(crate, "check")
        assert not done or done.returncode == 0, "%s is not proved: %s" % (crate, done.stdout[-400:])
        self.crate, self.room = crate, tempfile.TemporaryDirectory()
        self.proved = pathlib.Path(self.room.name) / "proved"
        kept = CRATES / crate / "out" / "incremental"
        with _alone(crate):
            if kept.is_dir():
                _linked(kept, self.proved)
            else:
                self.proved.mkdir()
            done = kit.rattle("check", crate, "--incremental", self.proved)
            assert done.returncode == 0, "%s is not proved: %s" % (crate, done.stdout[-400:])
            (SAID / crate).write_text("%s\n%s" % (_sum(crate), done.stdout))

    def tried(self, texts):
        """What a check says, line by line, of a copy of the crate with these texts in place of its own."""
        with tempfile.TemporaryDirectory() as folder:
            place = pathlib.Path(folder)
            for path, file in kit.files_of(self.crate).items():
                copy = place / "crate" / path
                copy.parent.mkdir(parents=True, exist_ok=True)
                copy.write_text(texts[path]) if path in texts else shutil.copy(file, copy)
            _linked(self.proved, place / "proved")
            done = kit.rattle("check", self.crate, "--incremental", place / "proved", folder=place / "crate")
            assert done.returncode in (0, 1, 3), "the check of an edit of %s ends with status %d: %s" % (self.crate, done.returncode, done.stdout[-400:])
            return done.stdout.splitlines()

    def done(self):
        self.room.cleanup()


def said_of(crate):
    """What a check of the crate as it stands says, line by line; one that was made before is not made again."""
    while True:
        with _alone(crate):
            kept = (SAID / crate).read_text().splitlines() if (SAID / crate).exists() else [""]
        if kept[0] == _sum(crate):
            return kept[1:]
        Seed(crate).done()
