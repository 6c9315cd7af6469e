"""The repository's tree as the tests read it: its crates, and which of their files others may use."""

import pathlib
import re

ROOT = pathlib.Path(__file__).resolve().parent.parent
CRATES = ROOT / "crates"


def public(file):
    """The file, and those of its modules that others may use."""
    folder = file.parent if file.name == "lib.rt" else file.with_suffix("")
    modules = re.findall(r"^pub mod (\w+);", file.read_text(), re.M)
    return [file, *(found for module in modules for found in public(folder / (module + ".rt")))]


def heads(file):
    """Each public function of a file with what stands between its name and its body."""
    for text in re.split(r"^ *pub (?:extern \"C\" )?fn ", file.read_text(), flags=re.M)[1:]:
        yield re.match(r"\w+", text)[0], re.split(r"^ *\{$|\) [^{}\n]*\{$", text, maxsplit=1, flags=re.M)[0]


def public_functions():
    """Every public function: its crate, its file, its name and its contract."""
    for lib in sorted(CRATES.glob("*/src/lib.rt")):
        for file in public(lib):
            for name, head in heads(file):
                yield lib.parts[-3], file, name, head
