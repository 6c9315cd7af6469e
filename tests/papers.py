"""The documents against the tree: what they name is there, and TRUST.md's tables are what is found.

    python3 papers.py            status 1 at a crate, file, wrong answer, function or definition that is named and not there,
                                 at a table that is not as found, or at a public function without its contract
    python3 papers.py --write    writes TRUST.md's tables anew, in place

Looked at are README.md, docs/ with what stands below it but PORT.md and DESIGN-PASS.md, which name what is gone, and the README.md of tests/, bench/ and chip/: names in backticks, and in TRACE.md the words before
them too. A file of definitions has to be believed if one is led to it, by what is cited, from a demand, from the statements on a
session's pieces and on its program, from what a line of the spool product's session does, or from a contract that stands at the edge: of a function that C calls, that a program uses, or that nothing
else in the tree uses.
"""

import fnmatch
import functools
import re
import sys

import trials
import wrong_answers
from tree import CRATES, ROOT, public, public_functions

TRUST = ROOT / "docs" / "TRUST.md"
PAPERS = [ROOT / "README.md", *sorted({*ROOT.glob("docs/**/*.md")} - {ROOT / "docs" / "PORT.md", ROOT / "docs" / "DESIGN-PASS.md"}), ROOT / "tests" / "README.md", ROOT / "bench" / "README.md", ROOT / "chip" / "README.md"]
LEANING = {name: below for name, (_, below) in trials.kit.lines().items()}
WORDS = ("crates.txt", *("crates/*/%s/**/*.*" % part for part in trials.kit.PARTS), "crates/*/*.h", "bench/*", "chip/*", "tests/*", "tests/chip/*", "tools/*")
TICKED = re.compile(r"`([^`]+)`")

# --------------------------------------------------------------------------- TRUST.md's tables


def readme_order():
    """The crates as README.md's table has them; it must have each that crates.txt has, once."""
    cells = re.findall(r"^\|[a-z ]*\| (`.+?) \|", (ROOT / "README.md").read_text(), re.M)
    order = [name for cell in cells for name in TICKED.findall(cell)]
    assert sorted(order) == sorted(LEANING), "README.md's table and crates.txt differ in %s" % sorted({*order} ^ {*LEANING})
    return order


def cited(file):
    """The files of definitions that a file cites, and the code's own types; no definition may rest on a proof of this repository's."""
    text = file.read_text()
    for crate, part, path in re.findall(r"\bRattle\.(\w+)\.(proofs|specs)\b\.?([\w.]*)", text):
        if crate not in LEANING:
            continue
        assert part == "specs", "%s cites a proof" % file
        if path.startswith("declared."):
            kind = next(word for word in path.split(".") if word[0].isupper())
            yield crate, kind
        else:
            yield CRATES / crate / "specs" / (path.split(".")[0] + ".antt")


def edge():
    """The files of code whose contracts stand at the edge."""
    crates = {name for name in LEANING if not any(name in below for below in LEANING.values())}
    files = {file for lib in (CRATES / name / "src" / "lib.rt" for name in crates) if lib.exists() for file in public(lib)}
    for main in CRATES.glob("*/src/main.rt"):
        for part in main.parent.rglob("*.rt"):
            for crate, path in re.findall(r"^use (\w+)::((?:\w+::)*)(?:\w+|\{[^{}]*\});", part.read_text(), re.M):
                if crate in LEANING:
                    files.add(CRATES / crate / "src" / (path.strip(":").replace("::", "/") + ".rt" if path else "lib.rt"))
    return files


def believed():
    """The files that have to be believed, and the types."""
    waiting = [CRATES / file for file in ("promises/specs/Demands.antt", "session/specs/Pieces.antt", "session/specs/Program.antt", "lever/specs/Told.antt")]
    files, types = {*waiting}, set()
    waiting += sorted(edge())
    while waiting:
        for found in cited(waiting.pop()):
            if isinstance(found, tuple):
                types.add(found)
            elif found not in files:
                files.add(found)
                waiting.append(found)
    return files, types


def opening(file):
    """What its first lines say it is for; of many words the first."""
    comment = re.match(r"(-- .*\n)+", file.read_text())[0]
    text = comment.replace("\n-- ", " ")[3:].split(" Assumes ")[0].strip()
    return text if len(text) <= 140 else re.split(r"[:.] ", text)[0]


def length(file):
    return len(file.read_text().splitlines())


def definitions():
    """Each table of TRUST.md by its title, as found."""
    order = readme_order()
    files, types = believed()
    every = [file for crate in order for file in sorted((CRATES / crate / "specs").glob("*.antt")) if file.stem != "Lib"]
    reached = [file for file in every if file in files]
    others = [file for file in every if file not in files]
    rows = ["| crate | file | lines | what it says |", "|---|---|---|---|"]
    rows += ["| `%s` | %s | %d | %s |" % (file.parts[-3], file.stem, length(file), opening(file)) for file in reached]
    rows += ["", "%d files, %d lines." % (len(reached), sum(map(length, reached)))]
    types = ["`%s` `%s`" % pair for pair in sorted(types, key=lambda pair: (order.index(pair[0]), pair[1]))]
    private = ["`%s` %s %d" % (file.parts[-3], file.stem, length(file)) for file in others]
    return {
        "definitions": "\n".join(rows),
        "types": "; ".join(types) + ".",
        "private": "; ".join(private) + ": %d files, %d lines." % (len(others), sum(map(length, others))),
    }


def verdict(crate):
    """What a check prints of the functions of C that are assumed: their count, and the lines that name them."""
    said = "\n".join(trials.said_of(crate))
    count = re.search(r"^logic=proved .*(axioms=\d+)", said, re.M)
    return count and count[1], [*dict.fromkeys(re.findall(r"^axioms [^)\n]*\)", said, re.M))]


def axioms():
    """A row for each program and each static library."""
    rows, others = ["| crate | prints |", "|---|---|"], 0
    for crate, (is_static, _) in trials.kit.lines().items():
        if not is_static and not (CRATES / crate / "src" / "main.rt").exists():
            others += 1
            continue
        count, lines = verdict(crate)
        rows.append("| `%s` | %s |" % (crate, "`%s`: %s" % (count, ", ".join("`%s`" % line for line in lines)) if count else "no `axioms=`: it reaches none"))
    return "\n".join([*rows, "| the other %d | libraries: what is built of them counts |" % others])


def with_tables(text):
    """TRUST.md with each table between its marks as found."""
    for title, table in {**definitions(), "axioms": axioms()}.items():
        begin, end = "<!-- %s -->\n" % title, "\n<!-- end -->"
        assert text.count(begin) == 1, "TRUST.md has no place for %s" % title
        before, behind = text.split(begin)
        text = before + begin + table + behind[behind.index(end) :]
    return text


# --------------------------------------------------------------------------- Names


@functools.cache
def words_of(*patterns):
    """Every word in the files, and every number."""
    files = [file for pattern in patterns for file in ROOT.glob(pattern) if file.is_file()]
    return {word for file in files for word in re.findall(r"\w[\w-]*", file.read_text(errors="replace"))}


wrong_names = functools.cache(wrong_answers.names)


def is_file(word, paper):
    if word.startswith("target/"):  # made by rt
        return True
    places = (ROOT, paper.parent, ROOT / "tests", CRATES, *CRATES.iterdir())
    return any(any(place.glob(word)) for place in places)


def is_path(word):
    return re.fullmatch(r"(\.\.?/)?[\w*.]+(/[\w*.]+)+/?|\w+\.(md|py|c|h|rt|antt|test|session|txt)", word)


def is_there(name, paper):
    """Whether a name in backticks stands for something, as far as it looks like a name."""
    if is_path(name):
        return is_file(name.rstrip("/").removeprefix("./"), paper)
    if re.fullmatch(r"[A-Z]\w*\.[\w*-]+", name):
        module, law = name.split(".")
        return law in words_of("crates/*/specs/**/%s.antt" % module, "crates/*/proofs/**/%s.antt" % module)
    if re.fullmatch(r"[a-z]\w*::[\w*]+", name):
        module, function = name.split("::")
        return bool(fnmatch.filter(words_of("crates/%s/src/lib.rt" % module, "crates/*/src/**/%s.rt" % module), function))
    if re.fullmatch(r"\w[\w-]*|[A-Z]\w*::\w+", name):
        return name in wrong_names("*") or {*name.split("::")} <= words_of(*WORDS)
    return all(is_file(word, paper) for word in name.split() if is_path(word))


def missing_names(paper):
    text = re.sub(r"^    .*", "", paper.read_text(), flags=re.M)  # code that stands apart is run by other tests
    return ["`%s`" % name for name in TICKED.findall(text) if not is_there(name, paper)]


def cells(column):
    """A column of TRACE.md's tables, each cell in its pieces."""
    for line in (ROOT / "docs" / "TRACE.md").read_text().splitlines():
        row = line.strip("|").split(" | ")
        if line.startswith("| ") and len(row) == 4 and row[0].strip() != "Sentence":
            yield from row[column].strip().split("; ")


def missing_wrong_answers():
    """Wrong answers that TRACE.md names in its last column, as 'crate `name`, `name`', and that are not tried."""
    for piece in cells(3):
        crate = piece.split()[0] if piece else ""
        named = TICKED.findall(piece) or (["*"] if piece.endswith(" edits") else [])
        for name in named:
            crates = piece.split(" edits")[0].split(" and ") if name == "*" else [crate]
            yield from ("%s `%s`" % (crate, name) for crate in crates if not fnmatch.filter(wrong_names(crate), name))


def missing_readings():
    """Wrong readings that TRACE.md names in its last column, in quotes, and that are not tried."""
    tried = (ROOT / "tests" / "other_readings.py").read_text()
    return ['"%s"' % title for piece in cells(3) for title in re.findall(r'"([^"]+)"', piece) if title + '", ' not in tried]


def missing_definitions():
    """Definitions that TRACE.md names in its second column, as 'crate File `name`', and that are not there."""
    for piece in cells(1):
        file = None
        for word in re.findall(r"`[^`]+`|\b[A-Z]\w+", piece.split(":")[0]):
            if word[0] != "`":
                file = word
                if not any(CRATES.glob("*/specs/%s.antt" % word)):
                    yield word
            elif file and word.strip("`") not in {*LEANING, *words_of("crates/*/specs/%s.antt" % file)}:
                yield "%s %s" % (file, word)


# --------------------------------------------------------------------------- Contracts


def bare_functions():
    """Public functions that ask something of their callers, or that promise nothing."""
    for _, file, name, head in public_functions():
        if "requires {" in head or not re.search(r"ensures (\w+ )?\{", head):
            yield "%s: %s has a requires, or no ensures" % (file.relative_to(ROOT), name)


def main(words):
    if words == ["--write"]:
        TRUST.write_text(with_tables(TRUST.read_text()))
        return 0
    missing = ["%s: %s" % (paper.relative_to(ROOT), name) for paper in PAPERS for name in missing_names(paper)]
    missing += ["docs/TRACE.md: " + name for name in (*missing_wrong_answers(), *missing_readings(), *missing_definitions())]
    bare = list(bare_functions())
    print("".join("%s is not there\n" % name for name in missing) + "".join("%s\n" % name for name in bare), end="")
    stale = with_tables(TRUST.read_text()) != TRUST.read_text()
    if stale:
        print("docs/TRUST.md: its tables are not as found; python3 tests/papers.py --write, then read what changed")
    return 1 if missing or bare or stale else 0


if __name__ == "__main__":
    sys.exit(main(sys.argv[1:]))
