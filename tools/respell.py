#!/usr/bin/env python3
"""Brings the names of definitions, laws, records and their fields to today's spelling: words in snake case, types in camel case.

usage: python3 tools/respell.py          writes crates/ anew, in place; says which names fall together
       python3 tools/respell.py --list   old and new, a line each
       python3 tools/respell.py --apart  the last step alone, of names that the kit's script let fall together

It was run once, behind the kit's own script, before any proof was written anew (its last step a little later, with --apart), and changes no name that the kit gives and no text but comments in back quotes. Functions of src/,
names for C, strings, inputs and outputs keep their names.
"""
import glob
import re
import sys

TOKEN = re.compile(r"[^\s(){}\[\],;.λ→×⊎∷≡|`\"]+")
SIGNATURE = re.compile(r"^\s*(?:(?:pub|abbrev|unfoldable|ruleset)\s+)*([^\s:(){}λ→,.⌜]+)\s*(?:\{[^}]*\}\s*|\([^)]*\)\s*)*:(?=\s|$)")
TYPE = re.compile(r"^\s*(?:pub\s+)?(?:data|record)\s+(\S+)")
USE = re.compile(r"^\s*(?:pub\s+)?(?:ghost\s+)?use\s+([^\s{;]+?)\.?(?:\{([^}]*)\})?(?:\s+as\s+\S+)?;?\s*$")

# Where two names would fall together, or the kit has a word of that name; CRATE:NAME is said of the files of that crate alone. A law that would have
# its definition's name gets `_lem`.
APART = {
    "first_of": "first_that_holds",
    "goesOn": "goes_on_counting",
    "promises:frame-of": "frame_of_record",
    "printer:frame-of": "frame_of_lem",
    "by-rule": "by_rule_lem",
    "input-turn": "input_turn_lem",
    "is-error": "is_error_lem",
    "is-on": "is_on_lem",
    "logic-turn": "logic_turn_lem",
    "looked-up": "looked_up_lem",
    "math-turn": "math_turn_lem",
    "no-space": "no_space_lem",
    "output-turn": "output_turn_lem",
    "sent-line": "sent_line_lem",
    "state-line": "state_line_lem",
    "table-turn": "table_turn_lem",
}


# Definitions that the kit's script gave the name of another room's: the room, its file, that name, and the one that it has here.
TOGETHER = [
    ("signals", "Words", "number_of", "number_of_signal"),
    ("printer", "Reading", "bytes_of", "bytes_of_digits"),
    ("printer", "Reading", "size_of", "size_of_digits"),
]


def spelled(name):
    """A name in today's spelling."""
    if name[0].isupper():
        head, *rest = name.split("-")
        return head + "".join(p[:1].upper() + p[1:] for p in rest)
    parts = re.sub(r"(?<=[a-z0-9])([A-Z])(?=[a-z0-9])", lambda m: "_" + m.group(1).lower(), name)
    return parts.replace("-", "_")


def sources():
    for part in ("specs", "proofs"):
        yield from sorted(glob.glob(f"crates/*/{part}/**/*.antt", recursive=True))


def declared(text):
    """The names that a file gives: of definitions, laws, records, fields and cases."""
    for line in text.split("\n"):
        code = line.split("--")[0]
        found = TYPE.match(code) or SIGNATURE.match(code)
        if found and TOKEN.fullmatch(found.group(1)):
            yield found.group(1)


def named(name, path, renamed):
    return APART.get(path.split("/")[1] + ":" + name, renamed.get(name, name))


def foreign(text):
    """The names that a file has from the kit."""
    names = set()
    for line in text.split("\n"):
        found = USE.match(line)
        if found and found.group(2) and not OWN.match(found.group(1)):
            for item in found.group(2).split(","):
                names.add(item.split(" as ")[-1].strip())
    return names


OWN = None


def main(argv):
    global OWN
    if argv == ["--apart"]:
        part()
        return 0
    crates = sorted(p.split("/")[1] for p in glob.glob("crates/*/src"))
    OWN = re.compile(r"Rattle\.(?:%s)\." % "|".join(crates))
    texts = {p: open(p, encoding="utf-8").read() for p in sources()}
    given = {}
    for path, text in texts.items():
        for name in declared(text):
            given.setdefault(name, set()).add(path)
    renamed = {}
    for name in given:
        new = APART.get(name, spelled(name))
        if new != name:
            renamed[name] = new
    if argv == ["--list"]:
        for old, new in sorted(renamed.items()):
            print(old, new)
        return 0
    now = {}
    for name, paths in given.items():
        for path in paths:
            if "/specs/" in path:
                now.setdefault(named(name, path, renamed), set()).add(name)
    for new, olds in sorted(now.items()):
        if len(olds) > 1:
            print("two definitions fall together:", new, *sorted(olds))

    def turn(code, kept, path):
        return TOKEN.sub(lambda m: m.group(0) if m.group(0) in kept else named(m.group(0), path, renamed), code)

    def comment(text, kept, path):
        return re.sub(r"`[^`\n]*`", lambda m: turn(m.group(0), kept, path), text)

    for path, text in texts.items():
        kept = foreign(text)
        met = {}
        for token in set(TOKEN.findall(text)) - kept:
            met.setdefault(named(token, path, renamed), set()).add(token)
        for new, olds in sorted(met.items()):
            if len(olds) > 1:
                print("fall together in", path + ":", new, *sorted(olds))
        lines = []
        for line in text.split("\n"):
            at = line.find("--")
            if at >= 0 and (at == 0 or line[at - 1] == " "):
                lines.append(turn(line[:at], kept, path) + comment(line[at:], kept, path))
            else:
                lines.append(turn(line, kept, path))
        write(path, text, "\n".join(lines))
    for path in sorted(glob.glob("crates/*/src/**/*.rt", recursive=True)):
        text = open(path, encoding="utf-8").read()
        kept = foreign(text)
        lines = []
        for line in text.split("\n"):
            if line.lstrip().startswith("//"):
                lines.append(comment(line, kept, path))
            elif re.match(r"\s*(ghost|requires|ensures)\b", line):
                lines.append(turn(line, kept, path))
            else:
                lines.append(line)
        write(path, text, "\n".join(lines))
    part()
    return 0


def part():
    for path in [*sources(), *sorted(glob.glob("crates/*/src/**/*.rt", recursive=True))]:
        text = open(path, encoding="utf-8").read()
        write(path, text, parted(path, text))


def parted(path, text):
    """The text with the names of TOGETHER told apart, where it gives one of them or has it from its room."""
    for room, file, old, new in TOGETHER:
        has = re.search(r"use Rattle\.%s\.specs\.%s\.\{[^}]*\b%s\b" % (room, file, old), text)
        if not has and path != f"crates/{room}/specs/{file}.antt":
            continue
        word = re.compile(r"(?<![\w.'-])%s(?![\w.'(-])" % old)
        code = path.endswith(".rt")
        text = "\n".join(word.sub(new, line) if not code or re.match(r"\s*(ghost|requires|ensures)\b", line) else line for line in text.split("\n"))
    return text


def write(path, old, new):
    if new != old:
        open(path, "w", encoding="utf-8").write(new)


if __name__ == "__main__":
    raise SystemExit(main(sys.argv[1:]))
