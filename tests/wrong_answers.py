"""The must-fail edits, wrong answer by wrong answer: each has to be refused by itself.

    python3 wrong_answers.py [CRATE..]    best after `rt ci` or `rt all check`; status 1 at a wrong answer that is not refused

An edit makes wrong answers, and `rt ci` tells that its check was refused, by the first line of what that said. All that it says is read here:
each check is made once more (trials.py), some ten seconds each, beside one of each crate as it stands. Before an edit's changes stands
'wrong: NAME by FUNCTION' or 'wrong: NAME by File.law': what it is called, and whose proof has to notice it.

A check judges each function by its own code and by the contracts of what it calls, and each law by its own statement. So a round,
round_1.edit and so on, holds a wrong answer of each of several functions, or a wrong statement of each of several laws: one check
tries them all, and what it says of each function's own proof, or of each law, tells whether that one is refused. Of a round: each wrong
answer is another function's or law's; its changes stand in what is that one's alone; the check has found a fact there that does not
hold; and nothing else is unproved but for what rests on one of them. Where the check leaves a function's goals untried, since they wait for a
callee that is refused in the same round, that wrong answer is made alone and checked by itself.

An edit that changes what several lean on, a definition as a rule, stands alone in a file of its own name: the check has found a fact of
the one that it names that does not hold.
"""

import re
import sys
from concurrent.futures import ThreadPoolExecutor

import trials
from tree import CRATES, public_functions

WRONG = re.compile(r"wrong: (\w+) by ([\w:.-]+)")
VERDICT = re.compile(r"fn \w+?::(\S+): (.*)")
ERROR = re.compile(r"(?:\./)?(\S+)\.antt:\d+:\d+: error: `([^`]+)`: (.*)")
# A goal that nothing proves, in a line above its function's.
OPEN = re.compile(r"note: src/\S+:\d+:\d+: it is not proved that .*")
LEFT_OUT = re.compile(r"(?:\./)?(\S+)\.antt:\d+:\d+: error: \d+ declarations? that depends? on .* not admitted")
UNTRIED = "note: `search` has not tried the goals of `%s`"
PROOF = re.compile(r"(.*)/(?:Answers|Invariants|Proof)")
# What is no fact: what is left over when something else was refused, or names a thing that is gone.
FOLLOWS = ("was not admitted", "not in scope", "has no field", "has no `", "can be named")


class Wrong:
    """A wrong answer: its name, whose it is, and its changes, each a file, what stands there and what takes its place."""

    def __init__(self, name, whose):
        self.name, self.whose, self.changes = name, whose, []


def wrong_answers(edit):
    """Those that the file of an edit holds."""
    found, file = [], None
    for line in edit.read_text().splitlines():
        said = WRONG.fullmatch(line)
        if said:
            found.append(Wrong(*said.groups()))
        assert said or not line.startswith("wrong"), "%s: %s" % (edit, line)
        assert found or not line, "%s: nobody's wrong answer" % edit
        if line.startswith("file: "):
            file = line.removeprefix("file: ")
        elif line.startswith("old: "):
            found[-1].changes.append([file, line.removeprefix("old: "), ""])
        elif line.startswith("new:"):
            found[-1].changes[-1][2] = line.removeprefix("new:").removeprefix(" ")
    return found


def stands_alone(edit):
    return not edit.stem.startswith("round_")


def names(crate):
    """The wrong answers that are tried of a crate."""
    return {wrong.name for edit in CRATES.glob("%s/must-fail/*.edit" % crate) for wrong in wrong_answers(edit)}


def uses(text, name):
    return len(re.findall(r"\b%s\b" % re.escape(name), text))


def everything(crate, pattern):
    return "".join(file.read_text() for file in (CRATES / crate).glob(pattern))


def of_function(crate, function):
    """What is the function's alone, each text with its file below the crate: its body, and constants that nothing else uses."""
    *modules, name = function.split("::")
    is_method = bool(modules) and modules[-1][0].isupper()
    file = "src/%s.rt" % "/".join(modules[:-1] if is_method else modules or ["lib"])
    text, indent = (CRATES / crate / file).read_text(), " " * 4 * is_method
    head = re.search(r"^%s(pub(\(crate\))? )?(extern \"C\" )?fn %s\b" % (indent, name), text, re.M)
    begin = re.compile(r"^%s\{$|\) (-> [^{}\n]+ )?\{$" % indent, re.M).search(text, head.end()).end()
    body = text[begin : text.index("\n%s}\n" % indent, begin)]
    source = re.sub(r"^use .*$", "", everything(crate, "src/**/*.rt"), flags=re.M)
    own = [(file, body)]
    for place in (CRATES / crate / "src").rglob("*.rt"):
        for found in re.finditer(r"^(?:pub )?const (\w+):.*?;$", place.read_text(), re.M | re.S):
            if uses(body, found[1]) and uses(source, found[1]) == uses(body, found[1]) + 1:
                own.append((place.relative_to(CRATES / crate).as_posix(), found[0]))
    return own


def of_law(crate, law):
    """The text that is the law's alone, with its file below the crate, if there is any.

    That is its statement, which has the law's name with a capital, if no other definition uses it but as a whole field of a record that
    gathers statements. Where no statement has its name, it is the line among the laws that says what it claims, and the whole file of
    definitions, if no contract and no other definition leads there.
    """
    module, name = law.split(".")
    file = CRATES / crate / "specs" / (module + ".antt")
    title, text = "".join(word[:1].upper() + word[1:] for word in name.removesuffix("_lem").split("_")), file.read_text() if file.exists() else ""
    statement = re.search(r"^abbrev pub %s :.*?\n(?=\n|\Z)" % title, text, re.M | re.S)
    if statement:
        others = re.sub(r"^(?:pub )?(?:use|mod) .*$|^ *pub [\w-]+ : %s$|--.*$" % title, "", everything(crate, "specs/*.antt"), flags=re.M)
        return [("specs/%s.antt" % module, statement[0])] if uses(others, title) == uses(statement[0], title) else []
    own = []
    for laws in (CRATES / crate / "proofs").rglob(module + ".antt"):
        own += [(laws.relative_to(CRATES / crate).as_posix(), line) for line in re.findall(r"^ *pub %s : .*$" % name, laws.read_text(), re.M)]
    others = everything(crate, "src/**/*.rt") + everything(crate, "specs/*.antt")
    return own if "specs.%s." % module in others else [*own, ("specs/%s.antt" % module, text)]


def stand(changes, file, text):
    """Whether all changes are of that file and, made one after the other, stand in that text."""
    for at, old, new in changes:
        if at != file or old not in text:
            return False
        text = text.replace(old, new)
    return True


def proved_by(place):
    """The function whose proof a file is, by its place below proofs/, or nothing."""
    proof = PROOF.fullmatch(place)
    return proof and proof[1].replace("/", "::")


def facts(log):
    """The facts that the check found not to hold: of each, the function whose proof needs it, or the law as File.law."""
    is_open = False
    for line in re.sub(r"\n +(?=has no field)", " ", "\n".join(log)).splitlines():  # behind a long name it stands on a line of its own
        error, verdict = ERROR.match(line), VERDICT.match(line)
        if error and not any(words in error[3] for words in FOLLOWS):
            place = re.sub(r"^(?:.*/)?(specs|proofs)/", "", error[1])
            yield proved_by(place) or "%s.%s" % (place.split("/")[-1], error[2])
        elif OPEN.match(line):
            is_open = True
        elif verdict:
            if verdict[2] != "proved" and (is_open or re.match(r"no proof: expected answers in .*`search` did not prove ", verdict[2])):
                yield verdict[1]
            is_open = False


def resting(log):
    """The functions whose proofs name what was not admitted: they rest on a law that is refused."""
    for left_out in filter(None, map(LEFT_OUT.match, log)):
        function = proved_by(re.sub(r"^(?:.*/)?proofs/", "", left_out[1]))
        if function:
            yield function
    for error in filter(None, map(ERROR.match, log)):
        function = proved_by(re.sub(r"^(?:.*/)?proofs/", "", error[1]))
        if function and "was not admitted" in error[3]:
            yield function


def is_untried(crate, whose, log):
    """Whether the check left the function's goals untried, since they wait for a callee's proof."""
    return any(line.startswith(UNTRIED % ("%s::%s" % (crate, whose))) for line in log)


def faults(crate, wrongs, log, alone=False):
    """What is not as it has to be, of an edit's wrong answers and the log of its check."""
    broken, owners = {*facts(log)}, [wrong.whose for wrong in wrongs]
    said = ["%s: no fact of %s is refused" % (wrong.name, wrong.whose) for wrong in wrongs if wrong.whose not in broken]
    if alone:
        return said
    for wrong in wrongs:
        own = (of_law if "." in wrong.whose else of_function)(crate, wrong.whose)
        if owners.count(wrong.whose) > 1:
            said.append("%s: another wrong answer is %s's" % (wrong.name, wrong.whose))
        if not any(stand(wrong.changes, file, text) for file, text in own):
            said.append("%s: changes more than %s" % (wrong.name, wrong.whose))
    verdicts = [verdict.groups() for verdict in map(VERDICT.match, log) if verdict]
    apart = {name for name, verdict in verdicts if verdict != "proved" and "it calls `" not in verdict} - {*resting(log)} | broken
    return said + ["%s is refused too" % name for name in sorted(apart - {*owners})]


def without(log, whose):
    """The log as it would be if that wrong answer were taken for right."""
    file, _, law = whose.partition(".")
    begin = r"\S*proofs/(?:\S+/)?%s\.antt:\S+ error: `%s`" % (file, law) if law else r"\S*proofs/%s/(?:Answers|Invariants|Proof)\.antt:" % whose.replace("::", "/")
    kept, notes = [], []
    for line in log:
        verdict = VERDICT.match(line)
        if OPEN.match(line):
            notes.append(line)
        elif verdict and verdict[1] == whose:
            kept.append(re.sub(r": .*", ": proved", line))
            notes = []
        elif not re.match(begin, line):
            kept += [*notes, line] if verdict else [line]
            notes = [] if verdict else notes
    return kept


def edited(crate, wrongs):
    """Each file that an edit changes, below its crate, with its text as the edit leaves it."""
    texts = {}
    for file, old, new in (change for wrong in wrongs for change in wrong.changes):
        text = texts.get(file) or (CRATES / crate / file).read_text()
        assert text.count(old) == 1, "%s: '%s' stands %d times in %s" % (crate, old, text.count(old), file)
        texts[file] = text.replace(old, new)
    return texts


def untried():
    """Crates with public functions and no edit, edits of more in a proof than what a law claims, and edits whose name says something else
    than they hold."""
    edits = sorted(CRATES.glob("*/must-fail/*.edit"))
    tried = {edit.parts[-3] for edit in edits}
    yield from ("%s: has public functions and no wrong answer" % crate for crate in sorted({crate for crate, *_ in public_functions()} - tried))
    for edit in filter(stands_alone, edits):
        if [wrong.name for wrong in wrong_answers(edit)] != [edit.stem]:
            yield "%s/%s: is not the one wrong answer of its name" % (edit.parts[-3], edit.stem)
        if any(file.startswith("proofs/") for wrong in wrong_answers(edit) for file, *_ in wrong.changes):
            yield "%s/%s: edits a proof, and nobody has to believe one" % (edit.parts[-3], edit.stem)
    for crate in sorted(tried):
        every = [wrong.name for edit in edits if edit.parts[-3] == crate for wrong in wrong_answers(edit)]
        yield from ("%s/%s: stands twice" % (crate, name) for name in sorted({name for name in every if every.count(name) > 1}))


def judged(crate, wrongs, alone, seed):
    """The faults of an edit, and how many checks it took."""
    log = seed.tried(edited(crate, wrongs))
    apart = [] if alone else [wrong for wrong in wrongs if wrong.whose not in {*facts(log)} and is_untried(crate, wrong.whose, log)]
    said = faults(crate, wrongs, log, alone)
    said = [fault for fault in said if not any(fault.startswith("%s: no fact of " % wrong.name) for wrong in apart)]
    for wrong in apart:
        own = seed.tried(edited(crate, [wrong]))
        said += faults(crate, [wrong], own)
        assert faults(crate, [wrong], without(own, wrong.whose)), "%s/%s is not looked for" % (crate, wrong.name)
    # The check's own check: one that slipped through, and one that spoils what is another's, would be noticed.
    for wrong in wrongs:
        others = [other for other in wrongs if other is not wrong]
        assert wrong in apart or faults(crate, wrongs, without(log, wrong.whose), alone), "%s/%s is not looked for" % (crate, wrong.name)
        assert alone or wrong in apart or faults(crate, others, log), "%s/%s is not seen to spoil others" % (crate, wrong.name)
    return said, 1 + len(apart)


def main(words):
    said, count, checks, edits = list(untried()), 0, 0, sorted(CRATES.glob("*/must-fail/*.edit"))
    assert edits, "there are no must-fail edits"
    edits = [edit for edit in edits if not words or edit.parts[-3] in words]
    crates = sorted({edit.parts[-3] for edit in edits}, key=lambda crate: -sum(file.stat().st_size for file in trials.kit.files_of(crate).values()))
    with ThreadPoolExecutor(trials.at_a_time()) as pool:
        # First what all edits of a crate begin with; an edit waits for nothing that is not under way.
        seeds = {crate: pool.submit(trials.Seed, crate) for crate in crates}
        judge = lambda edit: judged(edit.parts[-3], wrong_answers(edit), stands_alone(edit), seeds[edit.parts[-3]].result())
        edits.sort(key=lambda edit: (-crates.index(edit.parts[-3]), edit.stem))
        tried = [(edit, pool.submit(judge, edit)) for edit in edits]
        for edit, judgement in tried:
            try:
                found, took = judgement.result()
            except AssertionError as why:
                found, took = [str(why)], 1
            said += ["%s/%s: %s" % (edit.parts[-3], edit.stem, fault) for fault in found]
            count, checks = count + len(wrong_answers(edit)), checks + took
        for seed in seeds.values():
            if not seed.exception():
                seed.result().done()
    print("".join(fault + "\n" for fault in said) + "%d wrong answers in %d checks, %d faults" % (count, checks, len(said)))
    return 1 if said else 0


if __name__ == "__main__":
    sys.exit(main(sys.argv[1:]))
