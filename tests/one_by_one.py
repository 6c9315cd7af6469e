"""Each wrong answer of the must-fail edits tried alone: not in the gate, where rounds try several in one check.

    python3 one_by_one.py [CRATE[/NAME]..]    after `rt all check`; status 1 at a wrong answer that is not refused by itself

What a round shows of a wrong answer could hang on the others in it. Here each is made in a copy of its crate by itself, and checked over
what a check of the crate as it stands proved (trials.py, some ten seconds): it has to be refused for a fact of the function's or the law's that
it names and, where it comes from a round, nothing else may be unproved but for what rests on that.
"""

import sys

import trials
from tree import CRATES
from wrong_answers import edited, facts, faults, stands_alone, wrong_answers


def asked_for(crate, name, words):
    return not words or crate in words or "%s/%s" % (crate, name) in words


def main(words):
    count, failed, seed = 0, 0, None
    for edit in sorted(CRATES.glob("*/must-fail/*.edit")):
        crate = edit.parts[-3]
        for wrong in wrong_answers(edit):
            if asked_for(crate, wrong.name, words):
                if seed is None or seed.crate != crate:
                    seed = trials.Seed(crate)
                log = seed.tried(edited(crate, [wrong]))
                said, broken = faults(crate, [wrong], log, stands_alone(edit)), sorted({*facts(log)})
                count, failed = count + 1, failed + bool(said)
                print("%s %s/%s: %s" % ("FAULT" if said else "refused", crate, wrong.name, "; ".join([*said, ", ".join(broken)])), flush=True)
    print("%d wrong answers tried one by one, %d faults" % (count, failed))
    return 1 if failed or not count else 0


if __name__ == "__main__":
    sys.exit(main(sys.argv[1:]))
