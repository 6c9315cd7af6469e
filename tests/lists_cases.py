"""Pairs of configuration images for the restore list: good ones, and ones of which one or both are damaged.

A group of GOOD is a generator of (first, second), two configurations. A group of DAMAGED is
one of (current, wanted, number), two images; the number is that of the refusal where the
damage alone says it, else None.
"""

import random

import images_cases
import model
import sessions
from images_cases import CHAINS, DEFAULTS, REALS, put, some_configuration, some_steps, some_value, with_bits
from images_model import COUNT, ENTRIES, PLACES, image_of

UNCHAINED = [place for place in range(len(ENTRIES)) if place not in images_cases.CHAINED]
TIMES = [place for place, entry in enumerate(ENTRIES) if entry.type is model.UNSIGNED16]

# --------------------------------------------------------------------------- Good pairs


def with_chain(configuration, chain, steps):
    changed = list(configuration)
    put(changed, chain.places, chain.values(steps))
    return changed


def moved_chains(rng):
    """One chain is moved, up and back: as tight as can be by one and by much, and from anything to anything."""
    for chain in CHAINS:
        count = len(chain.places)
        low, high = sorted(rng.sample(range(chain.room + 1), 2))
        beside = rng.randrange(chain.room)
        moves = [(count * [low], count * [high]), (count * [beside], count * [beside + 1]), (count * [0], count * [chain.room])]
        moves.append((some_steps(rng, chain), some_steps(rng, chain)))
        for before, after in moves:
            pair = with_chain(DEFAULTS, chain, before), with_chain(DEFAULTS, chain, after)
            yield pair
            yield pair[::-1]


def near_pairs(rng):
    """Some entries and chains of a configuration are others."""
    for _ in range(120):
        first = some_configuration(rng)
        second = list(first)
        for place in rng.sample(UNCHAINED, rng.randrange(8)):
            put(second, [place], [some_value(rng, ENTRIES[place])])
        for chain in rng.sample(CHAINS, rng.randrange(6)):
            second = with_chain(second, chain, some_steps(rng, chain))
        yield first, second


def far_pairs(rng):
    """Nearly every entry differs."""
    for _ in range(50):
        yield some_configuration(rng), some_configuration(rng)
    ends = [images_cases.uniform_configuration(end, share) for end in ("low", "high") for share in (0, 1, 4)]
    yield from ((first, second) for first in ends for second in ends)


def equal_pairs(rng):
    for configuration in (DEFAULTS, *(some_configuration(rng) for _ in range(8))):
        yield configuration, list(configuration)


def pairs_of_bits(rng):
    """REAL32 that differ in few bits, -0.0 beside 0.0 among them, and times on both sides of 32,768 and of 256."""
    for place in rng.sample(REALS, 4):
        for _ in range(4):
            bits = rng.choice(sessions.REAL_BITS)
            other = rng.choice([one for one in sessions.REAL_BITS if one != bits])
            yield with_bits(DEFAULTS, place, bits), with_bits(DEFAULTS, place, other)
        for bits, other in ((0, 0x80000000), (0, 0x00010000), (0x3F800000, 0x3F808000), (1, 0xFFFF), (0xC0000001, 0x40000001)):
            yield with_bits(DEFAULTS, place, bits), with_bits(DEFAULTS, place, other)
    for _ in range(4):
        first, second = list(DEFAULTS), list(DEFAULTS)
        for place in REALS:
            put(first, [place], [sessions.some_real(rng)])
            put(second, [place], [sessions.some_real(rng)])
        yield first, second
    for values in ((32767, 32768), (60000, 0), (255, 256), (40000, 50000), (0, 32768)):
        first, second = list(DEFAULTS), list(DEFAULTS)
        for place in rng.sample(TIMES, 3):
            pair = values[:: rng.choice((1, -1))]
            put(first, [place], pair[:1])
            put(second, [place], pair[1:])
        yield first, second


GOOD = (moved_chains, near_pairs, far_pairs, equal_pairs, pairs_of_bits)

# --------------------------------------------------------------------------- Damaged pairs


def faulty_pairs(rng):
    """Each kind of damage, to the current image, to the wanted one, and to both."""
    for fault in images_cases.FAULTS:
        for _ in range(8):
            good = image_of(some_configuration(rng))
            bad = fault(rng, image_of(some_configuration(rng)), rng.randrange(len(ENTRIES)))
            worse = rng.choice(images_cases.FAULTS)(rng, good, rng.randrange(len(ENTRIES)))
            yield bad, good, None
            yield good, bad, None
            yield bad, worse, None


def counted_pairs(rng):
    """Damage that says its number: cut, counted wrong, bytes left over."""
    good = image_of(some_configuration(rng))
    for length in (0, 1, 3, 4, 10, 11, 12, 100, 5206, *rng.sample(range(5206), 20)):
        yield good[:length], good, -1
        yield good, good[:length], -11
        yield good[:length], COUNT.pack(610) + good[4:], -1
    for count in images_cases.WRONG_COUNTS:
        yield COUNT.pack(count) + good[4:], good[:-1], -2
        yield good, COUNT.pack(count) + good[4:], -12
    for tail in (b"\0", good[4:12], bytes(500)):
        yield good + tail, good, -7
        yield good, good + tail, -17
        yield good + tail, good + tail, -7


def valued_pairs(rng):
    """Values that say their number: out of range, not finite, and every chain broken at one link."""
    good = image_of(some_configuration(rng))
    places = [PLACES[name] for name in ((0x3014, 1), (0x4101, 1), (0x4640, 2), (0x7321, 4), (0x2330, 3))]
    bad = [(-5, [place], [images_cases.values_past(ENTRIES[place])[0]]) for place in places]
    for chain, k in rng.sample(images_cases.broken_links(), 20):
        bad.append((-6, chain.places, images_cases.barely_broken(rng, chain, k)))
    images = []
    for number, *change in bad:
        configuration = list(DEFAULTS)
        put(configuration, *change)
        images.append((number, image_of(configuration)))
    for bits in sessions.NOT_FINITE:
        images.append((-5, image_of(with_bits(DEFAULTS, rng.choice(REALS), bits))))
    for number, image in images:
        yield image, good, number
        yield good, image, number - 10
        yield image, rng.choice(images)[1], number


DAMAGED = (faulty_pairs, counted_pairs, valued_pairs)


def cases(groups, seed):
    """The pairs of these groups; each group has its own random numbers."""
    for group in groups:
        for pair in group(random.Random("%s %s" % (group.__name__, seed))):
            yield group.__name__, *pair
