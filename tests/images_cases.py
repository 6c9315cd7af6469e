"""Configuration images to be read: good ones at every edge, and damaged ones for every refusal number.

A case is (image, wanted). Wanted is the refusal number where the damage alone says it,
0 for a good image, and None where only the model can say. A group is a generator of
cases; the groups differ in the kind of damage.
"""

import bisect
import random
import struct

import model
import sessions
from images_model import COUNT, ENTRIES, HEAD, IMAGE_BYTES, LINKS, data_of, image_of

# Where each record begins in an image that is whole.
STARTS = [COUNT.size]
for _entry in ENTRIES:
    STARTS.append(STARTS[-1] + HEAD.size + _entry.type.size)

DEFAULTS = [data_of(entry, entry.default) for entry in ENTRIES]
REALS = [place for place, entry in enumerate(ENTRIES) if entry.type is model.REAL32]

# --------------------------------------------------------------------------- Good configurations


class Chain:
    """Members from the bottom up, as places, and the least distance of each from the bottom."""

    def __init__(self, bottom):
        self.places, self.distances = [bottom], [0]
        above = {lower: (gap, upper) for lower, gap, upper in LINKS}
        while self.places[-1] in above:
            gap, upper = above[self.places[-1]]
            self.places.append(upper)
            self.distances.append(self.distances[-1] + gap)
        self.low, self.high = ENTRIES[bottom].low, ENTRIES[bottom].high
        self.room = self.high - self.low - self.distances[-1]

    def values(self, steps):
        """In order if the steps, from 0 to the room, do not fall; equal steps are as tight as can be."""
        return [self.low + step + distance for step, distance in zip(steps, self.distances)]


_uppers = {upper for _, _, upper in LINKS}
CHAINS = [Chain(lower) for lower, _, _ in LINKS if lower not in _uppers]
CHAINED = {place for chain in CHAINS for place in chain.places}


def put(configuration, places, values):
    for place, value in zip(places, values):
        configuration[place] = data_of(ENTRIES[place], value)


def some_value(rng, entry):
    if entry.type is model.REAL32:
        return sessions.some_real(rng)
    return rng.choice((entry.low, entry.high, entry.default, rng.randint(entry.low, entry.high)))


def some_steps(rng, chain):
    kind, count = rng.randrange(4), len(chain.places)
    if kind == 0:  # as tight as can be
        return count * [rng.choice((0, chain.room, rng.randint(0, chain.room)))]
    if kind == 1:  # torn between the ends
        return sorted(rng.choice((0, chain.room)) for _ in range(count))
    if kind == 2:  # close together
        start = rng.randint(0, chain.room - count)
        return [start + step for step in sorted(rng.randrange(count + 1) for _ in range(count))]
    return sorted(rng.randint(0, chain.room) for _ in range(count))


def some_configuration(rng):
    configuration = [data_of(entry, some_value(rng, entry)) for entry in ENTRIES]
    for chain in CHAINS:
        put(configuration, chain.places, chain.values(some_steps(rng, chain)))
    return configuration


def uniform_configuration(end, share):
    """Every entry at its own end ("low" or "high"); the chains tight, at that share of their room."""
    configuration = [data_of(e, 0.0 if e.type is model.REAL32 else getattr(e, end)) for e in ENTRIES]
    for chain in CHAINS:
        put(configuration, chain.places, chain.values(len(chain.places) * [chain.room * share // 4]))
    return configuration


# The entries with more than one value: all but the axis types.
CHANGEABLE = [place for place, entry in enumerate(ENTRIES) if entry.low < entry.high]


def beside_default(place):
    """Another value than the default, close to it, so that chains hold. Of all 605, 420 rise and 185 fall."""
    entry = ENTRIES[place]
    if entry.type is model.REAL32:
        return struct.pack("<I", 1)
    step = 1 if place % 2 else -1
    near = entry.default + step
    return data_of(entry, near if entry.low <= near <= entry.high else entry.default - step)


def with_bits(configuration, place, bits):
    """With the REAL32 at that place made of these bits."""
    changed = list(configuration)
    changed[place] = struct.pack("<I", bits)
    return changed


def good_images(rng):
    yield image_of(DEFAULTS), 0
    for end in ("low", "high"):
        for share in range(5):
            yield image_of(uniform_configuration(end, share)), 0
    for place in REALS:
        for bits in sessions.REAL_BITS:
            yield image_of(with_bits(DEFAULTS, place, bits)), 0
    for _ in range(300):
        yield image_of(some_configuration(rng)), 0


# --------------------------------------------------------------------------- One fault


def cut_images(rng):
    """One image, cut at every length."""
    image = image_of(some_configuration(rng))
    for length in range(len(image)):
        yield image[:length], 1
    yield image, 0


def overwritten(image, at, data):
    return image[:at] + data + image[at + len(data) :]


def with_byte(image, at, byte):
    return overwritten(image, at, bytes((byte,)))


def changed_images(rng):
    """One byte changed, at every place, in four ways; tight chains make a small change a break."""
    fresh, tight = image_of(DEFAULTS), image_of(uniform_configuration("low", 2))
    some, other = image_of(some_configuration(rng)), image_of(some_configuration(rng))
    for at in range(IMAGE_BYTES):
        yield with_byte(tight, at, (tight[at] + 1) & 0xFF), None
        yield with_byte(fresh, at, 0xFF), None
        yield with_byte(some, at, some[at] ^ 0x80), None
        yield with_byte(other, at, rng.randrange(256)), None


def longer_images(rng):
    """Bytes left over: one to many, a record more, an image's beginning."""
    image = image_of(some_configuration(rng))
    for tail in [bytes(n) for n in range(1, 20)] + [b"\xFF", image[:4], image[-9:], image[4:15], bytes(2000)]:
        yield image + tail, 7
    for _ in range(100):
        yield image + rng.randbytes(rng.randrange(1, 300)), 7


WRONG_COUNTS = (0, 1, 610, 612, 0x63, 0x6302, 0x63020000, 0x02630000, 611 + 0x10000, 611 + 0x80000000, 0xFFFFFFFF)


def miscounted_images(rng):
    """A wrong count before anything else: nothing, cut images, a record less, a record more."""
    image = image_of(some_configuration(rng))
    record = image[STARTS[610] :]
    for count in WRONG_COUNTS:
        for rest in (b"", b"\0", image[4 : STARTS[1]], image[4 : STARTS[610]], image[4:], image[4:] + record):
            yield COUNT.pack(count) + rest, 2


def reordered_images(rng):
    """Records changed over, twice there or left out, with a count that is right or goes with them."""
    image = image_of(some_configuration(rng))
    records = [image[start:end] for start, end in zip(STARTS, STARTS[1:])]
    for i in range(611):
        twice, without = records[: i + 1] + records[i:], records[:i] + records[i + 1 :]
        yield image[:4] + b"".join(twice), 3 if i < 610 else 7
        yield image[:4] + b"".join(without), 3 if i < 610 else 1
        other = i + 1 if i < 610 else rng.randrange(610)
        swapped = list(records)
        swapped[i], swapped[other] = records[other], records[i]
        yield image[:4] + b"".join(swapped), 3
    yield COUNT.pack(612) + b"".join(twice), 2
    yield COUNT.pack(610) + b"".join(without), 2
    yield image[:4] + b"".join(reversed(records)), 3


def values_past(entry):
    """One past its range and the ends of its type, as far as they are outside."""
    if entry.type is model.REAL32:
        return []
    tried = {entry.low - 1, entry.high + 1, entry.type.low, entry.type.high}
    return sorted(v for v in tried if entry.type.low <= v <= entry.type.high and not entry.low <= v <= entry.high)


NARROW = [place for place, entry in enumerate(ENTRIES) if values_past(entry)]


def out_of_range_images(rng):
    for configuration in (DEFAULTS, some_configuration(rng)):
        for place in NARROW:
            for value in values_past(ENTRIES[place]):
                changed = list(configuration)
                put(changed, [place], [value])
                yield image_of(changed), 5
        for place in REALS:
            for bits in sessions.NOT_FINITE:
                yield image_of(with_bits(configuration, place, bits)), 5


def barely_broken(rng, chain, k):
    """Tight, but for the link above member k: one less than it asks for, = where < and -1 where <=."""
    values = chain.values(len(chain.places) * [rng.randint(1, chain.room)])
    return values[: k + 1] + [value - 1 for value in values[k + 1 :]]


def widely_broken(chain, k):
    """The member k at the top of the range and the next at the bottom; all other links hold."""
    below = chain.values(len(chain.places) * [0])
    above = chain.values(len(chain.places) * [chain.room])
    return below[:k] + [chain.high, chain.low] + above[k + 2 :]


def broken_links():
    """Every link, as its chain and the member below it."""
    return [(chain, k) for chain in CHAINS for k in range(len(chain.places) - 1)]


def broken_images(rng):
    """Each link broken alone, on three configurations."""
    for configuration in (DEFAULTS, some_configuration(rng), uniform_configuration("high", 4)):
        for chain, k in broken_links():
            for values in (barely_broken(rng, chain, k), widely_broken(chain, k)):
                changed = list(configuration)
                put(changed, chain.places, values)
                yield image_of(changed), 6


# --------------------------------------------------------------------------- Two faults
# A fault is done to an image that is whole or damaged already, at about the record asked for.


def fault_cut_in_head(rng, image, place):
    return image[: STARTS[place] + rng.randrange(HEAD.size)]


def fault_cut_in_data(rng, image, place):
    return image[: STARTS[place] + HEAD.size + rng.randrange(ENTRIES[place].type.size)]


def fault_count(rng, image, place):
    return COUNT.pack(rng.choice(WRONG_COUNTS)) + image[COUNT.size :]


def fault_name(rng, image, place):
    entry, other = ENTRIES[place], ENTRIES[(place + rng.choice((-1, 1, 7))) % 611]
    wrong = rng.choice(((entry.index ^ 0x100, entry.sub), (entry.index, entry.sub ^ 1), (other.index, other.sub)))
    return overwritten(image, STARTS[place], struct.pack("<HB", *wrong))


def fault_size(rng, image, place):
    right = ENTRIES[place].type.size
    wrong = [size for size in (0, 1, 2, 3, 4, 0x100 + right, 0xFFFFFFFF) if size != right]
    return overwritten(image, STARTS[place] + 3, struct.pack("<I", rng.choice(wrong)))


def fault_value(rng, image, place):
    place = NARROW[min(bisect.bisect_left(NARROW, place), len(NARROW) - 1)]
    data = data_of(ENTRIES[place], rng.choice(values_past(ENTRIES[place])))
    return overwritten(image, STARTS[place] + HEAD.size, data)


def fault_chain(rng, image, place):
    chain, k = rng.choice(broken_links())
    for member, value in zip(chain.places, barely_broken(rng, chain, k)):
        image = overwritten(image, STARTS[member] + HEAD.size, data_of(ENTRIES[member], value))
    return image


def fault_left_over(rng, image, place):
    return image + rng.randbytes(rng.choice((1, 1, 2, 7, 8, 40)))


FAULTS = (fault_cut_in_head, fault_cut_in_data, fault_count, fault_name, fault_size, fault_value, fault_chain, fault_left_over)
CHANGE_THE_LENGTH = (fault_cut_in_head, fault_cut_in_data, fault_left_over)


def two_places(rng):
    """In order; often the same, or neighbours."""
    first = rng.randrange(611)
    second = rng.choice((first, min(first + 1, 610), rng.randrange(first, 611)))
    return first, second


def doubly_damaged_images(rng):
    """Every ordered pair of faults, the first at the earlier record or at the same one."""
    for first in FAULTS:
        for second in FAULTS:
            for _ in range(40):
                image = image_of(some_configuration(rng) if rng.randrange(8) == 0 else DEFAULTS)
                faults = list(zip((first, second), two_places(rng)))
                faults.sort(key=lambda fault: fault[0] in CHANGE_THE_LENGTH)  # done last, so that the places stay
                for fault, place in faults:
                    image = fault(rng, image, place)
                yield image, None


# --------------------------------------------------------------------------- All of them

AIMED = (
    good_images,
    longer_images,
    miscounted_images,
    doubly_damaged_images,
    out_of_range_images,
    broken_images,
    reordered_images,
)
EVERYWHERE = (cut_images, changed_images)


def cases(groups, seed):
    """The cases of these groups; each group has its own random numbers."""
    for group in groups:
        for image, wanted in group(random.Random("%s %s" % (group.__name__, seed))):
            yield group.__name__, image, wanted
