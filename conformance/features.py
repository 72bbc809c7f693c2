"""The blocks of the test set. Each maker of FEATURES gives, for one footprint, pairs: what a block is there for, and its 16 bytes.

Nothing here depends on the clock or on Python's own random numbers, so that the blocks are the same everywhere."""
import functools
import itertools
import os
import sys
import zlib

sys.path.insert(0, os.path.join(os.path.dirname(os.path.abspath(__file__)), "..", "checks", "reference"))
import blocks as b

CLASSES = (0, 4, 8, 12)  # an endpoint mode of each class, which are told apart by the number of their integers
HDR_MODES = [cem for cem in range(16) if cem not in b.LDR_MODES]
COLOUR_LEVELS = [count for count in b.COUNTS if count >= 6]
WEIGHT_LEVELS = [count for count in b.COUNTS if count <= 32]
WORDS = {3: 256, 5: 128}


class Chance:
    """Numbers that follow from a text."""

    def __init__(self, *words):
        self.state = zlib.crc32(repr(words).encode()) | 1 << 40

    def bits(self, count):
        made = 0
        for _ in range(0, count, 32):
            self.state = (self.state * 6364136223846793005 + 1442695040888963407) % 2 ** 64
            made = made << 32 | self.state >> 32
        return made & (1 << count) - 1

    def below(self, count):
        return self.bits(32) * count >> 32

    def one(self, values):
        return values[self.below(len(values))]

    def several(self, count, limit):
        return [self.below(limit) for _ in range(count)]


def weight_count(mode):
    return mode[0] * mode[1] * mode[3]


def weight_bits(mode):
    return b.sequence_length(mode[2], weight_count(mode))


@functools.lru_cache(maxsize=None)
def level_for(bits, planes, parts, integers, has_selector):
    """`colour_level` by what it depends on."""
    left = (111 if parts == 1 else 99) - bits - (2 if planes == 2 else 0) - (3 * parts - 4 if has_selector else 0)
    fitting = [count for count in COLOUR_LEVELS if b.sequence_length(count, integers) <= left]
    return fitting[-1] if fitting else None


def bits_left(mode, parts, has_selector):
    """The bits that weights, component and endpoint modes leave to the colours."""
    return (111 if parts == 1 else 99) - weight_bits(mode) - (2 if mode[3] == 2 else 0) - (3 * parts - 4 if has_selector else 0)


def faults_of(width, height, mode, parts, cems, has_selector=None):
    """All faults of a shape without a selector or with one, and not the first alone."""
    bits, has_selector = weight_bits(mode), len(set(cems)) > 1 if has_selector is None else has_selector
    tests = {
        "GridTooLarge": mode[0] > width or mode[1] > height,
        "TooManyWeights": weight_count(mode) > 64,
        "WeightBits": not 24 <= bits <= 96,
        "DualPlaneFour": mode[3] == 2 and parts == 4,
        "TooManyColours": b.colour_count(parts, cems) > 18,
        "HdrEndpoint": any(cem in HDR_MODES for cem in cems),
        "ColourBits": level_for(bits, mode[3], parts, b.colour_count(parts, cems), has_selector) is None,
    }
    return [name for name, is_so in tests.items() if is_so]


@functools.lru_cache(maxsize=None)
def all_class_counts():
    """(parts, selector, number of parts of the upper class); with selector 0 the last is the class of them all."""
    return [(1, 0, number) for number in range(4)] + [(parts, selector, upper) for parts in (2, 3, 4) for selector in range(4)
                                                      for upper in range(parts + 1 if selector else 4)]


def classes_of(parts, selector, upper):
    """The class of each part."""
    return [selector - 1 + (k < upper) for k in range(parts)] if selector else [upper] * parts


def kind_of(fault, mode):
    """A fault by name; of the bits of weights, on which side."""
    return fault if fault != "WeightBits" else "WeightBits under 24" if weight_bits(mode) < 24 else "WeightBits over 96"


class Shapes:
    """What a footprint can have."""

    def __init__(self, width, height):
        self.width, self.height = width, height
        known = [(number, b.mode_of(number)) for number in range(2048)]
        self.all_modes = [(number, mode) for number, mode in known if mode]
        self.reserved = [number for number, mode in known if not mode and number & 0x1FF != 0x1FC]
        self.modes = [(number, mode) for number, mode in self.all_modes if not faults_of(width, height, mode, 1, [0])]
        self.first_modes = list({mode: (number, mode) for number, mode in reversed(self.modes)}.values())
        self.by_level = self.shapes_by_level()
        self.seeds = {parts: self.whole_seeds(parts) for parts in (2, 3, 4)}

    def level(self, mode, parts, cems):
        """The level of the colours, or None where the shape is faulty."""
        if faults_of(self.width, self.height, mode, parts, cems):
            return None
        return level_for(weight_bits(mode), mode[3], parts, b.colour_count(parts, cems), len(set(cems)) > 1)

    def shapes_by_level(self):
        """{(a mode of the class, level): the shape (mode number, parts) with the most parts, of one plane where there is one}."""
        found = {}
        for parts in (4, 3, 2, 1):
            for number, mode in sorted(self.first_modes, key=lambda entry: (entry[1][3], entry[0])):
                for cem in CLASSES:
                    level = self.level(mode, parts, [cem] * parts)
                    if level:
                        found.setdefault((cem, level), (number, parts))
        return found

    def budgets(self):
        """{(colour integers, bits left for them): [(mode number, parts, selector, number of parts of the upper class)]}, over all legal shapes."""
        found = {}
        modes = list({(weight_bits(mode), mode[3]): (number, mode) for number, mode in reversed(self.first_modes)}.values())
        for (number, mode), (parts, selector, upper) in itertools.product(modes, all_class_counts()):
            n = 2 * (parts * max(1, selector) + upper) if selector else 2 * parts * (upper + 1)
            if n <= 18 and mode[3] * parts < 8 and level_for(weight_bits(mode), mode[3], parts, n, selector > 0):
                found.setdefault((n, bits_left(mode, parts, selector > 0)), []).append((number, parts, selector, upper))
        return found

    def cases(self):
        """{(fault, parts, selector, planes): [(mode number, selector, classes)]}: ten shapes with that fault alone, from all over the table of modes."""
        found, known = {}, {}
        modes = list({mode: (number, mode) for number, mode in reversed(self.all_modes)}.values())
        for (number, mode), (parts, selector, upper) in itertools.product(modes, all_class_counts()):
            key = (self.mode_fault(mode), weight_bits(mode), mode[3], parts, selector, upper)
            if key not in known:
                classes = classes_of(parts, selector, upper)
                fault = faults_of(self.width, self.height, mode, parts, [4 * each for each in classes], selector > 0)
                known[key] = fault[0] if len(fault) == 1 else None if fault else "HdrEndpoint"
            if known[key]:
                name = kind_of(known[key], mode)
                found.setdefault((name, parts, selector, mode[3]), []).append((number, selector, classes_of(parts, selector, upper)))
        return {key: [those[k * len(those) // 10] for k in range(10)] for key, those in found.items()}

    def mode_fault(self, mode):
        """Which faults a block mode alone has."""
        return tuple(faults_of(self.width, self.height, mode, 1, [0]))

    def refused(self):
        """The numbers of the modes that are known and that this footprint can't have."""
        return [number for number, mode in self.all_modes if number & 0x1FF != 0x1FC and self.mode_fault(mode)]

    def mixed(self):
        """(mode number, parts, selector, class bits, level) of the shapes whose selector lets the endpoint modes differ: of modes whose weights
        take as many bits one."""
        modes = list({(weight_bits(mode), mode[3]): (number, mode) for number, mode in reversed(self.first_modes)}.values())
        for parts in (2, 3, 4):
            for selector in (1, 2, 3):
                for classes in range(1 << parts):
                    bits = tuple(b.bits(classes, k, 1) for k in range(parts))
                    n = sum(2 * (selector + bit) for bit in bits)
                    for number, mode in modes if n <= 18 else ():
                        level = level_for(weight_bits(mode), mode[3], parts, n, True)
                        if level and mode[3] * parts < 8:
                            yield number, parts, selector, bits, level

    def whole_seeds(self, parts):
        """Some seeds that give texels to each part."""
        chance, found = Chance("seeds", self.width, self.height, parts), []
        while len(found) < 8:
            seed = chance.below(1024)
            if len({b.part_of(self.width, self.height, parts, seed, x, y) for y in range(self.height) for x in range(self.width)}) == parts:
                found.append(seed)
        return found


def fields_of(shapes, chance, number, parts, cems, **given):
    """A block's fields by chance, except for those that are given."""
    mode = b.mode_of(number)
    selector = min(cem // 4 for cem in cems) + 1 if len(set(cems)) > 1 else 0
    level = level_for(weight_bits(mode), mode[3], parts, b.colour_count(parts, cems), bool(selector))
    fields = dict(mode=number, parts=parts, seed=chance.one(shapes.seeds[parts]) if parts > 1 else 0, selector=selector, cems=cems,
                  plane=1 + chance.below(4) if mode[3] == 2 else 0)
    fields["colours"] = given.get("colours") or chance.several(b.colour_count(parts, cems), level)
    fields["weights"] = given.get("weights") or chance.several(weight_count(mode), mode[2])
    fields.update(given)
    return fields


def coded(shapes, chance, number, parts, cems, **given):
    return b.write_block(("coded", fields_of(shapes, chance, number, parts, cems, **given)))


# ---- modes


def modes(shapes):
    """Each legal block mode with each number of parts that it allows."""
    chance = Chance("modes", shapes.width, shapes.height)
    for number, mode in shapes.modes:
        for parts in (1, 2, 3, 4):
            first = chance.below(4)
            for k in range(4):
                cem = (12, 8, 6, 0)[(first + k) % 4]
                if shapes.level(mode, parts, [cem] * parts):
                    told = "mode %d grid %dx%d level %d planes %d parts %d cem %d" % ((number,) + mode + (parts, cem))
                    yield told, coded(shapes, chance, number, parts, [cem] * parts)
                    break


# ---- sequences


def raw_sequence(chance, count, n, words=()):
    """A sequence of n integers as a number: low bits by chance, the codes of its first groups as given, then by chance."""
    low, base = b.digits_of(count)
    size, widths, _ = b.GROUPS[base]
    number = place = 0
    for group in range(-(-n // size)):
        code = words[group] if group < len(words) else chance.below(WORDS.get(base, 1))
        for width in widths:
            number |= chance.bits(low) << place | b.bits(code, 0, width) << place + low
            code >>= width
            place += low + width
    return number & (1 << b.sequence_length(count, n)) - 1


def with_sequences(shapes, chance, number, parts, cem, colours=None, weights=None):
    """A block with these sequences, as numbers."""
    mode, cems = b.mode_of(number), [cem] * parts
    integers = b.colour_count(parts, cems)
    level = shapes.level(mode, parts, cems)
    colours = raw_sequence(chance, level, integers) if colours is None else colours
    weights = raw_sequence(chance, mode[2], weight_count(mode)) if weights is None else weights
    empty = coded(shapes, chance, number, parts, cems, colours=[0] * integers, weights=[0] * weight_count(mode))
    whole = int.from_bytes(empty, "little") | colours << (17 if parts == 1 else 29) | b.reversed_bits(weights, 128)
    return whole.to_bytes(16, "little")


def words_at(base, count):
    """All words at the level with the fewest low bits, every fifth at the others, each of which begins elsewhere."""
    step = 1 if count in (3, 5, 6, 10) else 5
    return range(count % step, WORDS[base], step)


def all_words(shapes, chance, base):
    """Blocks in whose weights, and in whose colours, the words of the base stand, at every level."""
    size = b.GROUPS[base][0]
    for count in WEIGHT_LEVELS:
        if b.digits_of(count)[1] == base:
            number, mode = max((entry for entry in shapes.first_modes if entry[1][2] == count), key=lambda entry: weight_count(entry[1]))
            groups = weight_count(mode) // size
            for first in range(0, len(words_at(base, count)), groups):
                words = words_at(base, count)[first:first + groups]
                made = raw_sequence(chance, count, weight_count(mode), words)
                cem = 0 if shapes.level(mode, 1, [8]) is None else 8
                yield "weights level %d words %d to %d" % (count, words[0], words[-1]), with_sequences(shapes, chance, number, 1, cem, weights=made)
    for count in COLOUR_LEVELS:
        if b.digits_of(count)[1] == base:
            cem, number, parts = widest_shape(shapes, count)
            integers = b.colour_count(parts, [cem] * parts)
            groups = integers // size
            for first in range(0, len(words_at(base, count)), groups):
                words = words_at(base, count)[first:first + groups]
                made = raw_sequence(chance, count, integers, words)
                yield "colours level %d words %d to %d" % (count, words[0], words[-1]), with_sequences(shapes, chance, number, parts, cem, colours=made)


def widest_shape(shapes, level):
    """The shape with the most colour integers of a level, those of modes 8 and 12 first."""
    found = [(b.colour_count(parts, [cem] * parts), cem, number, parts) for (cem, count), (number, parts) in shapes.by_level.items() if count == level]
    return max(found)[1:]


def all_cuts(shapes, chance):
    """Sequences of each length modulo a group, at each level."""
    seen = set()
    for number, mode in shapes.first_modes:
        size = b.GROUPS[b.digits_of(mode[2])[1]][0]
        key = (mode[2], weight_count(mode) % size)
        if key not in seen:
            seen.add(key)
            yield "weights level %d, %d of them" % (mode[2], weight_count(mode)), with_sequences(shapes, chance, number, 1, 0)
    seen = set()
    for number, mode in shapes.first_modes:
        for parts in (1, 2, 3, 4):
            for cem in CLASSES:
                level, integers = shapes.level(mode, parts, [cem] * parts), b.colour_count(parts, [cem] * parts)
                key = (level, integers % b.GROUPS[b.digits_of(level)[1]][0]) if level else None
                if level and key not in seen:
                    seen.add(key)
                    yield "colours level %d, %d of them" % (level, integers), with_sequences(shapes, chance, number, parts, cem)
    for number, parts, selector, bits, level in shapes.mixed():
        cems = [4 * (selector - 1 + bit) for bit in bits]
        integers = b.colour_count(parts, cems)
        key = (level, integers % b.GROUPS[b.digits_of(level)[1]][0])
        if key not in seen:
            seen.add(key)
            yield "colours level %d, %d of them" % (level, integers), coded(shapes, chance, number, parts, cems, selector=selector, colours=chance.several(integers, level))


def all_values(shapes, chance):
    """Each value of each level, beginning with 0 and the greatest."""
    for count in WEIGHT_LEVELS:
        number, mode = max((entry for entry in shapes.first_modes if entry[1][2] == count), key=lambda entry: (-entry[1][3], weight_count(entry[1])))
        n = weight_count(mode)
        for told, weights in (("all 0", [0] * n), ("all greatest", [count - 1] * n)):
            yield "weights level %d %s" % (count, told), coded(shapes, chance, number, 1, [0], weights=weights)
        for first in range(0, count, n):
            weights = [(first + k) % count for k in range(n)]
            yield "weights level %d from %d on" % (count, first), coded(shapes, chance, number, 1, [0], weights=weights)
    for count in COLOUR_LEVELS:
        cem, number, parts = widest_shape(shapes, count)
        n, mode = b.colour_count(parts, [cem] * parts), b.mode_of(number)
        for told, colours in (("all 0", [0] * n), ("all greatest", [count - 1] * n)):
            yield "colours level %d %s" % (count, told), coded(shapes, chance, number, parts, [cem] * parts, colours=colours)
        for first in range(0, count, n):
            colours = [(first + k) % count for k in range(n)]
            weights = [(k + k // mode[0]) % 2 * (mode[2] - 1) for k in range(weight_count(mode))]
            yield "colours level %d from %d on" % (count, first), coded(shapes, chance, number, parts, [cem] * parts, colours=colours, weights=weights)


def sequences(shapes):
    """Every word of trits and quints at each level, each length of a last group, each value."""
    chance = Chance("sequences", shapes.width, shapes.height)
    for base in (3, 5):
        yield from all_words(shapes, chance, base)
    yield from all_cuts(shapes, chance)
    yield from all_values(shapes, chance)


# ---- endpoints


def end_patterns(chance, cem, level):
    """Integers of one part: at their ends, in both orders, and by chance."""
    n, most = 2 * (cem // 4 + 1), level - 1
    nearly = [chance.below(2) * most for _ in range(n)]
    rising = sorted(chance.several(n, level))
    equal = ([0, most, most, 0] + [most // 2] * 4)[:n]  # sums that are equal, of colours that aren't
    flat = [value for k in range(n // 2) for value in (most * (k + 1) // (n // 2), 0)]  # offsets of 0
    return [[0] * n, [most] * n, [0, most] * (n // 2), [most, 0] * (n // 2), rising, rising[::-1], nearly, equal, flat, chance.several(n, level)]


def endpoints(shapes):
    """Each endpoint mode at each level, then modes mixed in each class."""
    chance = Chance("endpoints", shapes.width, shapes.height)
    for cem in b.LDR_MODES:
        for level in COLOUR_LEVELS:
            if (cem // 4 * 4, level) in shapes.by_level:
                number, parts = shapes.by_level[cem // 4 * 4, level]
                patterns = end_patterns(chance, cem, level)
                for first in range(0, len(patterns), parts):
                    colours = sum((patterns[(first + k) % len(patterns)] for k in range(parts)), [])
                    yield "cem %d level %d integers %s" % (cem, level, colours), coded(shapes, chance, number, parts, [cem] * parts, colours=colours)
    yield from mixed_modes(shapes, chance)


def mode_of_class(number, turn):
    """An LDR endpoint mode of a class, another one each turn."""
    those = [cem for cem in b.LDR_MODES if cem // 4 == number]
    return those[turn % len(those)]


def mixed_modes(shapes, chance):
    """Two to four endpoint modes in a block, by the selector and the class bits, of one plane and of two."""
    for parts in (2, 3, 4):
        for planes in (1, 2) if parts < 4 else (1,):
            fitting = sorted((weight_bits(mode), number, mode) for number, mode in shapes.first_modes if mode[3] == planes)[:12]
            for selector in (1, 2, 3):
                for classes in range(1, 1 << parts):
                    for turn in range(3):
                        cems = [mode_of_class(selector - 1 + b.bits(classes, k, 1), turn + k) for k in range(parts)]
                        _, number, mode = fitting[(classes + turn) % len(fitting)]
                        if len(set(cems)) > 1 and min(cems) // 4 == selector - 1 and shapes.level(mode, parts, cems):
                            yield "mixed cems %s selector %d planes %d" % (cems, selector, planes), coded(shapes, chance, number, parts, cems)
            yield from same_by_selector(shapes, chance, parts, fitting)


def same_by_selector(shapes, chance, parts, fitting):
    """One endpoint mode in all parts, though the selector lets them differ; class bits all 0 and all 1."""
    for cem in b.LDR_MODES:
        for selector in (cem // 4, cem // 4 + 1):
            _, number, mode = fitting[cem % len(fitting)]
            level = level_for(weight_bits(mode), mode[3], parts, b.colour_count(parts, [cem] * parts), True)
            if 1 <= selector <= 3 and level and b.colour_count(parts, [cem] * parts) <= 18:
                colours = chance.several(b.colour_count(parts, [cem] * parts), level)
                yield "same cem %d selector %d planes %d" % (cem, selector, mode[3]), coded(shapes, chance, number, parts, [cem] * parts, selector=selector, colours=colours)


# ---- partitions


def partitions(shapes):
    """Each seed of two, three and four parts; each part has a grey of its own."""
    number, mode = min(((number, mode) for number, mode in shapes.first_modes if mode[3] == 1), key=lambda entry: weight_bits(entry[1]))
    for parts in (2, 3, 4):
        level = shapes.level(mode, parts, [0] * parts)
        colours = [(level - 1) * k // (parts - 1) for k in range(parts) for _ in (0, 1)]
        fields = dict(mode=number, parts=parts, seed=0, selector=0, cems=[0] * parts, plane=0, colours=colours, weights=[0] * weight_count(mode))
        base = int.from_bytes(b.write_block(("coded", fields)), "little")
        for seed in range(1024):
            yield "seed %d parts %d" % (seed, parts), (base | seed << 13).to_bytes(16, "little")


# ---- infill


def infill(shapes):
    """Each grid with weights by chance at the greatest level, and two planes with each component."""
    chance = Chance("infill", shapes.width, shapes.height)
    finest = {}
    for number, mode in shapes.first_modes:
        key = (mode[0], mode[1], mode[3])
        if shapes.level(mode, 1, [12]) and (key not in finest or finest[key][1][2] < mode[2]):
            finest[key] = (number, mode)
    for (across, down, planes), (number, mode) in sorted(finest.items()):
        most = shapes.level(mode, 1, [12]) - 1
        for plane in (1, 2, 3, 4) if planes == 2 else (0, 0):
            told = "grid %dx%d level %d planes %d component %d" % (across, down, mode[2], planes, plane)
            yield told, coded(shapes, chance, number, 1, [12], plane=plane, colours=[0, most] * 4)
    yield from parts_with_planes(shapes, chance)


def parts_with_planes(shapes, chance):
    """Two planes with two and three parts, where the component stands below more bits where there is a selector."""
    for parts in (2, 3):
        for number, mode in [entry for entry in shapes.first_modes if entry[1][3] == 2 and shapes.level(entry[1], parts, [8] * parts)][:6]:
            for plane in (1, 2, 3, 4):
                told = "mode %d parts %d component %d" % (number, parts, plane)
                yield told, coded(shapes, chance, number, parts, [8] * parts, plane=plane)
                level = level_for(weight_bits(mode), 2, parts, 6 * parts, True)
                if level:
                    colours = chance.several(6 * parts, level)
                    yield told + " selector 2", coded(shapes, chance, number, parts, [8] * parts, plane=plane, selector=2, colours=colours)


# ---- constants


def constant(extent, values):
    return b.write_block(("constant", extent, values))


def constants(shapes):
    """Void extents without coordinates and with some: each bit in turn."""
    chance, none = Chance("constants"), [8191] * 4
    for values in ([0] * 4, [65535] * 4, [0x8000] * 4, [0x7FFF] * 4):
        yield "values %s" % values, constant(none, values)
    for bit in range(64):
        yield "value bit %d" % bit, constant(none, [(1 << bit >> 16 * k) & 65535 for k in range(4)])
        yield "value bit %d alone is 0" % bit, constant(none, [65535 & ~(1 << bit >> 16 * k) for k in range(4)])
    for bit in range(13):
        for extent in ([0, 1 << bit, 0, 1], [0, 1, 0, 1 << bit], [(1 << bit) - 1, 8191, 0, 8191], [0, 8191, (1 << bit) - 1, 8191]):
            if extent[0] < extent[1] and extent[2] < extent[3]:
                yield "extent %s" % extent, constant(extent, chance.several(4, 65536))
    for _ in range(16):
        low, high = sorted(chance.several(2, 8191)), sorted(chance.several(2, 8191))
        if low[0] < low[1] and high[0] < high[1]:
            yield "extent %s" % (low + high), constant(low + high, chance.several(4, 65536))


# ---- illegal


def filled(chance, number, parts, cem):
    """The front of a block with one endpoint mode; all bits behind it by chance."""
    front, first = number | parts - 1 << 11, 17 if parts == 1 else 29
    front |= cem << 13 if parts == 1 else chance.bits(10) << 13 | cem << 25
    return (front | chance.bits(128 - first) << first).to_bytes(16, "little")


def illegal_extents(chance):
    """Void extents with each fault."""
    legal = int.from_bytes(constant([8191] * 4, chance.several(4, 65536)), "little")
    yield "HdrConstant", legal | 1 << 9
    for extent in ([1, 2, 3, 4], [8191] * 4, [0, 8191, 0, 8191], [0, 1, 0, 1], [4096, 4097, 8190, 8191]):
        for left in (3, 0) if extent[0] else (3, 1):
            number = int.from_bytes(constant(extent, chance.several(4, 65536)), "little") | 1 << 9
            yield "HdrConstant extent %s" % extent, number & ~(3 << 10) | left << 10
    for left in (0, 1, 2):
        yield "ExtentReserved bits %d" % left, legal & ~(3 << 10) | left << 10
        for extent in ([1, 2, 3, 4], [8191] * 4, [0, 8191, 0, 8191]):
            number = int.from_bytes(constant(extent, chance.several(4, 65536)), "little")
            yield "ExtentReserved bits %d extent %s" % (left, extent), number & ~(3 << 10) | left << 10
    orders = [[5, 5, 1, 2], [1, 2, 7, 7], [6, 5, 1, 2], [1, 2, 8, 7], [0, 0, 0, 0], [8191, 0, 8191, 0], [8191, 8191, 1, 2], [1, 2, 8191, 8191],
              [8190, 8191, 8191, 8191], [8191, 8190, 8191, 8191], [8191, 8191, 8190, 8191], [8191, 8191, 8191, 8190]]
    for extent in orders:
        yield "ExtentOrder %s" % extent, int.from_bytes(constant(extent, chance.several(4, 65536)), "little")


def illegal_shapes(shapes, chance):
    """For each grid, level and number of parts whose only fault is the one that is named, one block."""
    seen = set()
    for number, mode in shapes.all_modes:
        for parts in (1, 2, 3, 4):
            for cem in (0, 4, 8, 12):
                faults = faults_of(shapes.width, shapes.height, mode, parts, [cem] * parts)
                if len(faults) != 1 or faults[0] == "HdrEndpoint":
                    continue
                what = {"GridTooLarge": mode[:2] + mode[3:], "TooManyWeights": mode[:2] + mode[3:], "WeightBits": weight_bits(mode),
                        "DualPlaneFour": mode[:2], "TooManyColours": (parts, cem), "ColourBits": (parts, cem, weight_bits(mode))}[faults[0]]
                if (faults[0], what) not in seen:
                    seen.add((faults[0], what))
                    yield faults[0], number, mode, parts, cem


def illegal(shapes):
    """Each fault by name; each block has that fault alone."""
    chance = Chance("illegal", shapes.width, shapes.height)
    for told, number in illegal_extents(chance):
        yield told, number.to_bytes(16, "little")
    for number in shapes.reserved:
        yield "ReservedMode %d" % number, filled(chance, number, 1, 8)
    for fault, number, mode, parts, cem in illegal_shapes(shapes, chance):
        yield "%s: grid %dx%d level %d planes %d parts %d cem %d" % ((fault,) + mode + (parts, cem)), filled(chance, number, parts, cem)
    number, mode = min(shapes.first_modes, key=lambda entry: (entry[1][3], weight_bits(entry[1])))
    for cems in ([8, 8, 12], [12, 12, 8], [12, 8, 8, 8], [4, 4, 8, 8], [8, 8, 8, 4]):
        if b.colour_count(len(cems), cems) > 18 and faults_of(shapes.width, shapes.height, mode, len(cems), cems) == ["TooManyColours"]:
            yield "TooManyColours: %d by cems %s" % (b.colour_count(len(cems), cems), cems), coded(shapes, chance, number, len(cems), cems)
    for cem in HDR_MODES:
        for parts in (1, 2, 3, 4):
            if faults_of(shapes.width, shapes.height, mode, parts, [cem] * parts) == ["HdrEndpoint"]:
                yield "HdrEndpoint: cem %d in %d parts" % (cem, parts), coded(shapes, chance, number, parts, [cem] * parts)
    for cems in ([2, 3], [3, 7], [7, 11], [11, 14], [2, 3, 7]):
        yield "HdrEndpoint: cems %s" % cems, coded(shapes, chance, number, len(cems), cems)


# ---- budgets


def cems_of(chance, parts, selector, upper, profile=b.LDR_MODES):
    """Endpoint modes of a profile by the selector; the parts of the upper class are turned round by chance."""
    classes = classes_of(parts, selector, upper)
    turn = chance.below(parts)
    if not selector:
        return [chance.one([cem for cem in profile if cem // 4 == upper])] * parts
    return [chance.one([cem for cem in profile if cem // 4 == each]) for each in classes[turn:] + classes[:turn]]


def with_selector(shapes, chance, number, parts, selector, cems, **given):
    """A block with this selector, whether the endpoint modes differ or not."""
    mode = b.mode_of(number)
    n = b.colour_count(parts, cems)
    colours = chance.several(n, level_for(weight_bits(mode), mode[3], parts, n, selector > 0))
    return coded(shapes, chance, number, parts, cems, selector=selector, **{"colours": colours, **given})


def budgets(shapes):
    """Each number of colour integers with each number of bits left for them, by two shapes that differ most, where there are two."""
    chance = Chance("budgets", shapes.width, shapes.height)
    for (n, left), those in sorted(shapes.budgets().items()):
        for number, parts, selector, upper in sorted({those[0], those[-1], those[len(those) // 2]}):
            mode, cems = b.mode_of(number), cems_of(chance, parts, selector, upper)
            level = level_for(weight_bits(mode), mode[3], parts, n, selector > 0)
            told = "integers %d bits %d level %d: cems %s selector %d planes %d" % (n, left, level, cems, selector, mode[3])
            yield told, with_selector(shapes, chance, number, parts, selector, cems)


# ---- spare


def spare_keys(shapes):
    """{(parts, selector, planes): [(mode number, upper, bits of the colours, bits left)]} of the shapes with bits that nothing uses."""
    found = {}
    for (n, left), those in sorted(shapes.budgets().items()):
        for number, parts, selector, upper in those:
            mode = b.mode_of(number)
            level = level_for(weight_bits(mode), mode[3], parts, n, selector > 0)
            if left > b.sequence_length(level, n):
                found.setdefault((parts, selector, mode[3]), []).append((number, upper, b.sequence_length(level, n), left))
    return found


def spare(shapes):
    """Bits that nothing uses, none of them 0 and then by chance, with each number of parts, selector and number of planes."""
    chance = Chance("spare", shapes.width, shapes.height)
    for (parts, selector, planes), those in sorted(spare_keys(shapes).items()):
        for k in range(12):
            number, upper, used, left = those[k * len(those) // 12]
            cems = cems_of(chance, parts, selector, upper)
            data = int.from_bytes(with_selector(shapes, chance, number, parts, selector, cems), "little")
            set_bits = (1 << left - used) - 1 if k % 3 == 0 else chance.bits(left - used) or 1
            data |= set_bits << (17 if parts == 1 else 29) + used
            yield "%d of %d spare bits set: cems %s selector %d planes %d" % (format(set_bits, "b").count("1"), left - used, cems, selector, planes), data.to_bytes(16, "little")


# ---- faults


def raw_block(chance, number, parts, selector, cems):
    """The bits of mode, parts and endpoint modes, where these have room; all others by chance."""
    made, bits = number | parts - 1 << 11, weight_bits(b.mode_of(number))
    if parts == 1:
        return (made | cems[0] << 13 | chance.bits(111) << 17).to_bytes(16, "little")
    field = cems[0] << 2 if not selector else selector
    for k in range(parts if selector else 0):
        field |= cems[k] // 4 - selector + 1 << 2 + k | cems[k] % 4 << 2 + parts + 2 * k
    made |= chance.bits(10) << 13 | (field & 63) << 23 | chance.bits(99) << 29
    size, place = 3 * parts - 4, 128 - bits - (3 * parts - 4)
    if selector and place >= 29:
        made = made & ~((1 << size) - 1 << place) | field >> 6 << place
    return made.to_bytes(16, "little")


def shape_of(data):
    """Mode number, parts, selector and endpoint modes of any block of a known mode; endpoint modes that lie below bit 0 have bits of 0."""
    number = int.from_bytes(data, "little")
    mode = b.mode_of(number & 2047)
    parts, low = b.bits(number, 11, 2) + 1, b.bits(number, 23, 6)
    if parts == 1:
        return number & 2047, 1, 0, [b.bits(number, 13, 4)]
    if low & 3 == 0:
        return number & 2047, parts, 0, [low >> 2] * parts
    place = 128 - weight_bits(mode) - (3 * parts - 4)
    field = low | (b.bits(number, place, 3 * parts - 4) << 6 if place >= 0 else 0)
    return number & 2047, parts, low & 3, [4 * ((low & 3) - 1 + b.bits(field, 2 + k, 1)) + b.bits(field, 2 + parts + 2 * k, 2) for k in range(parts)]


def case_of(shapes, data):
    """(fault, parts, selector, planes) of a block with one fault of its shape or a reserved mode; None of others."""
    whole = int.from_bytes(data, "little")
    if whole & 0x1FF == 0x1FC:
        return None
    if not b.mode_of(whole & 2047):
        return "ReservedMode", b.bits(whole, 11, 2) + 1, b.bits(whole, 23, 2) if b.bits(whole, 11, 2) else 0, 1 + b.bits(whole, 10, 1)
    number, parts, selector, cems = shape_of(data)
    mode = b.mode_of(number)
    found = faults_of(shapes.width, shapes.height, mode, parts, cems, selector > 0)
    if found == ["HdrEndpoint"] and any(cem in b.LDR_MODES for cem in cems):
        return None
    return (kind_of(found[0], mode), parts, selector, mode[3]) if len(found) == 1 else None


def faults(shapes):
    """Each fault of a shape alone, ten times with each number of parts, each selector and each number of planes that allow it."""
    chance = Chance("faults", shapes.width, shapes.height)
    for key, those in sorted(shapes.cases().items()):
        profile = HDR_MODES if key[0] == "HdrEndpoint" else b.LDR_MODES
        for number, selector, classes in those:
            for _ in range(1000):
                if selector:
                    turn = chance.below(key[1])
                    cems = [chance.one([cem for cem in profile if cem // 4 == each]) for each in classes[turn:] + classes[:turn]]
                else:
                    cems = [chance.one([cem for cem in profile if cem // 4 == classes[0]])] * key[1]
                data = raw_block(chance, number, key[1], selector, cems)
                if case_of(shapes, data) == key:
                    yield "%s parts %d selector %d planes %d: grid %dx%d level %d cems %s" % (key + b.mode_of(number)[:3] + (cems,)), data
                    break
            else:
                raise ValueError("no block for %s" % (key,))
    yield from reserved_cases(shapes, chance)
    yield from near_extents(shapes, chance)


RESERVED_CASES = [("ReservedMode", parts, selector, planes) for parts in (1, 2, 3, 4) for selector in range(4 if parts > 1 else 1) for planes in (1, 2)]


def reserved_cases(shapes, chance):
    """Reserved modes, ten times with each number of parts, each selector and both values of the bit of two planes."""
    for _, parts, selector, planes in RESERVED_CASES:
        those = [number for number in shapes.reserved if number >> 10 == planes - 1]
        for k in range(10):
            number = those[k * len(those) // 10]
            data = number | parts - 1 << 11 | (8 << 13 if parts == 1 else chance.bits(10) << 13 | selector << 23 | (8 << 25 if not selector else chance.bits(4) << 25))
            data |= chance.bits(111 if parts == 1 else 99) << (17 if parts == 1 else 29)
            yield "ReservedMode %d parts %d selector %d, bit 10 is %d" % (number, parts, selector, planes - 1), data.to_bytes(16, "little")


def near_extents(shapes, chance):
    """Blocks like void extents, but for one of their nine bits; without the last of them, a mode that no footprint can have."""
    for bit, extent, upper in itertools.product(range(9), ([8191] * 4, [0, 8191, 0, 8191], [1, 2, 3, 4]), (6, 7, 4, 0)):
        data = int.from_bytes(constant(extent, chance.several(4, 65536)), "little")
        made = (data & ~(7 << 9) & ~(1 << bit) | upper << 9).to_bytes(16, "little")
        if bit < 2:
            made = (data & ~(7 << 9) | upper << 9 | 1 << bit).to_bytes(16, "little")
        if not mixes_profiles(shapes.width, shapes.height, made):
            yield "void extent with bit %d turned, bits 9 to 11 are %s: extent %s" % (bit, format(upper, "03b"), extent), made


def refused(shapes):
    """Each block mode that the footprint can't have, the parts and the selector in turn."""
    chance = Chance("refused", shapes.width, shapes.height)
    for k, number in enumerate(shapes.refused()):
        mode = b.mode_of(number)
        parts = 1 + k % (3 if mode[3] == 2 else 4)
        selector = (k // 4) % 3 if parts > 1 else 0
        cems = [4 * max(0, selector - 1)] * parts if selector < 3 else [0] * parts
        yield "mode %d grid %dx%d level %d planes %d parts %d selector %d" % ((number,) + mode + (parts, selector)), raw_block(chance, number, parts, selector, cems)


# ---- profiles


def profiles(shapes):
    """LDR and HDR endpoint modes in one block, with each selector, number of parts and of planes, and each HDR mode."""
    chance = Chance("profiles", shapes.width, shapes.height)
    modes = sorted(((weight_bits(mode), number, mode) for number, mode in shapes.first_modes), key=lambda entry: entry[:2])
    for parts, selector, planes in itertools.product((2, 3, 4), (1, 2, 3), (1, 2)):
        fitting = [(number, mode) for _, number, mode in modes if mode[3] == planes and planes * parts < 8]
        for hdr in (cem for cem in HDR_MODES if cem // 4 in (selector - 1, selector)):
            for k in range(2 * parts):
                cems = [chance.one([cem for cem in b.LDR_MODES if cem // 4 in (selector - 1, selector)]) for _ in range(parts)]
                cems[k % parts] = hdr
                if k >= parts and parts > 2:
                    cems[(k + 1) % parts] = chance.one([cem for cem in HDR_MODES if cem // 4 in (selector - 1, selector)])
                n = b.colour_count(parts, cems)
                those = [(number, mode) for number, mode in fitting if n <= 18 and level_for(weight_bits(mode), planes, parts, n, True)]
                if those:
                    number, mode = those[k * 7 % len(those)]
                    told = "cems %s selector %d planes %d" % (cems, selector, planes)
                    yield told, with_selector(shapes, chance, number, parts, selector, cems)


# ---- any


def mixes_profiles(width, height, data):
    """Whether a block has LDR and HDR endpoint modes: of those this set says nothing."""
    kept, b.LDR_MODES = b.LDR_MODES, list(range(16))
    try:
        block = b.read_block(width, height, data)
    except b.Fault:
        return False
    finally:
        b.LDR_MODES = kept
    return block[0] == "coded" and len({cem in kept for cem in block[1]["cems"]}) == 2


def any_blocks(shapes):
    """Bytes by chance, and legal blocks with one bit turned."""
    chance, made = Chance("any", shapes.width, shapes.height), []
    while len(made) < 160:
        data = chance.bits(128).to_bytes(16, "little")
        if not mixes_profiles(shapes.width, shapes.height, data):
            made.append(("bytes by chance", data))
    while len(made) < 320:
        number, mode = chance.one(shapes.first_modes)
        parts, cem = 1 + chance.below(4), chance.one(b.LDR_MODES)
        if shapes.level(mode, parts, [cem] * parts):
            bit = chance.below(128)
            data = (int.from_bytes(coded(shapes, chance, number, parts, [cem] * parts), "little") ^ 1 << bit).to_bytes(16, "little")
            if not mixes_profiles(shapes.width, shapes.height, data):
                made.append(("bit %d turned" % bit, data))
    yield from made


FEATURES = {"modes": modes, "sequences": sequences, "endpoints": endpoints, "partitions": partitions, "infill": infill, "constants": constants,
            "budgets": budgets, "spare": spare, "illegal": illegal, "faults": faults, "refused": refused, "profiles": profiles, "any": any_blocks}
BOTH_FLAVOURS = ("sequences", "endpoints", "budgets", "infill", "constants", "illegal", "faults", "profiles", "any")  # the others stand in the linear flavour alone
