"""Blocks of ASTC, read and shown by the standard alone: plain and slow.

Khronos Data Format Specification, chapter "ASTC Compressed Texture Image Formats", LDR profile, 2D footprints; where it leaves a choice,
docs/FORMATS.md. A block is a tuple: ("constant", extent, values) or ("coded", fields), with fields as a dictionary.
"""

COUNTS = [2, 3, 4, 5, 6, 8, 10, 12, 16, 20, 24, 32, 40, 48, 64, 80, 96, 128, 160, 192, 256]
FOOTPRINTS = [(4, 4), (5, 4), (5, 5), (6, 5), (6, 6), (8, 5), (8, 6), (8, 8), (10, 5), (10, 6), (10, 8), (10, 10), (12, 10), (12, 12)]
LDR_MODES = [0, 1, 4, 5, 6, 8, 9, 10, 12, 13]
MAGENTA = (255, 0, 255, 255)


class Fault(Exception):
    """A fault with the name that the project gives it."""


def bits(number, place, count):
    return number >> place & (1 << count) - 1


def reversed_bits(number, count):
    return int(format(number, "0%db" % count)[::-1], 2) if count else 0


# ---- integer sequences


def digits_of(count):
    """The low bits of an integer of a level, and its digit's base: 1, 3 or 5."""
    for base in (1, 3, 5):
        if count % base == 0 and (count // base) & (count // base - 1) == 0:
            return (count // base).bit_length() - 1, base
    raise ValueError(count)


def sequence_length(count, n):
    low, base = digits_of(count)
    return n * low + {1: 0, 3: (8 * n + 4) // 5, 5: (7 * n + 2) // 3}[base]


def trits(t):
    if bits(t, 2, 3) == 7:
        c, t4, t3 = bits(t, 5, 3) << 2 | bits(t, 0, 2), 2, 2
    else:
        c = bits(t, 0, 5)
        t4, t3 = (2, bits(t, 7, 1)) if bits(t, 5, 2) == 3 else (bits(t, 7, 1), bits(t, 5, 2))
    if bits(c, 0, 2) == 3:
        t2, t1, t0 = 2, bits(c, 4, 1), bits(c, 3, 1) << 1 | bits(c, 2, 1) & ~bits(c, 3, 1)
    elif bits(c, 2, 2) == 3:
        t2, t1, t0 = 2, 2, bits(c, 0, 2)
    else:
        t2, t1, t0 = bits(c, 4, 1), bits(c, 2, 2), bits(c, 1, 1) << 1 | bits(c, 0, 1) & ~bits(c, 1, 1)
    return t0, t1, t2, t3, t4


def quints(q):
    if bits(q, 1, 2) == 3 and bits(q, 5, 2) == 0:
        low = bits(q, 0, 1)
        return 4, 4, low << 2 | (bits(q, 4, 1) & ~low) << 1 | bits(q, 3, 1) & ~low
    if bits(q, 1, 2) == 3:
        q2 = 4
        c = bits(q, 3, 2) << 3 | (1 - bits(q, 6, 1)) << 2 | (1 - bits(q, 5, 1)) << 1 | bits(q, 0, 1)
    else:
        q2, c = bits(q, 5, 2), bits(q, 0, 5)
    return (bits(c, 3, 2), 4, q2) if bits(c, 0, 3) == 5 else (bits(c, 0, 3), bits(c, 3, 2), q2)


# what follows each value's low bits: this many bits of the group's code
GROUPS = {1: (1, [0], None), 3: (5, [2, 2, 1, 2, 1], trits), 5: (3, [3, 2, 2], quints)}


def read_sequence(number, count, n):
    """The first n integers of a sequence that begins at bit 0."""
    low, base = digits_of(count)
    size, widths, digits = GROUPS[base]
    number &= (1 << sequence_length(count, n)) - 1
    values = []
    while len(values) < n:
        code, shift, lows = 0, 0, []
        for width in widths:
            lows.append(bits(number, 0, low))
            code |= bits(number, low, width) << shift
            number >>= low + width
            shift += width
        group = digits(code) if digits else (0,)
        values += [d << low | m for d, m in zip(group, lows)]
    return values[:n]


LEAST_CODES = {3: {}, 5: {}}
for code in range(255, -1, -1):
    LEAST_CODES[3][trits(code)] = code
for code in range(127, -1, -1):
    LEAST_CODES[5][quints(code)] = code


def write_sequence(values, count):
    """The sequence of these integers with the least codes, as a number."""
    low, base = digits_of(count)
    size, widths, _ = GROUPS[base]
    number = place = 0
    for first in range(0, len(values), size):
        group = values[first:first + size] + [0] * (size - len(values[first:first + size]))
        code = LEAST_CODES[base][tuple(v >> low for v in group)] if base > 1 else 0
        for value, width in zip(group, widths):
            number |= bits(value, 0, low) << place | bits(code, 0, width) << place + low
            code >>= width
            place += low + width
    return number & (1 << sequence_length(count, len(values))) - 1


# ---- values of integers

COLOUR_FACTORS = {6: ("0", 204), 12: ("b000b0bb0", 93), 24: ("cb000cbcb", 44), 48: ("dcb000dcb", 22), 96: ("edcb000ed", 11), 192: ("fedcb000f", 5),
                  10: ("0", 113), 20: ("b0000bb00", 54), 40: ("cb0000cbc", 26), 80: ("dcb0000dc", 13), 160: ("edcb0000e", 6)}
WEIGHT_FACTORS = {6: ("0", 50), 12: ("b000b0b", 23), 24: ("cb000cb", 11), 10: ("0", 28), 20: ("b0000b0", 13)}


def repeated(value, low, width):
    result = 0
    for k in range(width):
        result = result << 1 | bits(value, low - 1 - k % low, 1)
    return result


def by_formula(value, low, form, factor, top):
    """(D * C + B) xor A, without its lowest bits except for the top one: `top` bits are kept."""
    a = bits(value, 0, 1) * ((1 << top + 1) - 1)
    b = 0
    for letter in form:
        b = b << 1 | (0 if letter == "0" else bits(value, "abcdef".index(letter), 1))
    t = ((value >> low) * factor + b) ^ a
    return a & 1 << top - 1 | t >> 2


def colour_value(count, value):
    low, base = digits_of(count)
    return repeated(value, low, 8) if base == 1 else by_formula(value, low, *COLOUR_FACTORS[count], 8)


def weight_value(count, value):
    low, base = digits_of(count)
    if count in (3, 5):
        result = {3: [0, 32, 63], 5: [0, 16, 32, 47, 63]}[count][value]
    else:
        result = repeated(value, low, 6) if base == 1 else by_formula(value, low, *WEIGHT_FACTORS[count], 6)
    return result + (result > 32)


# ---- modes, parts, grids


def mode_of(mode):
    """(across, down, levels, planes) of a block mode; None where it is reserved."""
    a, h, d = bits(mode, 5, 2), bits(mode, 9, 1), bits(mode, 10, 1)
    if mode & 3:
        r = bits(mode, 0, 2) << 1 | bits(mode, 4, 1)
        b = bits(mode, 7, 2)
        grid = [(b + 4, a + 2), (b + 8, a + 2), (a + 2, b + 8), (a + 2, (b & 1) + 6) if b < 2 else ((b & 1) + 2, a + 2)][bits(mode, 2, 2)]
    elif mode & 15:
        r = bits(mode, 2, 2) << 1 | bits(mode, 4, 1)
        row = bits(mode, 7, 2)
        if row == 3 and a > 1:
            return None
        grid = [(12, a + 2), (a + 2, 12), (a + 6, bits(mode, 9, 2) + 6), [(6, 10), (10, 6)][a & 1]][row]
        if row == 2:
            h = d = 0
    else:
        return None
    return grid + ([[2, 3, 4, 5, 6, 8], [10, 12, 16, 20, 24, 32]][h][r - 2], d + 1)


def hash52(p):
    wide = 0xFFFFFFFF
    p ^= p >> 15
    p = p - (p << 17) & wide
    p = p + (p << 7) & wide
    p = p + (p << 4) & wide
    p ^= p >> 5
    p = p + (p << 16) & wide
    p ^= p >> 7
    p ^= p >> 3
    p ^= p << 6 & wide
    return p ^ p >> 17


def part_of(width, height, parts, seed, x, y):
    if parts == 1:
        return 0
    if width * height < 31:
        x, y = 2 * x, 2 * y
    n = seed + 1024 * (parts - 1)
    r = hash52(n)
    s = [bits(r, 4 * k, 4) ** 2 for k in range(8)]
    u, v = (4 if n & 2 else 5), (6 if parts == 3 else 5)
    shifts = (u, v) if n & 1 else (v, u)
    s = [value >> shifts[k % 2] for k, value in enumerate(s)]
    scores = [s[2 * k] * x + s[2 * k + 1] * y + (r >> (14, 10, 6, 2)[k]) & 63 for k in range(4)][:parts]
    return scores.index(max(scores))


def points_around(width, height, across, down, x, y):
    """The four points around a texel with their factors; one of factor 0 may lie outside the grid."""
    gs = ((1024 + width // 2) // (width - 1) * x * (across - 1) + 32) >> 6
    gt = ((1024 + height // 2) // (height - 1) * y * (down - 1) + 32) >> 6
    js, fs, jt, ft = gs >> 4, gs & 15, gt >> 4, gt & 15
    both = (fs * ft + 8) >> 4
    four = [(js, jt, 16 - fs - ft + both), (js + 1, jt, fs - both), (js, jt + 1, ft - both), (js + 1, jt + 1, both)]
    return [(j * across + i, f) for i, j, f in four]


def factors(width, height, across, down, x, y):
    """The up to four points around a texel with their factors, those of factor 0 left out."""
    return [(place, factor) for place, factor in points_around(width, height, across, down, x, y) if factor]


# ---- reading


def shape_fault(width, height, mode, parts, cems, selector):
    across, down, levels, planes = mode
    count = across * down * planes
    if across > width or down > height:
        return "GridTooLarge"
    if count > 64:
        return "TooManyWeights"
    if not 24 <= sequence_length(levels, count) <= 96:
        return "WeightBits"
    if planes == 2 and parts == 4:
        return "DualPlaneFour"
    if colour_count(parts, cems) > 18:
        return "TooManyColours"
    if any(cem not in LDR_MODES for cem in cems[:parts]):
        return "HdrEndpoint"
    if colour_level(mode, parts, cems, selector) is None:
        return "ColourBits"
    return None


def colour_count(parts, cems):
    return sum(2 * (cem // 4 + 1) for cem in cems[:parts])


def colour_level(mode, parts, cems, selector):
    across, down, levels, planes = mode
    left = (111 if parts == 1 else 99) - sequence_length(levels, across * down * planes) - (2 if planes == 2 else 0)
    if selector:
        left -= 3 * parts - 4
    fitting = [c for c in COUNTS if c >= 6 and sequence_length(c, colour_count(parts, cems)) <= left]
    return max(fitting) if fitting else None


def read_block(width, height, data):
    """The block of 16 bytes, or its first fault."""
    number = int.from_bytes(data, "little")
    mode_bits = bits(number, 0, 11)
    if bits(number, 0, 9) == 0x1FC:
        return read_extent(number)
    mode = mode_of(mode_bits)
    if mode is None:
        raise Fault("ReservedMode")
    across, down, levels, planes = mode
    parts = bits(number, 11, 2) + 1
    weight_bits = sequence_length(levels, across * down * planes)
    below = 128 - weight_bits
    if parts == 1:
        seed, selector, cems, first = 0, 0, [bits(number, 13, 4)], 17
    else:
        seed, low, first = bits(number, 13, 10), bits(number, 23, 6), 29
        selector = low & 3
        if selector == 0:
            cems = [low >> 2] * parts
        else:
            below -= 3 * parts - 4
            field = low | (bits(number, below, 3 * parts - 4) << 6 if below >= 0 else 0)
            cems = [4 * (selector - 1 + bits(field, 2 + k, 1)) + bits(field, 2 + parts + 2 * k, 2) for k in range(parts)]
    fault = shape_fault(width, height, mode, parts, cems, selector)
    if fault:
        raise Fault(fault)
    plane = bits(number, below - 2, 2) + 1 if planes == 2 else 0
    level = colour_level(mode, parts, cems, selector)
    colours = read_sequence(number >> first, level, colour_count(parts, cems))
    weights = read_sequence(reversed_bits(number, 128), levels, across * down * planes)
    return ("coded", dict(mode=mode_bits, parts=parts, seed=seed, selector=selector, cems=cems, plane=plane, colours=colours, weights=weights))


def read_extent(number):
    if bits(number, 9, 1):
        raise Fault("HdrConstant")
    if bits(number, 10, 2) != 3:
        raise Fault("ExtentReserved")
    extent = [bits(number, k, 13) for k in (12, 25, 38, 51)]
    if any(side != 8191 for side in extent) and (extent[0] >= extent[1] or extent[2] >= extent[3]):
        raise Fault("ExtentOrder")
    return ("constant", extent, [bits(number, k, 16) for k in (64, 80, 96, 112)])


def write_block(block):
    """A legal block as its 16 bytes."""
    if block[0] == "constant":
        number = 0xDFC | sum(side << k for side, k in zip(block[1], (12, 25, 38, 51))) | sum(v << k for v, k in zip(block[2], (64, 80, 96, 112)))
        return number.to_bytes(16, "little")
    f = block[1]
    across, down, levels, planes = mode_of(f["mode"])
    parts, cems, selector = f["parts"], f["cems"], f["selector"]
    number = f["mode"] | parts - 1 << 11
    below = 128 - sequence_length(levels, len(f["weights"]))
    if parts == 1:
        number |= cems[0] << 13
        first = 17
    else:
        first = 29
        if selector == 0:
            field = cems[0] << 2
        else:
            below -= 3 * parts - 4
            field = selector
            for k in range(parts):
                field |= cems[k] // 4 - selector + 1 << 2 + k | cems[k] % 4 << 2 + parts + 2 * k
            number |= field >> 6 << below
        number |= f["seed"] << 13 | bits(field, 0, 6) << 23
    if planes == 2:
        number |= f["plane"] - 1 << below - 2
    number |= write_sequence(f["colours"], colour_level((across, down, levels, planes), parts, cems, selector)) << first
    number |= reversed_bits(write_sequence(f["weights"], levels), 128)
    return number.to_bytes(16, "little")


# ---- texels


def clamped(colour):
    return tuple(min(255, max(0, channel)) for channel in colour)


def transferred(offset, base):
    """`bit_transfer_signed`: the base with the offset's top bit, and the offset of six bits with a sign."""
    small = offset >> 1 & 63
    return base >> 1 | offset & 128, small - 64 if small & 32 else small


def contracted(colour):
    r, g, b, a = colour
    return (r + b) >> 1, (g + b) >> 1, b, a


def endpoints(cem, v):
    """The two colours of a part from its colour values."""
    if cem == 0:
        return (v[0], v[0], v[0], 255), (v[1], v[1], v[1], 255)
    if cem == 1:
        low = v[0] >> 2 | v[1] & 192
        high = min(255, low + (v[1] & 63))
        return (low, low, low, 255), (high, high, high, 255)
    if cem == 4:
        return (v[0], v[0], v[0], v[2]), (v[1], v[1], v[1], v[3])
    if cem == 5:
        (base, offset), (alpha, more) = transferred(v[1], v[0]), transferred(v[3], v[2])
        return clamped((base, base, base, alpha)), clamped((base + offset,) * 3 + (alpha + more,))
    if cem in (6, 10):
        alphas = (255, 255) if cem == 6 else (v[4], v[5])
        return tuple(c * v[3] >> 8 for c in v[:3]) + alphas[:1], tuple(v[:3]) + alphas[1:]
    if cem in (8, 12):
        alphas = (255, 255) if cem == 8 else (v[6], v[7])
        first, second = (v[0], v[2], v[4], alphas[0]), (v[1], v[3], v[5], alphas[1])
        swapped = sum(second[:3]) < sum(first[:3])
    else:
        pairs = [transferred(v[2 * k + 1], v[2 * k]) for k in range(len(v) // 2)] + [(255, 0)] * (4 - len(v) // 2)
        first, second = tuple(base for base, _ in pairs), tuple(base + offset for base, offset in pairs)
        swapped = sum(offset for _, offset in pairs[:3]) < 0
    if swapped:
        first, second = contracted(second), contracted(first)
    return clamped(first), clamped(second)


def ends_of(block):
    """The two colours of each part of a coded block."""
    f = block[1]
    level = colour_level(mode_of(f["mode"]), f["parts"], f["cems"], f["selector"])
    values, ends, at = [colour_value(level, c) for c in f["colours"]], [], 0
    for cem in f["cems"][:f["parts"]]:
        ends.append(endpoints(cem, values[at:at + 2 * (cem // 4 + 1)]))
        at += 2 * (cem // 4 + 1)
    return ends


def mixed(first, second, weight, srgb, channel):
    wide = [256 * end + 128 if srgb and channel < 3 else 257 * end for end in (first, second)]
    return (wide[0] * (64 - weight) + wide[1] * weight + 32 >> 6) >> 8


def texels(width, height, block, srgb):
    """What a block shows, rows from the top."""
    if block[0] == "constant":
        return [tuple(value >> 8 for value in block[2])] * (width * height)
    f = block[1]
    across, down, levels, planes = mode_of(f["mode"])
    values, ends = [weight_value(levels, w) for w in f["weights"]], ends_of(block)
    shown = []
    for p in range(width * height):
        x, y = p % width, p // width
        first, second = ends[part_of(width, height, f["parts"], f["seed"], x, y)]
        around = factors(width, height, across, down, x, y)
        weights = [sum(values[planes * point + k] * factor for point, factor in around) + 8 >> 4 for k in range(planes)]
        shown.append(tuple(mixed(first[c], second[c], weights[1 if f["plane"] == c + 1 else 0], srgb, c) for c in range(4)))
    return shown


def shown(width, height, data, srgb):
    """What 16 bytes show: magenta where they are read as a fault."""
    try:
        return texels(width, height, read_block(width, height, data), srgb)
    except Fault:
        return [MAGENTA] * (width * height)


def error(texels_shown, weights, source):
    """The sum over the inside places (those that aren't None) of a source."""
    return sum(weight * (a - b) ** 2 for texel, wanted in zip(texels_shown, source) if wanted for weight, a, b in zip(weights, texel, wanted))
