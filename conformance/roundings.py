"""The texels that the standard allows for a block: those of the set, and those of its other rounding, computed and not a distance.

Khronos Data Format Specification, "Weight Application": a channel is interpolated in 16 bits, C. Its eight bits are the top byte of C (of red,
green and blue of sRGB nothing else), or C as a 16-bit float, C / 65536 rounded towards zero and 1.0 for 65535, as the nearest of 255 steps.
Alpha of sRGB is widened by replication, as in linear, or like a colour, as older texts say. Each block has one of these throughout.

"LDR and HDR Modes": with the LDR profile the parts of HDR endpoint modes have the error colour. The set has it in all texels of such a block;
texels of the other parts may be those of their endpoint modes."""
import functools
import os
import sys

sys.path.insert(0, os.path.join(os.path.dirname(os.path.abspath(__file__)), "..", "checks", "reference"))
import blocks as b

MAGENTA = bytes(b.MAGENTA)


def by_float(c):
    """The nearest of 255 steps to a channel of 16 bits that became a float of 16 bits. 0.5 is the only half, and gives 128."""
    if c == 65535:
        return 255
    kept = max(0, c.bit_length() - 11)  # a float has 11 bits from its first 1 on; those of less than 2^-14 have fewer, and all of these are 0
    return ((c >> kept << kept) * 255 * 2 + 65536) >> 17


TOP = [c >> 8 for c in range(65536)]
FLOAT = [by_float(c) for c in range(65536)]


@functools.lru_cache(maxsize=None)
def infill(width, height, across, down):
    return [b.factors(width, height, across, down, p % width, p // width) for p in range(width * height)]


@functools.lru_cache(maxsize=4096)
def parts_of(width, height, parts, seed):
    return [b.part_of(width, height, parts, seed, p % width, p // width) for p in range(width * height)]


def weights_of(width, height, fields):
    """Each texel's weights of both planes."""
    across, down, levels, planes = b.mode_of(fields["mode"])
    values = [b.weight_value(levels, w) for w in fields["weights"]]
    planed = [[sum(values[planes * point + k] * factor for point, factor in around) + 8 >> 4 for around in infill(width, height, across, down)]
              for k in range(planes)]
    return planed[0], planed[-1]


def channel_of(ends, parts, weights, channel, widened):
    """A channel of all texels in 16 bits; `widened` are the 16 bits of each end."""
    pairs = [(widened(first[channel]), widened(second[channel])) for first, second in ends]
    return [pairs[part][0] * (64 - w) + pairs[part][1] * w + 32 >> 6 for part, w in zip(parts, weights)]


def replicated(end):
    return 257 * end


def like_a_colour(end):
    return 256 * end + 128


def channels_of(width, height, block, widened):
    """The four channels of a legal block in 16 bits, with this widening of each."""
    if block[0] == "constant":
        return [[value] * (width * height) for value in block[2]]
    fields = block[1]
    ends, weights = b.ends_of(block), weights_of(width, height, fields)
    parts = parts_of(width, height, fields["parts"], fields["seed"]) if fields["parts"] > 1 else [0] * (width * height)
    return [channel_of(ends, parts, weights[fields["plane"] == c + 1], c, widened[c]) for c in range(4)]


def joined(channels, tables):
    made = bytearray(4 * len(channels[0]))
    for k, (channel, table) in enumerate(zip(channels, tables)):
        made[k::4] = bytes(table[c] for c in channel)
    return bytes(made)


def read_with_hdr(footprint, data):
    """A block whose only fault is that some of its parts have HDR endpoint modes; None of others."""
    kept, b.LDR_MODES = b.LDR_MODES, list(range(16))
    try:
        block = b.read_block(*footprint, data)
    except b.Fault:
        return None
    finally:
        b.LDR_MODES = kept
    return block if block[0] == "coded" and any(cem in kept for cem in block[1]["cems"]) else None


def with_magenta(footprint, block, texels):
    """These texels, but magenta in the parts of HDR endpoint modes."""
    fields, made = block[1], bytearray(texels)
    for p, part in enumerate(parts_of(*footprint, fields["parts"], fields["seed"])):
        if fields["cems"][part] not in b.LDR_MODES:
            made[4 * p:4 * p + 4] = MAGENTA
    return bytes(made)


def allowed(footprint, data, srgb):
    """The texels that the standard allows, first those of this set."""
    try:
        return roundings_of(footprint, b.read_block(*footprint, data), srgb)
    except b.Fault as fault:
        magenta = MAGENTA * (footprint[0] * footprint[1])
        block = read_with_hdr(footprint, data) if str(fault) == "HdrEndpoint" else None
    return [magenta] + [with_magenta(footprint, block, texels) for texels in roundings_of(footprint, block, srgb)] if block else [magenta]


def roundings_of(footprint, block, srgb):
    """The texels of a legal block by each rounding."""
    if not srgb:
        channels = channels_of(*footprint, block, [replicated] * 4)
        return [joined(channels, [TOP] * 4), joined(channels, [FLOAT] * 4)]
    plain = channels_of(*footprint, block, [like_a_colour] * 3 + [replicated])
    other = channels_of(*footprint, block, [like_a_colour] * 4)
    return [joined(plain, [TOP] * 4), joined(other, [TOP] * 4), joined(plain, [TOP] * 3 + [FLOAT])]


def is_other_rounding(footprint, data, wanted, found, srgb):
    """Whether texels that aren't those of the set are another rounding of all of them."""
    first, *others = allowed(footprint, data, srgb)
    if first != wanted:
        raise ValueError("the reference decodes %s to other texels than the set" % data.hex(" "))
    return found in others
