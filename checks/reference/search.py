"""The blocks that a preset lists for a source, their least sum, and the changes of single integers, by docs/FORMATS.md: plain and very slow."""
from functools import lru_cache
from blocks import LDR_MODES, colour_level, colour_value, endpoints, error, mode_of, part_of, shape_fault, texels, weight_value


def recipes(preset):
    """(mode, plane, parts, seed, endpoint mode, flip) in order."""
    modes = range(2048)
    groups = [
        lambda: ((m, 0, 1, 0, c, 0) for m in modes for c in (8, 12)),
        lambda: ((m, 0, 1, 0, c, 0) for m in modes for c in (0, 4, 6, 10)),
        lambda: ((m, 0, 1, 0, c, f) for m in modes for c in (8, 12) for f in (1, 2, 4)),
        lambda: ((m, 4, 1, 0, 12, 0) for m in modes),
        lambda: ((m, 0, 2, s, 8, 0) for s in range(16) for m in modes),
        lambda: ((m, 0, 1, 0, c, 0) for m in modes for c in (1, 5, 9, 13)),
        lambda: ((m, p, 1, 0, c, 0) for m in modes for p in (1, 2, 3, 4) for c in LDR_MODES),
        lambda: ((m, 0, 2, s, c, 0) for s in range(64) for m in modes for c in (8, 12)),
        lambda: ((m, 0, 3, s, c, 0) for s in range(16) for m in modes for c in (6, 8)),
        lambda: ((m, 0, 4, s, c, 0) for s in range(16) for m in modes for c in (0, 6)),
    ]
    for group in groups[:{"flat": 0, "quick": 1, "pairs": 1, "medium": 5, "thorough": 10}[preset]]:
        yield from group()


def mean_constant(source):
    inside = [texel for texel in source if texel]
    n = len(inside)
    means = [(2 * sum(channel) + n) // (2 * n) for channel in zip(*inside)] if n else [0] * 4
    return ("constant", [8191] * 4, [257 * mean for mean in means])


def ideal(cem, flip, low, high):
    """The values that suit the bounds of a part's texels."""
    f, g = list(low), list(high)
    if cem in (8, 12):
        for c in range(3):
            if flip >> c & 1:
                f[c], g[c] = g[c], f[c]
        if sum(f[:3]) > sum(g[:3]):
            f[:3], g[:3] = g[:3], f[:3]

    def grey(q):
        return (sum(q[:3]) + 1) // 3

    def pair(q, p):
        return [2 * (q % 128), (q & 128) + 2 * min(31, p - q)]

    if cem in (0, 4):
        return [grey(f), grey(g)] + ([f[3], g[3]] if cem == 4 else [])
    if cem == 1:
        low, apart = grey(f), min(63, grey(g) - grey(f))
        return [4 * (low % 64), (low & 192) + apart]
    if cem == 5:
        return pair(grey(f), grey(g)) + pair(f[3], g[3])
    if cem in (6, 10):
        scale = min(255, 256 * sum(f[:3]) // sum(g[:3])) if sum(g[:3]) else 0
        return g[:3] + [scale] + ([f[3], g[3]] if cem == 10 else [])
    channels = 3 if cem in (8, 9) else 4
    if cem in (8, 12):
        return [v for c in range(channels) for v in (f[c], g[c])]
    return [v for c in range(channels) for v in pair(f[c], g[c])]


@lru_cache(None)
def nearest(value_of, count, wanted):
    return min(range(count), key=lambda k: (abs(value_of(count, k) - wanted), k))


def target(texel, ends, channels):
    first, second = ends
    along = sum((texel[c] - first[c]) * (second[c] - first[c]) for c in channels)
    length = sum((second[c] - first[c]) ** 2 for c in channels)
    return min(64, (64 * along + length // 2) // length) if length and along > 0 else 0


def nearest_place(width, height, across, down, i, j, source):
    """The inside place nearest to a grid point; None where no place is inside."""
    best = None
    for p in range(width * height):
        x, y = p % width, p // width
        dx, dy = x * (across - 1) - i * (width - 1), y * (down - 1) - j * (height - 1)
        far = (dx * (down - 1)) ** 2 + (dy * (across - 1)) ** 2
        if source[p] and (best is None or far < best[0]):
            best = (far, p)
    return best and best[1]


def candidate(width, height, recipe, source):
    """The block of a recipe for a source; None where the recipe isn't legal."""
    number, plane, parts, seed, cem, flip = recipe
    mode = mode_of(number)
    if mode is None or (mode[3] == 2) != (plane != 0) or shape_fault(width, height, mode, parts, [cem] * parts, 0):
        return None
    across, down, levels, planes = mode
    level = colour_level(mode, parts, [cem] * parts, 0)
    owners = [part_of(width, height, parts, seed, p % width, p // width) for p in range(width * height)]
    colours, ends = [], []
    for part in range(parts):
        inside = [texel for texel, owner in zip(source, owners) if texel and owner == part]
        low, high = ([pick(c) for c in zip(*inside)] if inside else [0] * 4 for pick in (min, max))
        own = [nearest(colour_value, level, v) for v in ideal(cem, flip, low, high)]
        colours += own
        ends.append(endpoints(cem, [colour_value(level, v) for v in own]))
    weights = []
    for point in range(across * down):
        p = nearest_place(width, height, across, down, point % across, point // across, source)
        for k in range(planes):
            channels = [c for c in range(4) if planes == 1 or (c == plane - 1) == (k == 1)]
            weights.append(nearest(weight_value, levels, 0 if p is None else target(source[p], ends[owners[p]], channels)))
    return ("coded", dict(mode=number, parts=parts, seed=seed, selector=0, cems=[cem] * parts, plane=plane, colours=colours, weights=weights))


def error_of(width, height, block, srgb, weights, source):
    return error(texels(width, height, block, srgb), weights, source)


def least_listed(width, height, preset, srgb, weights, source):
    """The least sum of the listed blocks."""
    least = error_of(width, height, mean_constant(source), srgb, weights, source)
    for recipe in recipes(preset):
        block = candidate(width, height, recipe, source)
        if block:
            least = min(least, error_of(width, height, block, srgb, weights, source))
    return least


def changes(block):
    """Each coded block that differs from this one in one integer."""
    f = block[1]
    mode = mode_of(f["mode"])
    counts = dict(colours=colour_level(mode, f["parts"], f["cems"], f["selector"]), weights=mode[2])
    for name in ("colours", "weights"):
        for k, old in enumerate(f[name]):
            for value in range(counts[name]):
                if value != old:
                    yield ("coded", dict(f, **{name: f[name][:k] + [value] + f[name][k + 1:]}))


def is_least(width, height, block, srgb, weights, source):
    """Whether no change of one integer has a smaller sum. In a channel of a constant the rounded mean has the least."""
    if block[0] == "constant":
        inside = [texel for texel in source if texel]
        sums = [[weights[c] * sum((texel[c] - (b[2][c] >> 8)) ** 2 for texel in inside) for c in range(4)] for b in (block, mean_constant(source))]
        return all(own <= mean for own, mean in zip(*sums))
    now = error_of(width, height, block, srgb, weights, source)
    return all(error_of(width, height, other, srgb, weights, source) >= now for other in changes(block))
