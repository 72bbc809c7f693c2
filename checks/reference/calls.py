"""What the plain reference has for the rows of sequence_cases, mode_cases, block_cases, search_cases and settling_cases: each call of the program, by its words. Of those in ALONE it says None."""
import itertools

import blocks as b
import search as s

LEVELS = "Two Three Four Five Six Eight Ten Twelve Sixteen Twenty TwentyFour ThirtyTwo Forty FortyEight SixtyFour Eighty NinetySix OneTwentyEight OneSixty OneNinetyTwo TwoFiftySix".split()
COUNTS = (2, 3, 4, 5, 6, 8, 10, 12, 16, 20, 24, 32, 40, 48, 64, 80, 96, 128, 160, 192, 256)


def integers(text, sign=","):
    return [] if text == "-" else [int(n) for n in text.split(sign)]


def sides(text):
    return tuple(integers(text, "x"))


def runs(values):
    """The values with a run of the same as `VALUExCOUNT`."""
    told = []
    for value in values:
        if told and told[-1][0] == value:
            told[-1][1] += 1
        else:
            told.append([value, 1])
    return " ".join("%d" % value if count == 1 else "%dx%d" % (value, count) for value, count in told)


def fnv(data):
    value = 0xCBF29CE484222325
    for byte in data:
        value = (value ^ byte) * 0x100000001B3 & 0xFFFFFFFFFFFFFFFF
    return "%016X" % value


def told_texels(texels):
    data = b"".join(bytes(texel) for texel in texels)
    return " ".join(data[k:k + 4].hex().upper() for k in range(0, len(data), 4)) if len(data) <= 256 else "%d bytes %s" % (len(data), fnv(data))


def texels_of(text):
    return [None if text[k] == "-" else tuple(bytes.fromhex(text[k:k + 8])) for k in range(0, len(text), 8)]


def values_row(words, value_of, most):
    values = [value_of(int(words), k) for k in range(int(words))]
    return "%s, nearest %s" % (runs(values), runs(s.nearest(value_of, int(words), v) for v in range(most + 1)))


def parts_row(words):
    name, parts, seed = words.split()
    width, height = sides(name)
    return " ".join("".join(str(b.part_of(width, height, int(parts), int(seed), x, y)) for x in range(width)) for y in range(height))


def ideal_row(words):
    cem, flip, low, high = words.split()
    return str(s.ideal(int(cem), int(flip), list(bytes.fromhex(low)), list(bytes.fromhex(high))))


def colours_row(words):
    cem, values = words.split()
    if int(cem) in (2, 3, 7, 11, 14, 15):
        return "none"
    return " ".join(str(list(end)) for end in b.endpoints(int(cem), integers(values)))


def weights_row(words):
    name, grid, points = words.split()
    (width, height), (across, down), points = sides(name), sides(grid), integers(points)
    return " ".join(str(sum(points[p] * k for p, k in b.factors(width, height, across, down, t % width, t // width)) + 8 >> 4) for t in range(width * height))


def around_row(words):
    name, grid, x, y = words.split()
    points = b.points_around(*sides(name), *sides(grid), int(x), int(y))
    return str([point if point[1] else (0, 0) for point in points])


def touched_row(words):
    name, grid, point = words.split()
    width, height = sides(name)
    return str([(x, y) for y in range(height) for x in range(width) if int(point) in [p for p, _ in b.factors(width, height, *sides(grid), x, y)]])


def modes_row(words):
    modes = [b.mode_of(number) for number in range(int(words), int(words) + 16)]
    return " ".join("-" if mode is None else "%dx%d/%d/%d" % mode for mode in modes)


def fault_row(words):
    name, number, parts, cem = words.split()
    mode = b.mode_of(int(number))
    fault = "ReservedMode" if mode is None else b.shape_fault(*sides(name), mode, int(parts), [int(cem)] * int(parts), 0)
    return "Some(%s)" % fault if fault else "None"


def shape_row(words):
    number, parts, selector, cem = map(int, words.split())
    mode, cems = b.mode_of(number), [cem] * parts
    count = mode[0] * mode[1] * mode[3]
    level = LEVELS[COUNTS.index(b.colour_level(mode, parts, cems, selector))]
    return "%d weights of %d bits, %d for the plane, None on 4x4, %d colours from %d, %d high bits, Some(%s), Ok(%s)" % (
        count, b.sequence_length(mode[2], count), 2 * (mode[3] == 2), b.colour_count(parts, cems), 17 if parts == 1 else 29, max(0, 3 * parts - 4) if selector else 0, level, level)


def told_block(block):
    if block[0] == "constant":
        return "rgba %s extent %s" % (block[2], block[1])
    fields = dict(block[1], cems=block[1]["cems"] + [0] * (4 - block[1]["parts"]))
    return "mode %(mode)d parts %(parts)d seed %(seed)d selector %(selector)d cems %(cems)s colours %(colours)s weights %(weights)s plane %(plane)d" % fields


def read_row(words):
    name, digits = words.split()
    try:
        return told_block(b.read_block(*sides(name), bytes.fromhex(digits)))
    except b.Fault as fault:
        return str(fault)


def block_of(text):
    """The block of the fields of a row."""
    head, _, lists = text.partition(" of ")
    if head.startswith("constant "):
        return ("constant", integers(lists, " "), integers(head[9:], " "))
    fields = dict(zip(("mode", "parts", "seed", "selector", "plane"), integers(head, " ")))
    fields.update(zip(("cems", "colours", "weights"), map(integers, lists.split())))
    fields["cems"] = fields["cems"][:fields["parts"]]
    return ("coded", fields)


def written_row(words):
    name, _, text = words.partition(" ")
    block = block_of(text)
    data = b.write_block(block)
    try:
        return data.hex().upper() if b.read_block(*sides(name), data) == block else "not legal"
    except b.Fault:
        return "not legal"


def constant_row(words):
    return b.write_block(("constant", [8191] * 4, integers(words, " "))).hex().upper()


def written_sequence_row(words):
    count, values = words.split()
    return "%X, read as %s" % (b.write_sequence(integers(values), int(count)), integers(values))


def sequence_row(words):
    count, at, digits, n = words.split()
    return str(b.read_sequence(int(digits, 16) >> int(at), int(count), int(n)))


def field_row(words):
    digits, *numbers = words.split()
    block = int(digits, 16)
    if not numbers:
        return "%032X" % b.reversed_bits(block, 128)
    at, n, *value = map(int, numbers)
    return "%032X" % (block & ~((1 << n) - 1 << at) | value[0] << at) if value else "%X" % b.bits(block, at, n)


def bytes_row(words):
    return "%032X, written as %s" % (int.from_bytes(bytes.fromhex(words), "little"), words)


def source_row(words):
    name, digits, weights = words.split()
    texels = texels_of(digits)
    mean = s.mean_constant(texels)
    places = " ".join(bytes(texel).hex().upper() if texel else "." for texel in texels)
    return "%s, mean %s, error %d" % (places, mean[2], s.error_of(*sides(name), mean, False, integers(weights), texels))


def channels_row(words):
    weights = integers(words) or [1] * 4
    return str(weights) if any(weights) and max(weights) <= 15 else "none"


def recipe_row(words):
    preset, place = words.split()
    if int(place) > 70000:
        return None
    return " ".join(map(str, next(itertools.islice(s.recipes(preset), int(place), None))))


def candidate_row(words):
    name, digits, *recipe = words.split()
    block = s.candidate(*sides(name), tuple(map(int, recipe)), texels_of(digits))
    return told_block(block) if block else "none"


def texels_row(words):
    name, flavour, fields = words.split(" ", 2)
    return told_texels(b.texels(*sides(name), block_of(fields), flavour == "srgb"))


def error_row(words):
    name, flavour, weights, digits, fields = words.split(" ", 4)
    texels = texels_of(digits)
    error = s.error_of(*sides(name), block_of(fields), flavour == "srgb", integers(weights), texels)
    return "%d by %d steps" % (error, sum(texel is not None for texel in texels))


def judged(words):
    """The sides, whether the flavour is sRGB, the weights and the texels of a row, and its other words."""
    name, flavour, weights, digits, rest = words.split(" ", 4)
    return *sides(name), flavour == "srgb", integers(weights), texels_of(digits), rest


def verdict_row(words):
    """None for large blocks, whose changes take long."""
    across, down, is_srgb, weights, texels, digits = judged(words)
    if across > 5:
        return None
    block = b.read_block(across, down, bytes.fromhex(digits))
    error = s.error_of(across, down, block, is_srgb, weights, texels)
    return "%d, least %s" % (error, str(s.is_least(across, down, block, is_srgb, weights, texels)).lower())


def settled_row(words):
    """By the least error of a listed block. None for large blocks and long lists."""
    across, down, is_srgb, weights, texels, rest = judged(words)
    preset, wanted = rest.split()
    if preset not in ("flat", "quick", "pairs") or across > 6:
        return None
    least = s.least_listed(across, down, preset, is_srgb, weights, texels)
    mean = s.error_of(across, down, s.mean_constant(texels), is_srgb, weights, texels)
    return "at most %d, mean %s, settled true" % (least, str(mean == least).lower())


def walk_row(words):
    across, down, is_srgb, weights, texels, rest = judged(words)
    fields, changes = rest.split(" by ")
    kind, shape = block_of(fields)
    errors = [s.error_of(across, down, (kind, shape), is_srgb, weights, texels)]
    for change in changes.split(", "):
        integer, place, value, _ = change.split()
        shape[integer + "s"] = shape[integer + "s"][:int(place)] + [int(value)] + shape[integer + "s"][int(place) + 1:]
        errors.append(s.error_of(across, down, (kind, shape), is_srgb, weights, texels))
    return "%s, %s" % (" ".join(map(str, errors)), told_block((kind, shape)))


def footprint_row(words):
    if words not in ["%dx%d" % sides for sides in b.FOOTPRINTS]:
        return None
    place, (across, down) = b.FOOTPRINTS.index(sides(words)), sides(words)
    return "F%s %d %d Some(F%s) %X %X" % (words, across, down, words, 0x93B0 + place, 0x93D0 + place)


def format_row(words):
    """Of a format's number, or of the sides of a footprint."""
    if " by " in words:
        across, down = map(int, words.split(" by "))
        return "Some(F%dx%d)" % (across, down) if (across, down) in b.FOOTPRINTS else "None"
    for flavour, first in (("Linear", 0x93B0), ("Srgb", 0x93D0)):
        if 0 <= int(words) - first < len(b.FOOTPRINTS):
            return "Some((F%dx%d, %s))" % (*b.FOOTPRINTS[int(words) - first], flavour)
    return "None"


def preset_row(words):
    return "Some(%s)" % words.capitalize() if words in ("flat", "quick", "medium", "thorough", "pairs") else "None"


def level_row(words):
    """How many values, which digit, and how many low bits."""
    count = int(words)
    if count not in COUNTS:
        return "none"
    for digit, base in (("Trit", 3), ("Quint", 5), ("Bits", 1)):
        if count % base == 0 and (low := count // base) & (low - 1) == 0:
            return "%d %s %d" % (count, digit, low.bit_length() - 1)


CALLS = {
    "footprint": footprint_row, "format": format_row, "preset": preset_row, "level": level_row,
    "hash": lambda words: "%08X" % b.hash52(int(words)), "parts": parts_row, "length": lambda words: str(b.sequence_length(*map(int, words.split()))),
    "colour values": lambda words: values_row(words, b.colour_value, 255), "weight values": lambda words: values_row(words, b.weight_value, 64),
    "write sequence": written_sequence_row, "sequence": sequence_row, "field": field_row, "bytes": bytes_row, "ideal": ideal_row, "colours": colours_row,
    "weights": weights_row, "around": around_row, "touched": touched_row, "modes": modes_row, "fault": fault_row, "shape": shape_row, "read": read_row,
    "write": written_row, "constant": constant_row, "source": source_row, "channels": channels_row,
    "recipe": recipe_row, "candidate": candidate_row, "texels": texels_row, "error": error_row,
    "verdict": verdict_row, "settled": settled_row, "walk": walk_row,
}


# no reference stands for what these tell: of types, of asks and pools, and of lists by their lengths
ALONE = {"extent", "default", "ask", "pool", "count", "first place", "pair verdict"}


def told_by_call(row):
    return None if row.way in ALONE else CALLS[row.way](row.words)
