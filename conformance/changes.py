"""Wrong decoders: each is the reference with one changed line. (feature, what is wrong, the text in checks/reference/blocks.py, in its place)"""

CHANGES = [
    # ---- sequences
    ("sequences", "the length of trits is rounded down", "3: (8 * n + 4) // 5", "3: 8 * n // 5"),
    ("sequences", "the length of quints is rounded down", "5: (7 * n + 2) // 3", "5: 7 * n // 3"),
    ("sequences", "a trit word's upper form at other bits", "if bits(t, 2, 3) == 7:", "if bits(t, 2, 3) == 6:"),
    ("sequences", "the fourth trit of the upper form", "bits(t, 5, 3) << 2 | bits(t, 0, 2), 2, 2", "bits(t, 5, 3) << 2 | bits(t, 0, 2), 2, 1"),
    ("sequences", "a trit word's fifth trit of 2 left out", "(2, bits(t, 7, 1)) if bits(t, 5, 2) == 3 else ", ""),
    ("sequences", "a trit word's first trit unmasked, third is 2", "bits(c, 3, 1) << 1 | bits(c, 2, 1) & ~bits(c, 3, 1)", "bits(c, 3, 1) << 1 | bits(c, 2, 1)"),
    ("sequences", "a trit word's second form at other bits", "elif bits(c, 2, 2) == 3:", "elif bits(c, 2, 2) == 2:"),
    ("sequences", "a trit word's second trit", "t2, t1, t0 = 2, 2, bits(c, 0, 2)", "t2, t1, t0 = 2, 1, bits(c, 0, 2)"),
    ("sequences", "a trit word's order", "return t0, t1, t2, t3, t4", "return t4, t3, t2, t1, t0"),
    ("sequences", "a quint word's three fours at more words", "if bits(q, 1, 2) == 3 and bits(q, 5, 2) == 0:", "if bits(q, 1, 2) == 3:"),
    ("sequences", "the third quint of two fours unmasked", "(bits(q, 4, 1) & ~low) << 1 | bits(q, 3, 1) & ~low", "(bits(q, 4, 1) & ~low) << 1 | bits(q, 3, 1)"),
    ("sequences", "the third quint", "q2 = 4", "q2 = 3"),
    ("sequences", "a quint word's bits not inverted", "(1 - bits(q, 6, 1)) << 2", "bits(q, 6, 1) << 2"),
    ("sequences", "two quints exchanged", "return (bits(c, 3, 2), 4, q2)", "return (4, bits(c, 3, 2), q2)"),
    ("sequences", "the bits of a trit word between other values", "3: (5, [2, 2, 1, 2, 1], trits)", "3: (5, [2, 1, 2, 1, 2], trits)"),
    ("sequences", "the bits of a quint word between other values", "5: (3, [3, 2, 2], quints)", "5: (3, [2, 3, 2], quints)"),
    ("sequences", "a last group reads bits after the sequence", "number &= (1 << sequence_length(count, n)) - 1", "number &= (1 << 128) - 1"),
    ("sequences", "the digit below the low bits", "d << low | m for d, m", "m * base + d for d, m"),
    ("sequences", "a bit of colour level 12", '12: ("b000b0bb0", 93)', '12: ("b000b0bbb", 93)'),
    ("sequences", "the factor of colour level 24", '24: ("cb000cbcb", 44)', '24: ("cb000cbcb", 45)'),
    ("sequences", "the factor of colour level 48", '48: ("dcb000dcb", 22)', '48: ("dcb000dcb", 21)'),
    ("sequences", "two bits of colour level 96", '96: ("edcb000ed", 11)', '96: ("edcb000de", 11)'),
    ("sequences", "the factor of colour level 192", '192: ("fedcb000f", 5)', '192: ("fedcb000f", 6)'),
    ("sequences", "the factor of colour level 10", '10: ("0", 113)', '10: ("0", 112)'),
    ("sequences", "the factor of colour level 20", '20: ("b0000bb00", 54)', '20: ("b0000bb00", 55)'),
    ("sequences", "a bit of colour level 40", '40: ("cb0000cbc", 26)', '40: ("cb0000bbc", 26)'),
    ("sequences", "the factor of colour level 80", '80: ("dcb0000dc", 13)', '80: ("dcb0000dc", 12)'),
    ("sequences", "the factor of colour level 160", '160: ("edcb0000e", 6)', '160: ("edcb0000e", 7)'),
    ("sequences", "the factor of weight level 6", '{6: ("0", 50)', '{6: ("0", 46)'),
    ("sequences", "the factor of weight level 12", '12: ("b000b0b", 23)', '12: ("b000b0b", 27)'),
    ("sequences", "a bit of weight level 24", '24: ("cb000cb", 11)', '24: ("c0000cb", 11)'),
    ("sequences", "the factor of weight level 10", '10: ("0", 28)', '10: ("0", 24)'),
    ("sequences", "the factor of weight level 20", '20: ("b0000b0", 13)', '20: ("b0000b0", 17)'),
    ("sequences", "bits aren't replicated", "bits(value, low - 1 - k % low, 1)", "(bits(value, low - 1 - k, 1) if k < low else 0)"),
    ("sequences", "a trit's value not inverted", "((value >> low) * factor + b) ^ a", "((value >> low) * factor + b)"),
    ("sequences", "a value's top bit left out", "return a & 1 << top - 1 | t >> 2", "return t >> 2"),
    ("sequences", "the middle of weight level 3", "3: [0, 32, 63]", "3: [0, 31, 63]"),
    ("sequences", "the second of weight level 5", "5: [0, 16, 32, 47, 63]", "5: [0, 15, 32, 47, 63]"),
    ("sequences", "weights over 32 aren't one more", "return result + (result > 32)", "return result"),
    ("sequences", "weights of 32 are one more too", "return result + (result > 32)", "return result + (result >= 32)"),
    # ---- modes
    ("modes", "the bits of planes and of levels exchanged", "bits(mode, 5, 2), bits(mode, 9, 1), bits(mode, 10, 1)", "bits(mode, 5, 2), bits(mode, 10, 1), bits(mode, 9, 1)"),
    ("modes", "the level's bits in another order", "r = bits(mode, 0, 2) << 1 | bits(mode, 4, 1)", "r = bits(mode, 4, 1) << 2 | bits(mode, 0, 2)"),
    ("modes", "the first row's sides exchanged", "grid = [(b + 4, a + 2)", "grid = [(a + 2, b + 4)"),
    ("modes", "the second row's sides exchanged", "(b + 8, a + 2)", "(a + 2, b + 8)"),
    ("modes", "the third row's sides exchanged", "(a + 2, b + 8), (a + 2, (b & 1) + 6)", "(b + 8, a + 2), (a + 2, (b & 1) + 6)"),
    ("modes", "the fourth row's sides exchanged", "(a + 2, (b & 1) + 6)", "((b & 1) + 6, a + 2)"),
    ("modes", "the fifth row's sides exchanged", "((b & 1) + 2, a + 2)", "(a + 2, (b & 1) + 2)"),
    ("modes", "the level's bits in another order in the second table", "r = bits(mode, 2, 2) << 1 | bits(mode, 4, 1)", "r = bits(mode, 4, 1) << 2 | bits(mode, 2, 2)"),
    ("modes", "the row of 12 columns turned", "grid = [(12, a + 2), (a + 2, 12)", "grid = [(a + 2, 12), (a + 2, 12)"),
    ("modes", "the row of two free sides turned", "(a + 6, bits(mode, 9, 2) + 6)", "(bits(mode, 9, 2) + 6, a + 6)"),
    ("modes", "6x10 and 10x6 exchanged", "[(6, 10), (10, 6)][a & 1]", "[(10, 6), (6, 10)][a & 1]"),
    ("modes", "the row without D and H reads them", "if row == 2:", "if row == 4:"),
    ("modes", "a weight level of the upper table", "[10, 12, 16, 20, 24, 32]", "[10, 12, 16, 24, 20, 32]"),
    ("modes", "weights read from the other end", "read_sequence(reversed_bits(number, 128), levels", "read_sequence(number >> below, levels"),
    ("modes", "a bit less for the colours of one part", "left = (111 if parts == 1", "left = (110 if parts == 1"),
    ("modes", "a bit less for the colours of several", "if parts == 1 else 99)", "if parts == 1 else 98)"),
    ("modes", "the component's bits not counted", "(2 if planes == 2 else 0)", "0"),
    ("modes", "weights of 96 bits refused", "<= 96:", "<= 95:"),
    ("modes", "weights of 24 bits refused", "if not 24 <=", "if not 25 <="),
    ("modes", "64 weights refused", "if count > 64:", "if count > 63:"),
    # ---- endpoints
    ("endpoints", "blue contraction left out", "first, second = contracted(second), contracted(first)", "first, second = second, first"),
    ("endpoints", "blue contraction without an exchange", "first, second = contracted(second), contracted(first)", "first, second = contracted(first), contracted(second)"),
    ("endpoints", "blue contraction always", "if swapped:", "if True:"),
    ("endpoints", "direct ends exchanged at equal sums too", "swapped = sum(second[:3]) < sum(first[:3])", "swapped = sum(second[:3]) <= sum(first[:3])"),
    ("endpoints", "direct ends compared by alpha too", "swapped = sum(second[:3]) < sum(first[:3])", "swapped = sum(second) < sum(first)"),
    ("endpoints", "offset ends exchanged at a sum of 0 too", "pairs[:3]) < 0", "pairs[:3]) <= 0"),
    ("endpoints", "offset ends compared by alpha too", "for _, offset in pairs[:3]) < 0", "for _, offset in pairs) < 0"),
    ("endpoints", "contraction takes green from red", "return (r + b) >> 1, (g + b) >> 1, b, a", "return (r + b) >> 1, (g + r) >> 1, b, a"),
    ("endpoints", "an offset's sign bit", "small - 64 if small & 32 else small", "small"),
    ("endpoints", "an offset of seven bits", "small = offset >> 1 & 63", "small = offset >> 1 & 127"),
    ("endpoints", "a base without the offset's top bit", "return base >> 1 | offset & 128", "return base >> 1"),
    ("endpoints", "sums not clamped", "tuple(min(255, max(0, channel)) for channel in colour)", "tuple(channel & 255 for channel in colour)"),
    ("endpoints", "mode 1 without the second's top bits", "low = v[0] >> 2 | v[1] & 192", "low = v[0] >> 2"),
    ("endpoints", "mode 1 not clamped", "high = min(255, low + (v[1] & 63))", "high = low + (v[1] & 63) & 255"),
    ("endpoints", "mode 4 takes values by ends", "return (v[0], v[0], v[0], v[2]), (v[1], v[1], v[1], v[3])", "return (v[0], v[0], v[0], v[1]), (v[2], v[2], v[2], v[3])"),
    ("endpoints", "mode 5 with alpha alone as an offset", "(base + offset,) * 3 + (alpha + more,)", "(base,) * 3 + (alpha + more,)"),
    ("endpoints", "the scale's division", "c * v[3] >> 8", "c * v[3] // 255"),
    ("endpoints", "the scale's ends exchanged", "alphas = (255, 255) if cem == 6 else (v[4], v[5])", "alphas = (255, 255) if cem == 6 else (v[5], v[4])"),
    ("endpoints", "mode 12 with alpha 255", "alphas = (255, 255) if cem == 8 else (v[6], v[7])", "alphas = (255, 255)"),
    ("endpoints", "the class off by one", "4 * (selector - 1 + bits(field, 2 + k, 1))", "4 * (selector + bits(field, 2 + k, 1)) % 16"),
    ("endpoints", "class bits from the last part", "bits(field, 2 + k, 1)) + bits", "bits(field, 1 + parts - k, 1)) + bits"),
    ("endpoints", "modes within a class from the last part", "bits(field, 2 + parts + 2 * k, 2)", "bits(field, 3 * parts - 2 * k, 2)"),
    ("endpoints", "the upper bits of modes one lower", "(bits(number, below, 3 * parts - 4) << 6", "(bits(number, below, 3 * parts - 4) << 5"),
    ("endpoints", "the upper bits of modes not counted", "left -= 3 * parts - 4", "left -= 0"),
    ("endpoints", "sRGB as linear", "256 * end + 128 if srgb and channel < 3 else 257 * end", "257 * end"),
    ("endpoints", "sRGB without its half", "256 * end + 128 if srgb", "256 * end if srgb"),
    # ---- partitions
    ("partitions", "the first shift of the hash", "p ^= p >> 15", "p ^= p >> 11"),
    ("partitions", "the second shift of the hash", "p = p - (p << 17) & wide", "p = p + (p << 17) & wide"),
    ("partitions", "the third shift of the hash", "p = p + (p << 7) & wide", "p = p + (p << 6) & wide"),
    ("partitions", "the fourth shift of the hash", "p = p + (p << 4) & wide", "p = p + (p << 3) & wide"),
    ("partitions", "the fifth shift of the hash", "p ^= p >> 5", "p ^= p >> 4"),
    ("partitions", "the sixth shift of the hash", "p = p + (p << 16) & wide", "p = p + (p << 15) & wide"),
    ("partitions", "the seventh shift of the hash", "p ^= p >> 7", "p ^= p >> 8"),
    ("partitions", "the eighth shift of the hash", "p ^= p >> 3", "p ^= p >> 2"),
    ("partitions", "the ninth shift of the hash", "p ^= p << 6 & wide", "p ^= p << 7 & wide"),
    ("partitions", "the last shift of the hash", "return p ^ p >> 17", "return p ^ p >> 16"),
    ("partitions", "places of small blocks not doubled", "if width * height < 31:", "if False:"),
    ("partitions", "blocks of 6x5 taken for large ones", "if width * height < 31:", "if width * height < 30:"),
    ("partitions", "blocks of 6x6 taken for small ones", "if width * height < 31:", "if width * height < 37:"),
    ("partitions", "the number of parts in the seed", "n = seed + 1024 * (parts - 1)", "n = seed + 1024 * parts"),
    ("partitions", "factors not squared", "bits(r, 4 * k, 4) ** 2", "bits(r, 4 * k, 4) * 16"),
    ("partitions", "the shift by the seed's second bit", "(4 if n & 2 else 5), (6 if", "5, (6 if"),
    ("partitions", "the shift of three parts", "(6 if parts == 3 else 5)", "5"),
    ("partitions", "the shifts exchanged", "shifts = (u, v) if n & 1 else (v, u)", "shifts = (v, u) if n & 1 else (u, v)"),
    ("partitions", "an addend of the scores", "(14, 10, 6, 2)", "(14, 10, 6, 3)"),
    ("partitions", "the score of an absent partition", "range(4)][:parts]", "range(4)]; scores[parts - 1] = max(scores[parts - 1:])"),
    ("partitions", "the last greatest score", "return scores.index(max(scores))", "return len(scores) - 1 - scores[::-1].index(max(scores))"),
    ("partitions", "a seed of nine bits", "seed, low, first = bits(number, 13, 10)", "seed, low, first = bits(number, 13, 9)"),
    # ---- infill
    ("infill", "the step across without its half", "((1024 + width // 2) // (width - 1) * x", "(1024 // (width - 1) * x"),
    ("infill", "the step down without its half", "((1024 + height // 2) // (height - 1) * y", "(1024 // (height - 1) * y"),
    ("infill", "a place across rounded down", "* x * (across - 1) + 32) >> 6", "* x * (across - 1)) >> 6"),
    ("infill", "a place down rounded down", "* y * (down - 1) + 32) >> 6", "* y * (down - 1)) >> 6"),
    ("infill", "the product of fractions rounded down", "both = (fs * ft + 8) >> 4", "both = fs * ft >> 4"),
    ("infill", "two neighbours exchanged", "(js + 1, jt, fs - both), (js, jt + 1, ft - both)", "(js + 1, jt, ft - both), (js, jt + 1, fs - both)"),
    ("infill", "points by columns", "return [(j * across + i, f)", "return [(j + i * down, f)"),
    ("infill", "the mean of weights rounded down", "for point, factor in around) + 8 >> 4", "for point, factor in around) >> 4"),
    ("infill", "the component off by one", 'f["plane"] == c + 1 else 0', 'f["plane"] == c else 0'),
    ("infill", "the component's place above the modes' bits", "plane = bits(number, below - 2, 2) + 1", "plane = bits(number, 128 - weight_bits - 2, 2) + 1"),
    ("infill", "planes one after the other", "values[planes * point + k]", "values[point + k * across * down]"),
    ("infill", "both planes the first", "values[planes * point + k]", "values[planes * point]"),
    # ---- constants
    ("constants", "the low byte of a value", "[tuple(value >> 8 for value in block[2])]", "[tuple(value & 255 for value in block[2])]"),
    ("constants", "values in another order", "[bits(number, k, 16) for k in (64, 80, 96, 112)]", "[bits(number, k, 16) for k in (96, 80, 64, 112)]"),
    ("constants", "coordinates in another order", "for k in (12, 25, 38, 51)]\n    if", "for k in (12, 38, 25, 51)]\n    if"),
    ("constants", "a coordinate of twelve bits", "extent = [bits(number, k, 13)", "extent = [bits(number, k, 12)"),
    ("constants", "no coordinates taken for wrong ones", "if any(side != 8191 for side in extent) and", "if"),
    # ---- illegal
    ("illegal", "the reserved row read", "if row == 3 and a > 1:", "if row == 3 and a > 2:"),
    ("illegal", "modes of four zeros read", "    elif mode & 15:", "    elif True:"),
    ("illegal", "grids that are too wide", "if across > width or", "if"),
    ("illegal", "grids that are too high", "if across > width or down > height:", "if across > width:"),
    ("illegal", "a weight over 64 read", "if count > 64:", "if count > 66:"),
    ("illegal", "weights of fewer than 24 bits read", "if not 24 <=", "if not 23 <="),
    ("illegal", "weights of more than 96 bits read", "<= 96:", "<= 97:"),
    ("illegal", "two planes with four parts read", "if planes == 2 and parts == 4:", "if False:"),
    ("illegal", "20 colour integers read", "colour_count(parts, cems) > 18", "colour_count(parts, cems) > 20"),
    ("illegal", "HDR endpoint modes read", "cem not in LDR_MODES for cem", "cem > 16 for cem"),
    ("illegal", "colours of level 4 read", "for c in COUNTS if c >= 6", "for c in COUNTS if c >= 6 or c == 4"),
    ("illegal", "HDR void extents read", '    if bits(number, 9, 1):\n        raise Fault("HdrConstant")', "    pass"),
    ("illegal", "the reserved bits of void extents not read", "if bits(number, 10, 2) != 3:", "if False:"),
    ("illegal", "one reserved bit of void extents not read", "if bits(number, 10, 2) != 3:", "if not bits(number, 10, 2):"),
    ("illegal", "empty extents across read", "extent[0] >= extent[1]", "extent[0] > extent[1]"),
    ("illegal", "empty extents down read", "extent[2] >= extent[3]", "extent[2] > extent[3]"),
    ("illegal", "one coordinate of 8191 taken for none", "if any(side != 8191", "if all(side != 8191"),
    ("illegal", "clear magenta", "MAGENTA = (255, 0, 255, 255)", "MAGENTA = (255, 0, 255, 0)"),
]

# ---- the level of the colours: each pair of a number of integers and a level that a legal block has, taken for another level

LEVELS = [6, 8, 10, 12, 16, 20, 24, 32, 40, 48, 64, 80, 96, 128, 160, 192, 256]
LEVELS_OF = {2: [80, 160, 256], 4: LEVELS, 6: LEVELS, 8: LEVELS, 10: LEVELS[:14], 12: LEVELS[:11], 14: LEVELS[:8], 16: LEVELS[:7], 18: LEVELS[:5]}
BEST = "    return max(fitting) if fitting else None"
CHANGES += [("budgets", "%d integers at level %d taken for level %d" % (n, level, LEVELS[LEVELS.index(level) + (-1 if level > 6 else 1)]), BEST,
             "    return (%d if (max(fitting), colour_count(parts, cems)) == (%d, %d) else max(fitting)) if fitting else None"
             % (LEVELS[LEVELS.index(level) + (-1 if level > 6 else 1)], level, n)) for n, levels in LEVELS_OF.items() for level in levels]

# ---- bits of the colours


LEFT = "    left = (111 if parts == 1 else 99) - sequence_length(levels, across * down * planes) - (2 if planes == 2 else 0)\n"
for told, old, new in (
        ("the component's bits not counted with a selector", LEFT, LEFT.replace("planes == 2 else", "planes == 2 and not selector else")),
        ("the component's bits not counted with one part", LEFT, LEFT.replace("planes == 2 else", "planes == 2 and parts > 1 else")),
        ("the component's bits not counted with three parts", LEFT, LEFT.replace("planes == 2 else", "planes == 2 and parts != 3 else")),
        ("three bits of the component counted", LEFT, LEFT.replace("(2 if planes", "(3 if planes")),
        ("one bit of the component counted", LEFT, LEFT.replace("(2 if planes", "(1 if planes")),
        ("a bit more for the colours of one part", LEFT, LEFT.replace("111", "112")),
        ("a bit more for the colours of several", LEFT, LEFT.replace("99", "100")),
        ("the bits of two parts like those of one", LEFT, LEFT.replace("parts == 1", "parts <= 2")),
        ("the upper bits of modes counted for two parts alone", "        left -= 3 * parts - 4", "        left -= 2 if parts == 2 else 0"),
        ("three upper bits of modes counted", "        left -= 3 * parts - 4", "        left -= 3"),
        ("one upper bit of modes more counted", "        left -= 3 * parts - 4", "        left -= 3 * parts - 3"),
        ("the upper bits of modes counted with selector 1 alone", "    if selector:\n        left", "    if selector == 1:\n        left"),
        ("the upper bits of modes not counted with selector 2", "    if selector:\n        left", "    if selector in (1, 3):\n        left"),
        ("the upper bits of modes not counted with selector 3", "    if selector:\n        left", "    if selector in (1, 2):\n        left"),
        ("the upper bits of modes not counted with two planes", "    if selector:\n        left", "    if selector and planes == 1:\n        left"),
        ("the upper bits of modes counted without a selector", "    if selector:\n        left", "    if parts > 1:\n        left"),
        ("level 6 left out", "for c in COUNTS if c >= 6", "for c in COUNTS if c >= 8"),
        ("level 256 left out", "for c in COUNTS if c >= 6", "for c in COUNTS if 6 <= c < 256"),
        ("level 192 left out", "for c in COUNTS if c >= 6", "for c in COUNTS if c >= 6 and c != 192"),
        ("level 20 left out", "for c in COUNTS if c >= 6", "for c in COUNTS if c >= 6 and c != 20"),
        ("only levels of whole bits and trits", "for c in COUNTS if c >= 6", "for c in COUNTS if c >= 6 and c % 5"),
        ("a bit of the budget kept free", "<= left]", "< left]"),
        ("classes counted from the first part alone", "return sum(2 * (cem // 4 + 1) for cem in cems[:parts])", "return parts * 2 * (cems[0] // 4 + 1)"),
        ("classes counted from the last part alone", "return sum(2 * (cem // 4 + 1) for cem in cems[:parts])", "return parts * 2 * (cems[-1] // 4 + 1)")):
    CHANGES.append(("budgets", told, old, new))

# ---- endpoint modes of several parts

for told, old, new in (
        ("the upper bits of modes above the component's", "bits(number, below, 3 * parts - 4) << 6", "bits(number, below - (2 if planes == 2 else 0), 3 * parts - 4) << 6"),
        ("the first part's class for all", "bits(field, 2 + k, 1))", "bits(field, 2, 1))"),
        ("selector 3 read like 2", "selector = low & 3", "selector = min(2, low & 3)"),
        ("selector 2 read like 1", "selector = low & 3", "selector = (0, 1, 1, 3)[low & 3]"),
        ("class bits inverted", "4 * (selector - 1 + bits(field, 2 + k, 1))", "4 * (selector - bits(field, 2 + k, 1))"),
        ("modes within a class without the upper bit", "bits(field, 2 + parts + 2 * k, 2)", "bits(field, 2 + parts + 2 * k, 1)"),
        ("modes within a class from one bit higher", "bits(field, 2 + parts + 2 * k, 2)", "bits(field, 3 + parts + 2 * k, 2)"),
        ("modes within a class of the first part for all", "bits(field, 2 + parts + 2 * k, 2)", "bits(field, 2 + parts, 2)"),
        ("a common mode without its upper bit", "cems = [low >> 2] * parts", "cems = [low >> 2 & 7] * parts"),
        ("a common mode from the bits of the selector on", "cems = [low >> 2] * parts", "cems = [low & 15] * parts"),
        ("colours of a part from the place of equal classes", "        at += 2 * (cem // 4 + 1)", "        at += 2 * (f[\"cems\"][0] // 4 + 1)")):
    CHANGES.append(("endpoints", told, old, new))

# ---- spare bits

for told, old, new in (
        ("colours begin at the upper end of their bits", "colours = read_sequence(number >> first,",
         "colours = read_sequence(number >> below - (2 if planes == 2 else 0) - sequence_length(level, colour_count(parts, cems)),"),
        ("blocks with spare bits refused", "    plane = bits(number, below - 2, 2) + 1 if planes == 2 else 0\n    level = colour_level(mode, parts, cems, selector)\n",
         "    plane = bits(number, below - 2, 2) + 1 if planes == 2 else 0\n    level = colour_level(mode, parts, cems, selector)\n"
         "    if number >> first + sequence_length(level, colour_count(parts, cems)) & 1 and first + sequence_length(level, colour_count(parts, cems)) < below - (2 if planes == 2 else 0): raise Fault(\"Spare\")\n"),
        ("the component below the spare bits", "plane = bits(number, below - 2, 2) + 1 if planes == 2 else 0",
         "plane = bits(number, first + sequence_length(colour_level(mode, parts, cems, selector), colour_count(parts, cems)), 2) + 1 if planes == 2 else 0"),
        ("the upper bits of modes after the colours", "            cems = [4 * (selector - 1", "            field = low | bits(number, below - 1, 3 * parts - 4) << 6\n            cems = [4 * (selector - 1")):
    CHANGES.append(("spare", told, old, new))

# ---- illegal blocks that are read in part

FOUR = "    if planes == 2 and parts == 4:"
MANY = "    if colour_count(parts, cems) > 18:"
WEIGHTS = "    if not 24 <= sequence_length(levels, count) <= 96:"
PROFILE = "    if any(cem not in LDR_MODES for cem in cems[:parts]):"
for told, old, new in (
        ("two planes with four parts refused without a selector alone", FOUR, "    if planes == 2 and parts == 4 and not selector:"),
        ("two planes with four parts refused with a selector alone", FOUR, "    if planes == 2 and parts == 4 and selector:"),
        ("two planes with four parts and selector 1 read", FOUR, "    if planes == 2 and parts == 4 and selector != 1:"),
        ("two planes with four parts and selector 2 read", FOUR, "    if planes == 2 and parts == 4 and selector != 2:"),
        ("two planes with three parts refused", FOUR, "    if planes == 2 and parts >= 3:"),
        ("two planes with two parts refused", FOUR, "    if planes == 2 and parts in (2, 4):"),
        ("24 integers read without a selector", MANY, "    if colour_count(parts, cems) > (18 if selector else 24):"),
        ("20 integers read with a selector", MANY, "    if colour_count(parts, cems) > (20 if selector else 18):"),
        ("20 integers read with selector 2", MANY, "    if colour_count(parts, cems) > (20 if selector == 2 else 18):"),
        ("20 integers read with two planes", MANY, "    if colour_count(parts, cems) > (20 if planes == 2 else 18):"),
        ("24 integers read with three parts", MANY, "    if colour_count(parts, cems) > (24 if parts == 3 else 18):"),
        ("18 integers refused", MANY, "    if colour_count(parts, cems) > 17:"),
        ("18 integers refused with a selector", MANY, "    if colour_count(parts, cems) > (17 if selector else 18):"),
        ("16 integers refused in four parts", MANY, "    if colour_count(parts, cems) > (15 if parts == 4 else 18):"),
        ("weights under 24 bits read with two planes", WEIGHTS, "    if not (24 if planes == 1 else 1) <= sequence_length(levels, count) <= 96:"),
        ("weights under 24 bits read with one plane", WEIGHTS, "    if not (24 if planes == 2 else 1) <= sequence_length(levels, count) <= 96:"),
        ("weights over 96 bits read with two planes", WEIGHTS, "    if not 24 <= sequence_length(levels, count) <= (96 if planes == 1 else 128):"),
        ("weights over 96 bits read with one plane", WEIGHTS, "    if not 24 <= sequence_length(levels, count) <= (96 if planes == 2 else 128):"),
        ("weights under 24 bits read with several parts", WEIGHTS, "    if not (24 if parts == 1 else 1) <= sequence_length(levels, count) <= 96:"),
        ("weights under 24 bits read with a selector", WEIGHTS, "    if not (1 if selector else 24) <= sequence_length(levels, count) <= 96:"),
        ("weights of one plane counted", WEIGHTS, "    if not 24 <= sequence_length(levels, across * down) <= 96:"),
        ("weights of 96 bits refused with two planes", WEIGHTS, "    if not 24 <= sequence_length(levels, count) <= (96 if planes == 1 else 95):"),
        ("colours short of bits read at level 6", BEST, "    return max(fitting) if fitting else 6"),
        ("colours short of bits read at level 6 with a selector", BEST, "    return max(fitting) if fitting else 6 if selector else None"),
        ("colours short of bits read at level 6 without a selector", BEST, "    return max(fitting) if fitting else None if selector else 6"),
        ("colours short of bits read at level 6 with two planes", BEST, "    return max(fitting) if fitting else 6 if planes == 2 else None"),
        ("colours short of bits read at level 6 with one part", BEST, "    return max(fitting) if fitting else 6 if parts == 1 else None"),
        ("colours short of bits read at level 6 with four parts", BEST, "    return max(fitting) if fitting else 6 if parts == 4 else None"),
        ("HDR modes refused with one part alone", PROFILE, "    if parts == 1 and cems[0] not in LDR_MODES:"),
        ("HDR modes read with two planes", PROFILE, "    if planes == 1 and any(cem not in LDR_MODES for cem in cems[:parts]):"),
        ("HDR modes read with a selector", PROFILE, "    if not selector and any(cem not in LDR_MODES for cem in cems[:parts]):"),
        ("HDR modes read without a selector", PROFILE, "    if selector and any(cem not in LDR_MODES for cem in cems[:parts]):"),
        *(("HDR mode %d read" % cem, PROFILE, "    if any(cem not in LDR_MODES and cem != %d for cem in cems[:parts]):" % cem) for cem in (2, 3, 7, 11, 14, 15)),
        *(("LDR mode %d refused" % cem, PROFILE, "    if any(cem not in LDR_MODES or cem == %d for cem in cems[:parts]):" % cem) for cem in (0, 1, 4, 5, 6, 8, 9, 10, 12, 13)),
        ("grids that are too wide by one read", "    if across > width or down > height:", "    if across > width + 1 or down > height:"),
        ("grids that are too high by one read", "    if across > width or down > height:", "    if across > width or down > height + 1:"),
        ("grids of more points than texels refused alone", "    if across > width or down > height:", "    if across * down > width * height:"),
        ("grids of the width of the footprint refused", "    if across > width or down > height:", "    if across >= width or down > height:"),
        ("grids of the height of the footprint refused", "    if across > width or down > height:", "    if across > width or down >= height:"),
        ("grids that are too wide read with two planes", "    if across > width or down > height:", "    if across > width and planes == 1 or down > height:"),
        ("void extents by eight bits", "    if bits(number, 0, 9) == 0x1FC:", "    if bits(number, 0, 8) == 0xFC:"),
        ("void extents without bit 0", "    if bits(number, 0, 9) == 0x1FC:", "    if bits(number, 1, 8) == 0xFE:"),
        ("void extents without bit 2", "    if bits(number, 0, 9) == 0x1FC:", "    if bits(number, 0, 9) | 4 == 0x1FC:"),
        ("void extents without bit 5", "    if bits(number, 0, 9) == 0x1FC:", "    if bits(number, 0, 9) | 32 == 0x1FC:"),
        ("void extents without bit 7", "    if bits(number, 0, 9) == 0x1FC:", "    if bits(number, 0, 9) | 128 == 0x1FC:")):
    CHANGES.append(("faults" if "refused" not in told or "alone" in told else "budgets", told, old, new))

for told, new in (
        ("the HDR modes of the first part refused alone", "    if cems[0] not in LDR_MODES:"), ("the HDR modes of the last part refused alone", "    if cems[parts - 1] not in LDR_MODES:"),
        ("HDR modes refused in all parts alone", "    if all(cem not in LDR_MODES for cem in cems[:parts]):"),
        ("HDR modes of the second part read", "    if any(cem not in LDR_MODES for cem in cems[:1] + cems[2:parts]):"),
        ("HDR modes of the third part read", "    if any(cem not in LDR_MODES for cem in cems[:2] + cems[3:parts]):"),
        ("HDR modes of the fourth part read", "    if any(cem not in LDR_MODES for cem in cems[:3]):")):
    CHANGES.append(("profiles", told, PROFILE, new))

# ---- the rounding of texels: none of them is that of the top byte, nor that of 16-bit floats

MIXED = "    return (wide[0] * (64 - weight) + wide[1] * weight + 32 >> 6) >> 8"
VALUE = "(wide[0] * (64 - weight) + wide[1] * weight + 32 >> 6)"
CONSTANT = "[tuple(value >> 8 for value in block[2])]"
HALF = "__import__('struct').unpack('e', __import__('struct').pack('e', %s / 65536))[0]"
for told, new in (
        ("one too low everywhere", "max(0, (%s >> 8) - 1)" % VALUE), ("one too high everywhere", "min(255, (%s >> 8) + 1)" % VALUE),
        ("255 never reached", "min(254, %s >> 8)" % VALUE), ("0 never reached", "max(1, %s >> 8)" % VALUE),
        ("the lowest bit left out", "%s >> 8 & 254" % VALUE), ("the lowest bit set", "%s >> 8 | 1" % VALUE),
        ("the lowest two bits left out", "%s >> 8 & 252" % VALUE), ("the lowest bit turned", "%s >> 8 ^ 1" % VALUE),
        ("alpha one too low", "max(0, (%s >> 8) - (channel == 3))" % VALUE), ("red one too low", "max(0, (%s >> 8) - (channel == 0))" % VALUE),
        ("green one too high", "min(255, (%s >> 8) + (channel == 1))" % VALUE), ("alpha of 255 becomes 254", "min(254 if channel == 3 else 255, %s >> 8)" % VALUE),
        ("one too low at weight 32", "max(0, (%s >> 8) - (weight == 32))" % VALUE), ("one too low below weight 32", "max(0, (%s >> 8) - (weight < 32))" % VALUE),
        ("rounded up", "(wide[0] * (64 - weight) + wide[1] * weight + 63 >> 6) >> 8"), ("16 bits not rounded", "(wide[0] * (64 - weight) + wide[1] * weight >> 6) >> 8"),
        ("the nearest of 255 steps without a float", "(%s * 255 + 32767) // 65535" % VALUE), ("the nearest of 256 steps", "min(255, %s + 128 >> 8)" % VALUE),
        ("floats rounded to the nearest", "int(255 * %s + 0.5)" % (HALF % VALUE)), ("floats rounded down to 255 steps", "int(255 * %s)" % (HALF % VALUE)),
        ("floats of 255 steps rounded up", "-int(-255 * %s // 1)" % (HALF % VALUE)),
        ("ends mixed with 8 bits", "((wide[0] >> 8) * (64 - weight) + (wide[1] >> 8) * weight + 32 >> 6)"),
        ("ends mixed with 8 bits, rounded down", "((wide[0] >> 8) * (64 - weight) + (wide[1] >> 8) * weight >> 6)"),
        ("weights of 0 to 63 mixed", "(wide[0] * (63 - min(63, weight)) + wide[1] * min(63, weight) + 31) // 63 >> 8"),
        ("the ends exchanged", "(wide[1] * (64 - weight) + wide[0] * weight + 32 >> 6) >> 8"),
        ("a weight of 64 read as 63", "(wide[0] * (64 - min(63, weight)) + wide[1] * min(63, weight) + 32 >> 6) >> 8"),
        ("a weight of 0 read as 1", "(wide[0] * (64 - max(1, weight)) + wide[1] * max(1, weight) + 32 >> 6) >> 8")):
    CHANGES.append(("endpoints", told, MIXED, "    return " + new))
WIDE = "[256 * end + 128 if srgb and channel < 3 else 257 * end for end in (first, second)]"
for told, new in (
        ("linear widened like sRGB", "[256 * end + 128 if channel < 3 else 257 * end for end in (first, second)]"),
        ("linear and alpha widened like sRGB", "[256 * end + 128 for end in (first, second)]"),
        ("linear widened without the lower byte", "[256 * end + 128 if srgb and channel < 3 else 256 * end for end in (first, second)]"),
        ("linear widened with a lower byte of 255", "[256 * end + 128 if srgb and channel < 3 else 256 * end + 255 for end in (first, second)]"),
        ("blue of sRGB widened like linear", "[256 * end + 128 if srgb and channel < 2 else 257 * end for end in (first, second)]")):
    CHANGES.append(("endpoints", told, WIDE, new))
for told, new in (
        ("one too low", "max(0, (value >> 8) - 1)"), ("255 never reached", "min(254, value >> 8)"), ("0 never reached", "max(1, value >> 8)"),
        ("the lowest bit left out", "value >> 8 & 254"), ("one too high", "min(255, (value >> 8) + 1)"), ("the nearest of 255 steps without a float", "(value * 255 + 32767) // 65535"),
        ("the nearest of 256 steps", "min(255, value + 128 >> 8)"), ("16 bits rounded up", "value + 255 >> 8 if value < 65281 else 255"),
        ("the bytes exchanged if they differ by one", "value & 255 if abs((value & 255) - (value >> 8)) == 1 else value >> 8")):
    CHANGES.append(("constants", told, CONSTANT, "[tuple(%s for value in block[2])]" % new))

# Changes that no block shows: what is changed, why it is equivalent, the text and the text in its place. They are all before the texels, so
# that equal fields, ends and weights make equal texels.
EQUIVALENT = [
    ("20 integers read without a selector", "equal parts have 2 to 16, 18, 24 or 32", MANY, "    if colour_count(parts, cems) > (18 if selector else 20):"),
    ("weights over 96 bits read with a selector", "no bit is left to the colours", WEIGHTS, "    if not 24 <= sequence_length(levels, count) <= (110 if selector else 96):"),
    ("void extents by ten bits", "mode 0x3FC is reserved", "    if bits(number, 0, 9) == 0x1FC:", "    if bits(number, 0, 10) == 0x1FC:"),
    ("the mask of a trit word's third form left out", "both bits are 1 in its first form", "bits(c, 1, 1) << 1 | bits(c, 0, 1) & ~bits(c, 1, 1)", "bits(c, 0, 2)"),
    ("the factor of colour level 192 is 4", "the sum loses its two lowest bits", '192: ("fedcb000f", 5)', '192: ("fedcb000f", 4)'),
    ("the last bit of colour level 192", "the sum loses it", '192: ("fedcb000f", 5)', '192: ("fedcb0000", 5)'),
    ("the last bit of colour level 160", "the sum loses it", '160: ("edcb0000e", 6)', '160: ("edcb00000", 6)'),
    ("the last bit of colour level 40", "the sum loses it", '40: ("cb0000cbc", 26)', '40: ("cb0000cb0", 26)'),
    ("the last bit of colour level 48", "the sum loses it", '48: ("dcb000dcb", 22)', '48: ("dcb000dc0", 22)'),
    ("the last bit of colour level 24", "the sum loses it", '24: ("cb000cbcb", 44)', '24: ("cb000cbc0", 44)'),
    ("the factor of weight level 6 is 51", "the sum loses its two lowest bits", '{6: ("0", 50)', '{6: ("0", 51)'),
]
