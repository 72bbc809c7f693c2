#!/usr/bin/env python3
"""Draw levels made by the program next to those of examples/make_levels: a checker, and a leaf with
clear green around it.

[ASTC_TOOL=PROGRAM] bench/draw_levels.py OUT.png

One row each: the checker by `pack levels=full srgb`, and by make_levels; the leaf by both, the second
with fill. From the left the levels 0 to 4, scaled to one size, decoded from textures at 4x4 with
medium. The leaf is over a light paper, blended by its alpha, as light.
"""
import os
import subprocess
import sys
import tempfile

TOP = os.path.dirname(os.path.dirname(os.path.abspath(__file__)))
sys.path.insert(0, os.path.join(TOP, "examples"))

import pictures  # noqa: E402

PROGRAM = os.environ.get("ASTC_TOOL", "astc_tool")
SIDE, SHOWN, LEVELS, GAP = 64, 128, 5, 4
PAPER = (214, 220, 232)


def light(value):
    value /= 255
    return value / 12.92 if value <= 0.04045 else ((value + 0.055) / 1.055) ** 2.4


def byte_of(value):
    return round(255 * (12.92 * value if value <= 0.0031308 else 1.055 * value ** (1 / 2.4) - 0.055))


def checker(x, y):
    return (255, 255, 255, 255) if (x + y) % 2 else (0, 0, 0, 255)


def leaf(x, y):
    """Two arcs that meet in points, with holes between veins: red, and clear green around it."""
    u, v = (x + 0.5) / SIDE * 2 - 1, (y + 0.5) / SIDE * 2 - 1
    half = 0.62 * (1 - v * v / 0.9)
    if abs(u) < 0.035 and -0.95 < v < 0.98:
        return 120, 30, 25, 255
    if abs(u) < half and (8 * (v + 0.5 * abs(u))) % 1 < 0.72:
        return 196, 62, 40, 255
    return 0, 255, 0, 0


def run(*words):
    subprocess.run(words, check=True, stdout=subprocess.DEVNULL)


def levels_by(folder, source, is_ours):
    """What a texture of the source shows, level by level."""
    texture, shown, levels = (os.path.join(folder, name) for name in ("texture.ktx", "shown.pam", "levels.ktx"))
    if is_ours:
        run(os.path.join(TOP, "examples/make_levels"), source, levels, "srgb", "fill")
        run(PROGRAM, "packktx", levels, texture, "4x4", "medium", "srgb")
    else:
        run(PROGRAM, "pack", source, texture, "4x4", "medium", "srgb", "levels=full")
    run(PROGRAM, "unpack", texture, shown)
    return pictures.read_images(shown)[:LEVELS]


def over_paper(texels, at):
    part = texels[at + 3] / 255
    return bytes(byte_of(part * light(value) + (1 - part) * light(paper)) for value, paper in zip(texels[at:at + 3], PAPER))


def panel_rows(level):
    """The rows of a level, each texel so often that all levels are as large."""
    width, height, step, texels = level
    times = SHOWN // width
    for y in range(height):
        row = b"".join(over_paper(texels, step * (y * width + x)) * times for x in range(width))
        yield from [row] * times


def drawn(strips):
    """Strips of levels, one below the other, with white between."""
    wide = LEVELS * (SHOWN + GAP) - GAP
    rows = []
    for levels in strips:
        rows += [b"\xff" * 3 * wide] * GAP if rows else []
        rows += [(b"\xff" * 3 * GAP).join(parts) for parts in zip(*map(panel_rows, levels))]
    return wide, len(rows), 3, b"".join(rows)


def main(out):
    strips = []
    with tempfile.TemporaryDirectory() as folder:
        for texel in (checker, leaf):
            source = os.path.join(folder, "source.pam")
            pictures.write_pam(source, SIDE, SIDE, 4, bytes(value for y in range(SIDE) for x in range(SIDE) for value in texel(x, y)))
            strips += [levels_by(folder, source, False), levels_by(folder, source, True)]
    pictures.write_png(out, *drawn(strips))


if len(sys.argv) != 2:
    sys.exit(__doc__)
main(sys.argv[1])
