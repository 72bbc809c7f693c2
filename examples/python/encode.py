#!/usr/bin/env python3
"""Pack a PAM picture with four bytes per texel into a plain .astc file on all processors, with the
module astc_tool.

    examples/python/encode.py IN.pam OUT.astc 6x6 quick [srgb]
"""
import os
import sys

sys.path.append(os.path.join(os.path.dirname(os.path.abspath(__file__)), "..", "..", "python"))
import astc_tool


def read_pam(name):
    with open(name, "rb") as file:
        header, _, texels = file.read().partition(b"ENDHDR\n")
    told = dict(line.split(b" ", 1) for line in header.split(b"\n")[1:] if b" " in line)
    width, height, depth, most = (int(told.get(word, b"0")) for word in (b"WIDTH", b"HEIGHT", b"DEPTH", b"MAXVAL"))
    if not header.startswith(b"P7\n") or (depth, most) != (4, 255):
        sys.exit("encode: IN must be one PAM picture of depth 4")
    return texels, width, height


def main(source, target, footprint, preset, srgb=None):
    texels, width, height = read_pam(source)
    blocks = astc_tool.encode(texels, width, height, footprint, preset, srgb=srgb == "srgb", threads=os.cpu_count() or 1)
    header = bytes([0x13, 0xAB, 0xA1, 0x5C, *astc_tool.sides(footprint), 1]) + b"".join(side.to_bytes(3, "little") for side in (width, height, 1))
    with open(target, "wb") as file:
        file.write(header + blocks)
    print(f"blocks {len(blocks) // 16} error {blocks.error}")


words = sys.argv[1:]
if len(words) not in (4, 5) or words[4:] not in ([], ["srgb"]):
    print(__doc__, file=sys.stderr)
    sys.exit(2)
try:
    main(*words)
except (OSError, ValueError) as error:
    sys.exit(f"encode: {error}")
