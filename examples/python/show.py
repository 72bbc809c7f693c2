#!/usr/bin/env python3
"""Decode a plain .astc file to a PAM picture, with the module astc_tool.

    examples/python/show.py IN.astc OUT.pam [srgb]
"""
import os
import sys

sys.path.append(os.path.join(os.path.dirname(os.path.abspath(__file__)), "..", "..", "python"))
import astc_tool


def main(source, target, srgb=None):
    with open(source, "rb") as file:
        header, blocks = file.read(16), file.read()
    if len(header) < 16 or header[:4] != b"\x13\xAB\xA1\x5C" or header[6] != 1 or header[13:] != b"\1\0\0":
        sys.exit("show: IN must be a plain .astc file with a 2D footprint")
    width, height = (int.from_bytes(header[at:at + 3], "little") for at in (7, 10))
    texels = astc_tool.show(blocks, width, height, f"{header[4]}x{header[5]}", srgb=srgb == "srgb")
    with open(target, "wb") as file:
        file.write(f"P7\nWIDTH {width}\nHEIGHT {height}\nDEPTH 4\nMAXVAL 255\nTUPLTYPE RGB_ALPHA\nENDHDR\n".encode() + texels)
    print(f"blocks {len(blocks) // 16} illegal {texels.illegal}")


words = sys.argv[1:]
if len(words) not in (2, 3) or words[2:] not in ([], ["srgb"]):
    print(__doc__, file=sys.stderr)
    sys.exit(2)
try:
    main(*words)
except (OSError, ValueError) as error:
    sys.exit(f"show: {error}")
