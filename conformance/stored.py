"""The blocks of a KTX or .astc file of the set, for decoders that take blocks alone."""
import struct

FOOTPRINTS = [(4, 4), (5, 4), (5, 5), (6, 5), (6, 6), (8, 5), (8, 6), (8, 8), (10, 5), (10, 6), (10, 8), (10, 10), (12, 10), (12, 12)]
LINEAR, SRGB = 0x93B0, 0x93D0


def read_texture(name):
    """The blocks of level 0, the sides in texels, the footprint, and whether they are sRGB."""
    with open(name, "rb") as file:
        data = file.read()
    if data[:4] == b"\x13\xAB\xA1\x5C":
        width, height = (int.from_bytes(data[at:at + 3], "little") for at in (7, 10))
        return data[16:], width, height, (data[4], data[5]), False
    internal, width, height = struct.unpack_from("<I4xII", data, 28)
    keys, = struct.unpack_from("<I", data, 60)
    size, = struct.unpack_from("<I", data, 64 + keys)
    is_srgb = internal >= SRGB
    return data[68 + keys:68 + keys + size], width, height, FOOTPRINTS[internal - (SRGB if is_srgb else LINEAR)], is_srgb
