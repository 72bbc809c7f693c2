"""PAM pictures, KTX files and .astc files, read and written by docs/FORMATS.md alone: plain and slow.

A fault is raised as `Fault(status, text)`: the status that the program ends with, and what it says of the fault.
"""
import struct
from blocks import FOOTPRINTS, hash52

MOST_SIDE, MOST_TEXELS, MOST_KEYS, MOST_ELEMENTS = 8192, 33554432, 1048576, 2048
IDENTIFIER = bytes.fromhex("AB4B5458203131BB0D0A1A0A")
PART_IDENTIFIER = b"astc_tool part\r\n"
KEYS = struct.pack("<I", 23) + b"KTXorientation\0S=r,T=d\0" + b"\0"


class Fault(Exception):
    def __init__(self, status, text):
        super().__init__(text)
        self.status, self.text = status, text


class Images:
    """This many images of equal sides: `texels` has one list an image, rows from the top."""

    def __init__(self, width, height, texels):
        self.width, self.height, self.texels = width, height, texels


class Texture:
    """A texture of blocks; `blocks` has one list of 16 bytes an image, level by level, element by element, face by face."""

    def __init__(self, footprint, srgb, width, height, elements, faces, levels):
        self.footprint, self.srgb, self.width, self.height = footprint, srgb, width, height
        self.elements, self.faces, self.levels, self.blocks = elements, faces, levels, []

    def sides(self, level):
        return side_at(self.width, level), side_at(self.height, level)

    def grid(self, level):
        width, height = self.sides(level)
        return -(-width // self.footprint[0]), -(-height // self.footprint[1])

    def places(self):
        """(level, element, face) of each image, in the order of the file."""
        return [(level, element, face) for level in range(self.levels) for element in range(max(1, self.elements)) for face in range(self.faces)]


def side_at(side, level):
    return max(1, side >> level)


def full_levels(width, height):
    return max(width, height).bit_length()


# ---- PAM


def read_pam(data, count, cube=False, sides=None):
    """The images that are wanted: this many, square where `cube`, of these sides where some are given."""
    images, at, first = [], 0, None
    for image in range(count):
        width, height, depth, start = pam_header_at(data, at, image)
        judge_sides(image, width, height, depth, count, cube, sides, first)
        first = (width, height)
        size = width * height * depth
        if len(data) < start + size:
            raise Fault(3, "image %d: ends after %d bytes" % (image, len(data) - at))
        images.append([texel_of(data[k:k + depth]) for k in range(start, start + size, depth)])
        at = start + size
    if at < len(data):
        raise Fault(3, "bytes after the last image")
    return Images(first[0], first[1], images)


def texel_of(channels):
    if len(channels) < 3:
        channels = channels[:1] * 3 + channels[1:]
    return tuple(channels) + (255,) * (4 - len(channels))


def pam_header_at(data, at, image):
    """The numbers of the header that begins there, and where the raster begins."""
    if at == len(data):
        raise Fault(3, "image 0: not a PAM header" if image == 0 else "only %d images" % image)
    if data[at:at + 2] != b"P7":
        raise Fault(3, "image %d: not a PAM header" % image)
    seen, start, line = {}, at, 0
    while True:
        end = data.find(b"\n", start)
        whole = 0 <= end < at + 4096
        if not whole:
            if len(data) - at >= 4096:
                raise Fault(3, "image %d: header longer than 4096 bytes" % image)
            raise Fault(3, "image %d: ends after %d bytes" % (image, len(data) - at))
        text, start, line = data[start:end], end + 1, line + 1
        if line == 1:
            if text[2:].strip(b"\t\v\f\r "):
                raise Fault(3, "image %d: not a PAM header" % image)
            continue
        text = text.strip(b"\t\v\f\r ")
        if text == b"ENDHDR":
            break
        judge_line(text, image, line, seen)
    for name in ("WIDTH", "HEIGHT", "DEPTH", "MAXVAL"):
        if name not in seen:
            raise Fault(3, "image %d: %s is missing" % (image, name))
    if seen["MAXVAL"] != 255:
        raise Fault(3, "image %d: MAXVAL %d is not 255" % (image, seen["MAXVAL"]))
    if not 1 <= seen["DEPTH"] <= 4:
        raise Fault(3, "image %d: DEPTH %d is not 1 to 4" % (image, seen["DEPTH"]))
    return seen["WIDTH"], seen["HEIGHT"], seen["DEPTH"], start


def judge_line(text, image, line, seen):
    if not text or text.startswith(b"#"):
        return
    name, rest = text, b""
    for k, byte in enumerate(text):
        if byte in b"\t\v\f\r ":
            name, rest = text[:k], text[k:].strip(b"\t\v\f\r ")
            break
    if name == b"TUPLTYPE":
        return
    if name not in (b"WIDTH", b"HEIGHT", b"DEPTH", b"MAXVAL"):
        raise Fault(3, "image %d line %d: unknown line" % (image, line))
    name = name.decode()
    if name in seen:
        raise Fault(3, "image %d line %d: repeated line" % (image, line))
    if not rest.isdigit() or len(rest) > 10 or int(rest) > 0xFFFFFFFF:
        raise Fault(3, "image %d line %d: not a number" % (image, line))
    seen[name] = int(rest)


def judge_sides(image, width, height, depth, count, cube, sides, first):
    if not (1 <= width <= MOST_SIDE and 1 <= height <= MOST_SIDE):
        raise Fault(3, "image %d: sides %d x %d are not 1 to 8192" % (image, width, height))
    if image == 0:
        if sides and sides != (width, height):
            raise Fault(3, "image 0: sides %d x %d are not those of the KTX file" % (width, height))
        if cube and width != height:
            raise Fault(3, "image 0: sides %d x %d are not square" % (width, height))
        if width * height * count > MOST_TEXELS:
            raise Fault(3, "%d texels are more than %d" % (width * height * count, MOST_TEXELS))
    elif (width, height) != first:
        raise Fault(3, "image %d: sides differ from image 0" % image)


def write_pam(width, height, texels):
    header = "P7\nWIDTH %d\nHEIGHT %d\nDEPTH 4\nMAXVAL 255\nTUPLTYPE RGB_ALPHA\nENDHDR\n" % (width, height)
    return header.encode() + b"".join(bytes(texel) for texel in texels)


# ---- the mip chain, sources, and the picture of a trial


def halved(images):
    """The next level."""
    width, height = side_at(images.width, 1), side_at(images.height, 1)

    def texel(old, x, y):
        four = [old[min(2 * y + j, images.height - 1) * images.width + min(2 * x + i, images.width - 1)] for j in (0, 1) for i in (0, 1)]
        return tuple((sum(channel) + 2) // 4 for channel in zip(*four))

    return Images(width, height, [[texel(old, x, y) for y in range(height) for x in range(width)] for old in images.texels])


def chain(images, levels):
    result = [images]
    while len(result) < levels:
        result.append(halved(result[-1]))
    return result


def source_of(images, image, footprint, column, row):
    """The places of a block's source: None outside."""
    width, height = footprint
    texels, places = images.texels[image], []
    for p in range(width * height):
        x, y = column * width + p % width, row * height + p // width
        places.append(texels[y * images.width + x] if x < images.width and y < images.height else None)
    return places


def trial_picture(number, width, height):
    def texel(x, y):
        h = hash52(number + 8192 * y + x & 0xFFFFFFFF)
        return (255 * x // max(1, width - 1) ^ h & 7, 255 * y // max(1, height - 1) ^ h >> 3 & 7, 128 ^ h >> 6 & 7, 255)

    return Images(width, height, [[texel(x, y) for y in range(height) for x in range(width)]])


# ---- KTX


class Header:
    """The words of a KTX header that follow the endianness, and the order of bytes."""

    def __init__(self, data, short, identifier, endian):
        if len(data) < 64:
            raise short(len(data))
        for place, byte in enumerate(IDENTIFIER):
            if data[place] != byte:
                raise identifier(place)
        word = int.from_bytes(data[12:16], "little")
        if word not in (0x04030201, 0x01020304):
            raise endian(word)
        self.order = "<" if word == 0x04030201 else ">"
        (self.kind, _, self.format, self.internal, _, self.width, self.height, self.depth, self.elements, self.faces, self.levels,
         self.keys) = struct.unpack(self.order + "12I", data[16:64])


def judge_extent(header, fault):
    """Tests what both forms of KTX have, in order; `fault` makes a fault of its name and numbers."""
    if not (1 <= header.width <= MOST_SIDE and 1 <= header.height <= MOST_SIDE):
        raise fault("BadSides", header.width, header.height)
    if header.depth > 1:
        raise fault("HasDepth", header.depth)
    if header.elements > MOST_ELEMENTS:
        raise fault("TooManyElements", header.elements)
    if header.faces not in (1, 6):
        raise fault("BadFaces", header.faces)
    if header.faces == 6 and header.width != header.height:
        raise fault("FacesNotSquare", header.width, header.height)
    if header.levels > full_levels(header.width, header.height):
        raise fault("TooManyLevels", header.levels)
    if header.keys > MOST_KEYS:
        raise fault("KeysTooLong", header.keys)
    texels = header.width * header.height * max(1, header.elements) * header.faces
    if texels > MOST_TEXELS:
        raise fault("TooLarge", texels)


def read_levels(data, header, sizes, fault):
    """The data of each level, of sizes (of one image, of images), behind its imageSize."""
    at, levels = 64 + header.keys, []
    if len(data) < at:
        raise fault("ShortData", len(data))
    for level, (size, count) in enumerate(sizes):
        if len(data) < at + 4:
            raise fault("ShortData", len(data))
        found, = struct.unpack(header.order + "I", data[at:at + 4])
        wanted = size if header.faces == 6 and header.elements == 0 else size * count
        if found != wanted:
            raise fault("BadImageSize", level, found, wanted)
        at += 4
        if len(data) < at + size * count:
            raise fault("ShortData", len(data))
        levels.append(data[at:at + size * count])
        at += size * count
    if at < len(data):
        raise fault("TrailingBytes")
    return levels


KTX_TEXTS = dict(ShortHeader="only %d bytes", BadIdentifier="byte %d of the identifier is wrong", BadEndian="endianness %d",
                 NotCompressed="type %d format %d is not compressed", UnknownFormat="unknown format %d", BadSides="sides %d x %d are not 1 to 8192",
                 HasDepth="depth %d", TooManyElements="%d elements are more than 2048", BadFaces="%d faces", FacesNotSquare="faces %d x %d are not square",
                 TooManyLevels="too many levels %d", KeysTooLong="%d bytes of keys are more than 1048576", BadImageSize="level %d has size %d and not %d",
                 ShortData="ends after %d bytes", TrailingBytes="bytes after the last block")


def ktx_fault(name, *numbers):
    if name == "TooLarge":
        return Fault(4, "%d texels are more than %d" % (numbers[0], MOST_TEXELS))
    return Fault(4, "KTX: " + KTX_TEXTS[name] % numbers)


def texture_in(data):
    """The header of a KTX file of blocks, and its texture without them."""
    header = Header(data, lambda n: ktx_fault("ShortHeader", n), lambda p: ktx_fault("BadIdentifier", p), lambda n: ktx_fault("BadEndian", n))
    if header.kind or header.format:
        raise ktx_fault("NotCompressed", header.kind, header.format)
    place, srgb = header.internal - 0x93B0, False
    if header.internal >= 0x93D0:
        place, srgb = header.internal - 0x93D0, True
    if not 0 <= place < 14:
        raise ktx_fault("UnknownFormat", header.internal)
    judge_extent(header, ktx_fault)
    return header, Texture(FOOTPRINTS[place], srgb, header.width, header.height, header.elements, header.faces, max(1, header.levels))


def read_ktx(data):
    """The texture of blocks that a KTX file is."""
    header, texture = texture_in(data)
    count = max(1, header.elements) * header.faces
    sizes = [(16 * texture.grid(level)[0] * texture.grid(level)[1], count) for level in range(texture.levels)]
    for (size, _), bytes_of_level in zip(sizes, read_levels(data, header, sizes, ktx_fault)):
        for image in range(count):
            whole = bytes_of_level[image * size:(image + 1) * size]
            texture.blocks.append([whole[k:k + 16] for k in range(0, size, 16)])
    return texture


def ktx_header(texture):
    """The 92 bytes in front of the first level."""
    internal = (0x93D0 if texture.srgb else 0x93B0) + FOOTPRINTS.index(texture.footprint)
    words = [0x04030201, 0, 1, 0, internal, 0x1908, texture.width, texture.height, 0, texture.elements, texture.faces, texture.levels, len(KEYS)]
    return IDENTIFIER + struct.pack("<13I", *words) + KEYS


def write_ktx(texture):
    out = ktx_header(texture)
    count = max(1, texture.elements) * texture.faces
    for level in range(texture.levels):
        columns, rows = texture.grid(level)
        size = 16 * columns * rows
        out += struct.pack("<I", size if texture.faces == 6 and texture.elements == 0 else size * count)
        for blocks in texture.blocks[level * count:(level + 1) * count]:
            out += b"".join(blocks)
    return out


SOURCE_FAULTS = ["ShortHeader", "BadIdentifier", "BadEndian", "WrongFormat", "BadSides", "HasDepth", "TooManyElements", "BadFaces", "FacesNotSquare",
                 "TooManyLevels", "KeysTooLong", "TooLarge", "BadImageSize", "ShortData", "TrailingBytes"]
SOURCE_FORMATS = {(0x1908, 0x8058): 4, (0x1908, 0x1908): 4, (0x1908, 0x8C43): 4, (0x1907, 0x8051): 3, (0x1907, 0x1907): 3, (0x1907, 0x8C41): 3}


def source_fault(name, *numbers):
    return Fault(11, "source: fault %d" % (SOURCE_FAULTS.index(name) + 1))


def read_source(data):
    """(header, the images of each level) of an uncompressed KTX file."""
    header = Header(data, lambda n: source_fault("ShortHeader"), lambda p: source_fault("BadIdentifier"), lambda n: source_fault("BadEndian"))
    channels = SOURCE_FORMATS.get((header.format, header.internal))
    if header.kind != 0x1401 or channels is None:
        raise source_fault("WrongFormat")
    judge_extent(header, source_fault)
    count, levels = max(1, header.elements) * header.faces, []
    sides = [(side_at(header.width, level), side_at(header.height, level)) for level in range(max(1, header.levels))]
    sizes = [((width * channels + 3) // 4 * 4 * height, count) for width, height in sides]
    for (width, height), (size, _), whole in zip(sides, sizes, read_levels(data, header, sizes, source_fault)):
        pitch = (width * channels + 3) // 4 * 4
        levels.append(Images(width, height, [[
            texel_of(whole[image * size + y * pitch + x * channels:][:channels]) for y in range(height) for x in range(width)] for image in range(count)]))
    return header, levels


# ---- parts


def image_blocks(texture):
    """How many blocks each image has, in the order of the file."""
    return [texture.grid(level)[0] * texture.grid(level)[1] for level, _, _ in texture.places()]


def part_range(texture, place, parts):
    """The first block of a part, and the first behind it."""
    blocks = sum(image_blocks(texture))
    return place * blocks // parts, (place + 1) * blocks // parts


def digest_of(levels):
    """FNV-1a of 64 bits over the bytes of all texels: level by level, image by image, rows from the top."""
    digest = 14695981039346656037
    for images in levels:
        for texels in images.texels:
            for texel in texels:
                for byte in texel:
                    digest = (digest ^ byte) * 1099511628211 % 2 ** 64
    return digest


def mark_of(preset, fitted, weights, levels):
    """The 16 bytes that the parts of one job have in common, behind their number."""
    number = ["flat", "quick", "medium", "thorough", "pairs"].index(preset) + (16 if fitted else 0)
    return struct.pack("<I4BQ", number, *weights, digest_of(levels))


def write_part(texture, mark, place, parts, pieces):
    """The part of these (block, error)."""
    front = PART_IDENTIFIER + ktx_header(texture) + struct.pack("<2I", place, parts) + mark
    return front + b"".join(block + struct.pack("<I", error) for block, error in pieces)


def read_part(data):
    """(texture without blocks, mark, place, parts, (block, error) of each of its blocks)."""
    if data.startswith(IDENTIFIER):
        raise Fault(12, "a whole texture, no part")
    if data.startswith(b"P7\n"):
        raise Fault(12, "a picture, no part")
    if len(data) < 132:
        raise Fault(13, "part: ends after %d bytes" % len(data))
    if not data.startswith(PART_IDENTIFIER):
        raise Fault(12, "no part file")
    try:
        texture = texture_in(data[16:80])[1]
    except Fault as fault:
        raise Fault(12, fault.text)
    for at, byte in enumerate(ktx_header(texture), 16):
        if data[at] != byte:
            raise Fault(12, "part: byte %d, in the header, is wrong" % at)
    place, parts = struct.unpack("<2I", data[108:116])
    if place >= parts or parts > 65536:
        raise Fault(12, "part: %d is no place among %d parts" % (place, parts))
    start, end = part_range(texture, place, parts)
    if len(data) < 132 + 20 * (end - start):
        raise Fault(13, "part: ends after %d bytes" % len(data))
    if len(data) > 132 + 20 * (end - start):
        raise Fault(14, "part: bytes after the last block")
    pieces = [(data[k:k + 16], int.from_bytes(data[k + 16:k + 20], "little")) for k in range(132, len(data), 20)]
    return texture, data[116:132], place, parts, pieces


# ---- .astc


def astc_fault(number):
    return Fault(9, ".astc: fault %d" % number)


def read_astc(data):
    """The texture of one image that an .astc file is, in the linear flavour."""
    if len(data) < 16:
        raise astc_fault(1)
    if data[:4] != bytes.fromhex("13ABA15C"):
        raise astc_fault(2)
    if data[6] != 1 or (data[4], data[5]) not in FOOTPRINTS:
        raise astc_fault(3)
    width, height, depth = (int.from_bytes(data[k:k + 3], "little") for k in (7, 10, 13))
    if depth != 1 or not (1 <= width <= MOST_SIDE and 1 <= height <= MOST_SIDE):
        raise astc_fault(4)
    if width * height > MOST_TEXELS:
        raise astc_fault(5)
    texture = Texture((data[4], data[5]), False, width, height, 0, 1, 1)
    columns, rows = texture.grid(0)
    if len(data) < 16 + 16 * columns * rows:
        raise astc_fault(6)
    if len(data) > 16 + 16 * columns * rows:
        raise astc_fault(7)
    texture.blocks.append([data[k:k + 16] for k in range(16, len(data), 16)])
    return texture


def write_astc(texture, image, level):
    width, height = texture.sides(level)
    head = bytes.fromhex("13ABA15C") + bytes(texture.footprint + (1,)) + b"".join(n.to_bytes(3, "little") for n in (width, height, 1))
    return head + b"".join(texture.blocks[image])
