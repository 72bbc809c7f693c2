"""Read and write pictures, for the scripts beside this file: PNG, PAM and uncompressed DDS with
Python's standard library, JPEG, TGA, BMP, WebP and TIFF with ImageMagick, ffmpeg or netpbm.

A picture is its width, its height, the number of bytes per texel, and the bytes: grey; grey and
alpha; red, green and blue; or all four.
"""
import array
import collections
import contextlib
import itertools
import os
import re
import shutil
import signal
import struct
import subprocess
import sys
import tempfile
import zlib

MOST_SIDE, MOST_TEXELS = 8192, 33554432
PNG = b"\x89PNG\r\n\x1a\n"
GREY, RGB, PALETTE, GREY_ALPHA, RGBA = 0, 2, 3, 4, 6
TUPLES = {1: b"GRAYSCALE", 2: b"GRAYSCALE_ALPHA", 3: b"RGB", 4: b"RGB_ALPHA"}  # PAM's names
SAMPLES = {GREY: 1, RGB: 3, PALETTE: 1, GREY_ALPHA: 2, RGBA: 4}
BITS = {GREY: (1, 2, 4, 8, 16), RGB: (8, 16), PALETTE: (1, 2, 4, 8), GREY_ALPHA: (8, 16), RGBA: (8, 16)}
WHOLE = ((0, 0, 1, 1),)  # where the rows of a file begin in the picture, and their steps across and down
ADAM7 = ((0, 0, 8, 8), (4, 0, 8, 8), (0, 4, 4, 8), (2, 0, 4, 4), (0, 2, 2, 4), (1, 0, 2, 2), (0, 1, 1, 2))

Header = collections.namedtuple("Header", "width height bits colour compression filters interlaced")


def shown(name):
    """A name for a message: signs that a terminal may act on, or does not show, are escaped."""
    return "".join(sign if sign.isprintable() else ascii(sign)[1:-1] for sign in name)


OWN_NAME = shown(os.path.basename(sys.argv[0]))  # of the script, in its messages


def described(text):
    """A script's description, with the names that the scripts have as installed commands."""
    if not os.path.dirname(os.path.realpath(__file__)).endswith("/libexec/astc_tool"):
        return text
    return re.sub(r"examples/(\w+)", lambda name: "astc_tool-" + name[1].replace("_", "-"), text)


def refuse(name, why):
    sys.exit(f"{OWN_NAME}: {shown(name)}: {why}")


def judge_sides(name, width, height):
    if not (1 <= width <= MOST_SIDE and 1 <= height <= MOST_SIDE):
        refuse(name, f"{width} by {height} texels: width and height must be 1 to {MOST_SIDE}")
    if width * height > MOST_TEXELS:
        refuse(name, f"{width} by {height} texels: the limit is 32 megapixels (33,554,432 texels)")


def read_chunks(name, data):
    """The header, and the bodies of the other chunks by their kinds."""
    if not data.startswith(PNG):
        refuse(name, "not a PNG file")
    bodies, at = collections.defaultdict(bytes), 8
    while at + 12 <= len(data):
        length, kind = struct.unpack_from(">I4s", data, at)
        bodies[kind] += data[at + 8:at + 8 + length]
        at += 12 + length
    if len(bodies[b"IHDR"]) != 13:
        refuse(name, "the header is missing")
    header = Header(*struct.unpack(">IIBBBBB", bodies[b"IHDR"]))
    if header.bits not in BITS.get(header.colour, ()) or header.interlaced > 1 or header.compression or header.filters:
        refuse(name, "the header is not that of a PNG file")
    judge_sides(name, header.width, header.height)
    return header, bodies


def nearest(left, above, corner):
    """The Paeth filter's choice."""
    to_left, to_above, to_corner = abs(above - corner), abs(left - corner), abs(left + above - 2 * corner)
    if to_left <= to_above and to_left <= to_corner:
        return left
    return above if to_above <= to_corner else corner


def unfiltered_channel(kind, line, above):
    """Every so manieth byte of a row without its filter; bytes left of the row are 0."""
    if kind == 1:
        return bytes(value & 255 for value in itertools.accumulate(line))
    if kind == 2:
        return bytes((value + up) & 255 for value, up in zip(line, above))
    row, left, corner = bytearray(), 0, 0
    for value, up in zip(line, above):
        left = (value + ((left + up) // 2 if kind == 3 else left if left == up == corner else nearest(left, up, corner))) & 255
        row.append(left)
        corner = up
    return row


def unfiltered(kind, line, above, step):
    """A row without its filter, which looks at the byte `step` places to the left, at the row above, or at both."""
    if kind == 0:
        return line
    row = bytearray(line)
    for first in range(step):
        row[first::step] = unfiltered_channel(kind, line[first::step], above[first::step])
    return bytes(row)


def passes(header):
    """Of each pass that has texels: its first column and row, its steps, and how many columns and rows."""
    for left, top, across, down in ADAM7 if header.interlaced else WHOLE:
        columns, rows = -(-(header.width - left) // across), -(-(header.height - top) // down)
        if columns > 0 and rows > 0:
            yield left, top, across, down, columns, rows


def row_size(header, columns):
    return (columns * SAMPLES[header.colour] * header.bits + 7) // 8


def inflated(name, header, rows):
    wanted = sum((row_size(header, columns) + 1) * count for *_, columns, count in passes(header))
    try:
        stored = zlib.decompressobj().decompress(rows, wanted)
    except zlib.error:
        stored = b""
    if len(stored) < wanted:
        refuse(name, "the image data is damaged")
    return stored


class Shower:
    """Makes bytes of a row's samples: grey, grey and alpha, red, green and blue, or all four."""

    def __init__(self, name, header, bodies):
        self.name, self.header, clear = name, header, bodies[b"tRNS"]
        self.most, self.clear, self.palette = 2 ** header.bits - 1, None, None
        self.step = SAMPLES[header.colour]
        if header.colour == PALETTE:
            self.step = 4 if clear else 3
            colours, alphas = bodies[b"PLTE"], itertools.chain(clear, itertools.repeat(255))
            self.palette = [colours[at:at + 3] + bytes([alpha])[:self.step - 3] for at, alpha in zip(range(0, len(colours) - 2, 3), alphas)]
        elif clear and header.colour in (GREY, RGB):
            self.clear = struct.unpack(f">{self.step}H", clear[:2 * self.step].ljust(2 * self.step, b"\0"))
            self.step += 1
        digits = 8 // min(8, header.bits)
        self.digits = [bytes(byte >> header.bits * (digits - 1 - k) & self.most for k in range(digits)) for byte in range(256)]

    def samples(self, row, columns):
        if self.header.bits == 16:
            values = array.array("H", row)
            if sys.byteorder == "little":
                values.byteswap()
            return values
        if self.header.bits == 8:
            return row
        return b"".join(map(self.digits.__getitem__, row))[:columns * SAMPLES[self.header.colour]]

    def shown(self, row, columns):
        samples = self.samples(row, columns)
        if self.palette:
            if max(samples) >= len(self.palette):
                refuse(self.name, "the palette is too short")
            return b"".join(map(self.palette.__getitem__, samples))
        values = samples if self.most == 255 else bytes((2 * 255 * value + self.most) // (2 * self.most) for value in samples)
        if not self.clear:
            return values
        channels = [samples[k::len(self.clear)] for k in range(len(self.clear))]
        shown = bytearray(columns * self.step)
        for k in range(len(self.clear)):
            shown[k::self.step] = values[k::len(self.clear)]
        shown[len(self.clear)::self.step] = bytes(0 if texel == self.clear else 255 for texel in zip(*channels))
        return bytes(shown)


def read_png(name):
    """Width, height, channels and texels."""
    with open(name, "rb") as file:
        return png_image(name, file.read())


def png_image(name, data):
    header, bodies = read_chunks(name, data)
    if header.colour == PALETTE and len(bodies[b"PLTE"]) < 3:
        refuse(name, "the palette is missing")
    stored, shower = inflated(name, header, bodies[b"IDAT"]), Shower(name, header, bodies)
    texels, step, width, at = bytearray(header.width * header.height * shower.step), shower.step, header.width, 0
    behind = max(1, SAMPLES[header.colour] * header.bits // 8)  # how far a filter looks to the left
    for left, top, across, down, columns, rows in passes(header):
        size = row_size(header, columns)
        above = bytes(size)
        for y in range(top, header.height, down):
            if stored[at] > 4:
                refuse(name, "the image data is damaged")
            above = unfiltered(stored[at], stored[at + 1:at + 1 + size], above, behind)
            shown = shower.shown(above, columns)
            for k in range(step):
                texels[(y * width + left) * step + k:(y + 1) * width * step:across * step] = shown[k::step]
            at += size + 1
    return header.width, header.height, step, bytes(texels)


def pam_image(name, data, at):
    """Width, height, channels and texels of the image that begins at a place of a PAM file, and the place behind it."""
    header, _, _ = data[at:at + 4096].partition(b"ENDHDR\n")
    told = dict(line.split(b" ", 1) for line in header.split(b"\n")[1:] if b" " in line)
    try:
        width, height, step, most = (int(told[word]) for word in (b"WIDTH", b"HEIGHT", b"DEPTH", b"MAXVAL"))
    except (KeyError, ValueError):
        refuse(name, "not a PAM picture")
    first = at + len(header) + len(b"ENDHDR\n")
    end = first + width * height * step
    if not header.startswith(b"P7\n") or most != 255 or not 1 <= step <= 4 or min(width, height) < 1 or len(data) < end:
        refuse(name, "not a PAM picture with eight bits per channel")
    return (width, height, step, data[first:end]), end


def read_pam(name):
    """The first image of a PAM file: width, height, channels and texels."""
    with open(name, "rb") as file:
        return pam_image(name, file.read(), 0)[0]


# ---- pictures of other formats, by the tools that are installed


MARKS = ((PNG, "PNG"), (b"P7\n", "PAM"), (b"\xff\xd8\xff", "JPEG"), (b"BM", "BMP"),
         (b"II*\0", "TIFF"), (b"MM\0*", "TIFF"), (b"DDS ", "DDS"))
ENDINGS = (".png", ".jpg", ".jpeg", ".tga", ".bmp", ".webp", ".tif", ".tiff", ".dds")
CMYK = ("a CMYK picture; convert it to sRGB first, with ImageMagick: "
        "convert IN -colorspace sRGB OUT.png")
FRAMES = set(range(0xC0, 0xD0)) - {0xC4, 0xC8, 0xCC}  # JPEG's markers with the number of channels
EXIF = b"Exif\0\0"
TAGS = (SAMPLE_BITS, COMPRESSION, PHOTOMETRIC, ORIENTATION, PER_TEXEL, EXTRA_SAMPLES,
        SAMPLE_FORMAT) = 258, 259, 262, 274, 277, 338, 339
DECODERS = {"JPEG": "mjpeg", "TGA": "targa"}  # of ffmpeg, if not the format's name
IN_FFMPEG = "-noautorotate -f image2pipe -frame_size SIZE -c:v DECODER -i pipe:0"
# without these options the tools fill up damaged JPEG files; sound TIFF files often cause warnings
STRICT = {"ImageMagick": ["-regard-warnings"], "ffmpeg": ["-xerror", "-err_detect", "explode"]}
OUT_FFMPEG = """-frames:v 1 -sws_flags accurate_rnd+full_chroma_int+full_chroma_inp -pix_fmt TEXELS
    -c:v pam -f image2pipe pipe:1"""
OUT_MAGICK = "-set colorspace sRGB -depth DEPTH -type TrueColorAlpha pam:-"
FROM_NETPBM = {"JPEG": ["jpegtopnm"], "TGA": ["tgatoppm"], "BMP": ["bmptopnm"],
               "TIFF": ["tifftopnm", "-orientraw"]}


def format_of(name, data):
    """The format of a picture by its first bytes, or by the ending for TGA, which has no mark."""
    for mark, kind in MARKS:
        if data.startswith(mark):
            return kind
    if data[:4] == b"RIFF" and data[8:12] == b"WEBP":
        return "WebP"
    return "TGA" if name.lower().endswith(".tga") else None


def jpeg_segments(data):
    """The markers before the texels, with their bodies and with the places after them."""
    at = 2
    while at + 4 <= len(data) and data[at] == 0xFF and data[at + 1] != 0xDA:
        if data[at + 1] == 0xFF:
            at += 1
            continue
        length, = struct.unpack_from(">H", data, at + 2)
        yield data[at + 1], data[at + 4:at + 2 + length], at + 2 + length
        at += 2 + length


def webp_chunks(data):
    at = 12
    while at + 8 <= len(data):
        kind, length = struct.unpack_from("<4sI", data, at)
        yield kind, data[at + 8:at + 8 + length]
        at += 8 + length + length % 2


def tags_of(data):
    """The first number of each tag of a TIFF file or of Exif data."""
    order, tags = "<" if data[:2] == b"II" else ">", {}
    with contextlib.suppress(struct.error):
        first, = struct.unpack_from(order + "I", data, 4)
        count, = struct.unpack_from(order + "H", data, first)
        for at in range(first + 2, first + 2 + 12 * count, 12):
            tag, kind, length = struct.unpack_from(order + "HHI", data, at)
            if tag in TAGS and kind == 3:
                place = at + 8 if length <= 2 else struct.unpack_from(order + "I", data, at + 8)[0]
                tags[tag], = struct.unpack_from(order + "H", data, place)
    return tags


def is_grey_alpha_tga(data):
    return data[2:3] in (b"\3", b"\x0b") and data[16:17] == b"\x10"


def grey_alpha_tga(name, data):
    """Width, height, channels and texels of a TGA file of grey and alpha, which tools take for grey
    of 16 bits."""
    id_size, has_palette, kind = data[:3].ljust(3, b"\0")
    width, height, _, flags = struct.unpack_from("<2H2B", data.ljust(18, b"\0"), 12)
    judge_sides(name, width, height)
    if flags & 15 != 8 or has_palette:
        refuse(name, "a TGA file of 16-bit grey; give a PNG file")
    at, size = 18 + id_size, 2 * width * height
    texels = bytearray(data[at:at + size] if kind == 3 else b"")
    while kind == 11 and len(texels) < size and at < len(data):  # runs: of one texel, or of several
        count, is_one = (data[at] & 127) + 1, data[at] >= 128
        run = data[at + 1:at + 3] * count if is_one else data[at + 1:at + 1 + 2 * count]
        texels += run
        at += 3 if is_one else 1 + 2 * count
    if len(texels) < size:
        refuse(name, "the image data is incomplete")
    # 0x20: the top row is first; 0x10: the right column is first
    orientation = {0: 4, 0x10: 3, 0x20: 1, 0x30: 2}[flags & 0x30]
    return turned((width, height, 2, bytes(texels[:size])), orientation)


# Of the uncompressed formats of DXGI that have 8 bits per channel: the size of a texel, and the
# places of its channels; None is a channel that is 0.
DXGI = {28: (4, (0, 1, 2, 3)), 29: (4, (0, 1, 2, 3)), 49: (2, (0, 1, None)), 61: (1, (0,)),
        87: (4, (2, 1, 0, 3)), 88: (4, (2, 1, 0)), 91: (4, (2, 1, 0, 3)), 93: (4, (2, 1, 0))}
HAS_ALPHA, IS_CODED, IS_RGB, IS_GREY = 1, 4, 0x40, 0x20000  # flags of a DDS file's texels
HAS_PITCH, IS_MANY, IS_CUBE, IS_VOLUME = 8, 0x200200, 4, 4


def dds_texels(name, data):
    """The size of a texel of a DDS file, the places of its channels, and where the first one is.
    Refuses a file that is not one uncompressed picture."""
    if len(data) < 128:
        refuse(name, "the DDS header is incomplete")
    flags, four, bits, *masks = struct.unpack_from("<I4s5I", data, 80)
    is_many = struct.unpack_from("<I", data, 112)[0] & IS_MANY
    found, first = None, 128
    if flags & IS_CODED and four == b"DX10" and len(data) >= 148:
        form, dimension, more, count = struct.unpack_from("<4I", data, 128)
        is_many = is_many or more & IS_CUBE or dimension == IS_VOLUME or count > 1
        found, first = DXGI.get(form), 148
    elif not flags & IS_CODED:
        colours = masks[:3] if flags & IS_RGB else masks[:1]
        kept = colours + masks[3:] if flags & HAS_ALPHA else colours
        size = bits // 8
        places = tuple({0xFF << 8 * k: k for k in range(4)}.get(mask, 4) for mask in kept)
        sizes = (3, 4) if flags & IS_RGB else (len(kept),) if flags & IS_GREY else ()
        is_plain = bits % 8 == 0 and len(set(places)) == len(places) and max(places) < size
        found = (size, places) if size in sizes and is_plain else None
    if found is None:
        refuse(name, "the DDS file is compressed or does not have 8 bits per channel; give the "
                     "picture that it was made from")
    if is_many:
        refuse(name, "a DDS file of a cube map, an array or a volume; give its pictures one by one")
    return *found, first


def dds_image(name, data):
    """Width, height, channels and texels of an uncompressed DDS file. Tools swap the red and the
    blue of some of its formats."""
    size, places, first = dds_texels(name, data)
    flags, height, width, pitch = struct.unpack_from("<4I", data, 8)
    judge_sides(name, width, height)
    row = width * size
    # many programs write no pitch, or another number
    if not (flags & HAS_PITCH and pitch > row and len(data) >= first + (height - 1) * pitch + row):
        pitch = row
    if len(data) < first + (height - 1) * pitch + row:
        refuse(name, "the image data is incomplete")
    texels = b"".join(data[at:at + row] for at in range(first, first + height * pitch, pitch))
    planes = [bytes(width * height) if k is None else texels[k::size] for k in places]
    return width, height, len(planes), interleaved(planes)


def notes_of(name, kind, data):
    """How to turn the stored rows, 1 to 8 as Exif has it, the tools that do not read all channels as
    they are stored, and whether those have more than 8 bits. Refuses a picture that no tool reads
    so."""
    if kind == "JPEG":
        segments = list(jpeg_segments(data))
        if any(body[5:6] == b"\4" for mark, body, _ in segments if mark in FRAMES):
            refuse(name, CMYK)
        # the texels must have their end marker; a segment may have a picture with its own
        if data.find(b"\xff\xd9", max((end for *_, end in segments), default=2)) < 0:
            refuse(name, "the image data is incomplete")
        exif = (body for mark, body, _ in segments if mark == 0xE1 and body.startswith(EXIF))
        return tags_of(next(exif, EXIF)[len(EXIF):]).get(ORIENTATION, 1), (), False
    if kind == "WebP":
        exif = (body for mark, body in webp_chunks(data) if mark == b"EXIF")
        return tags_of(next(exif, b"").removeprefix(EXIF)).get(ORIENTATION, 1), (), False
    if kind == "TIFF":
        tags = tags_of(data)
        if tags.get(PHOTOMETRIC, 2) == 5:
            refuse(name, CMYK)
        if tags.get(PHOTOMETRIC, 2) > 6 or tags.get(SAMPLE_FORMAT, 1) != 1:
            refuse(name, "a TIFF file of floats, of signed numbers or of Lab colours")
        if tags.get(EXTRA_SAMPLES) == 1:
            refuse(name, "a TIFF file whose colours are multiplied by alpha; give a PNG file, or a "
                         "TIFF file with unassociated alpha")
        without = ["netpbm"] if tags.get(PER_TEXEL, 1) not in (1, 3) else []
        without += ["ffmpeg"] * (tags.get(COMPRESSION) in (6, 7))
        return tags.get(ORIENTATION, 1), without, tags.get(SAMPLE_BITS, 1) > 8
    bits = {"TGA": data[16:17], "BMP": data[28:29]}.get(kind)
    return 1, () if bits == b"\x18" else ("netpbm",), False


def tools_of(kind, size, is_deep):
    """The tools that read a format, the most exact first, each with the commands that make PAM of
    standard input, with 8 bits per channel or, to be rounded here, with 16."""
    magick, tools = shutil.which("magick") or shutil.which("convert"), []
    strict = STRICT if kind == "JPEG" else dict.fromkeys(STRICT, [])
    if magick:
        # ImageMagick does not turn a TGA file whose rows are stored from the bottom up
        upright = ["-auto-orient"] if kind == "TGA" else []
        words = [magick, *strict["ImageMagick"], f"{kind.lower()}:-[0]", *upright]
        words += OUT_MAGICK.replace("DEPTH", "16" if is_deep else "8").split()
        tools.append(("ImageMagick", [words]))
    if shutil.which("ffmpeg"):
        decoder = DECODERS.get(kind, kind.lower())
        words = ["ffmpeg", "-loglevel", "error", *strict["ffmpeg"]]
        words += IN_FFMPEG.replace("SIZE", str(size)).replace("DECODER", decoder).split()
        place = len(tools) if kind in ("JPEG", "WebP", "TIFF") else 0
        words += OUT_FFMPEG.replace("TEXELS", "rgba64be" if is_deep else "rgba").split()
        tools.insert(place, ("ffmpeg", [words]))
    netpbm = [FROM_NETPBM.get(kind), ["pamdepth", "65535" if is_deep else "255"], ["pamtopam"]]
    if kind in FROM_NETPBM and all(shutil.which(words[0]) for words in netpbm):
        tools.append(("netpbm", netpbm))
    return tools


def read_by(tool, commands, data):
    """The PAM file that commands make of a picture; None, and why, if one fails. Names do not reach
    the tools, which would take some for patterns, options or other files."""
    for words in commands:
        with tempfile.TemporaryFile() as file:  # and not a pipe, since tifftopnm goes back and forth
            file.write(data)
            file.seek(0)
            run = subprocess.run(words, stdin=file, stdout=subprocess.PIPE, stderr=subprocess.PIPE)
        # netpbm has no option that makes this warning an error
        if run.returncode or not run.stdout or b"Corrupt JPEG" in run.stderr:
            lines = run.stderr.decode(errors="replace").strip().splitlines()
            return None, f"{tool}: {shown(lines[-1]) if lines else 'no picture'}"
        data = run.stdout
    return data, None


def rounded(data):
    """A PAM file of 16 bits per channel with 8 bits."""
    header, mark, texels = data.partition(b"ENDHDR\n")
    values = array.array("H", texels[:len(texels) // 2 * 2])
    if sys.byteorder == "little":
        values.byteswap()
    header = header.replace(b"\nMAXVAL 65535\n", b"\nMAXVAL 255\n")
    return header + mark + bytes((value + 128) // 257 for value in values)


def turned(picture, orientation):
    """A picture as Exif's orientation shows it: transposed, then with the bottom row first, then
    mirrored."""
    width, height, step, texels = picture
    planes = []
    for plane in (texels[k::step] for k in range(step)):
        if orientation >= 5:
            rows = [plane[x::width] for x in range(width)]
        else:
            rows = [plane[at:at + width] for at in range(0, len(plane), width)]
        if orientation in (3, 4, 7, 8):
            rows.reverse()
        planes.append(b"".join(row[::-1] if orientation in (2, 3, 6, 7) else row for row in rows))
    sides = (height, width) if orientation >= 5 else (width, height)
    return *sides, step, interleaved(planes)


def interleaved(planes):
    texels = bytearray(len(planes) * len(planes[0]))
    for k, plane in enumerate(planes):
        texels[k::len(planes)] = plane
    return bytes(texels)


def read_other(name, kind, data):
    """A picture of another format, by the first tool that reads it."""
    orientation, without, is_deep = notes_of(name, kind, data)
    faults = []
    for tool, commands in tools_of(kind, len(data), is_deep):
        if tool in without:
            continue
        made, fault = read_by(tool, commands, data)
        if made is not None:
            picture, _ = pam_image(name, rounded(made) if is_deep else made, 0)
            judge_sides(name, *picture[:2])
            return turned(picture, orientation) if 2 <= orientation <= 8 else picture
        faults.append(fault)
    if faults:
        refuse(name, f"the {kind} file cannot be read: " + "; ".join(faults))
    other = "ImageMagick" if "ffmpeg" in without else "ImageMagick or ffmpeg"
    refuse(name, f"to read this {kind} file, install {other}")


def read_images(name):
    """All images of a PAM file, or the one of another picture."""
    with open(name, "rb") as file:
        data = file.read()
    kind = format_of(name, data)
    if kind == "PNG":
        return [png_image(name, data)]
    if kind is None:
        refuse(name, "not a PNG, JPEG, TGA, BMP, WebP, TIFF, DDS or PAM picture")
    if kind == "DDS":
        return [dds_image(name, data)]
    if kind == "TGA" and is_grey_alpha_tga(data):
        return [grey_alpha_tga(name, data)]
    if kind != "PAM":
        return [read_other(name, kind, data)]
    images, at = [], 0
    while at < len(data):
        image, at = pam_image(name, data, at)
        images.append(image)
    return images


def channels_of(step, texels):
    """The bytes of red, of green, of blue and of alpha: grey three times, and alpha 255 where there is none."""
    colours = [texels[k::step] for k in (range(3) if step > 2 else (0, 0, 0))]
    return colours + [texels[step - 1::step] if step in (2, 4) else b"\xff" * (len(texels) // step)]


GREY_NORMALS = "a normal map needs red and green, and this picture is grey"


def is_grey(step, texels):
    """Whether red, green and blue are the same in all texels."""
    return step < 3 or texels[0::step] == texels[1::step] == texels[2::step]


def write_png(name, width, height, step, texels):
    colour = next(kind for kind, count in SAMPLES.items() if count == step and kind != PALETTE)
    size = width * step
    rows = b"".join(b"\0" + texels[at:at + size] for at in range(0, height * size, size))
    with open(name, "wb") as file:
        file.write(PNG)
        for kind, body in ((b"IHDR", struct.pack(">IIBBBBB", width, height, 8, colour, 0, 0, 0)), (b"IDAT", zlib.compress(rows)), (b"IEND", b"")):
            file.write(struct.pack(">I", len(body)) + kind + body + struct.pack(">I", zlib.crc32(kind + body)))


def write_pam(name, width, height, step, texels):
    header = b"P7\nWIDTH %d\nHEIGHT %d\nDEPTH %d\nMAXVAL 255\nTUPLTYPE %s\nENDHDR\n"
    with open(name, "wb") as file:
        file.write(header % (width, height, step, TUPLES[step]) + texels)


@contextlib.contextmanager
def reserved(name, is_chosen=True):
    """A new plain name beside the named file, whose file replaces that file when it is complete: the
    named file is unchanged or complete, however the script ends. If the user chose the name, a link
    is followed, and a device or a pipe is written directly. If not, they are replaced themselves:
    others may have put them there."""
    if is_chosen and os.path.exists(name) and not os.path.isfile(name):
        yield name
        return
    folder, base = os.path.split(os.path.realpath(name) if is_chosen else name)
    place = os.path.join(os.path.realpath(folder), base)
    beside = os.path.join(os.path.dirname(place), f"{os.urandom(8).hex()}.new")
    with open(beside, "xb"):
        pass
    try:
        yield beside
        os.replace(beside, place)
    finally:
        with contextlib.suppress(FileNotFoundError):
            os.remove(beside)


@contextlib.contextmanager
def placed(name):
    """A file that replaces the named one when it is complete, or is removed if a signal ends the
    script."""
    for number in (signal.SIGTERM, signal.SIGHUP):
        signal.signal(number, lambda number, frame: sys.exit(128 + number))
    with reserved(name) as beside, open(beside, "wb") as file:
        yield file
