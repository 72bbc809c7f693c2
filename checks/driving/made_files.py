"""Files that the page refuses: textures with each fault of the reader, and pictures whose fronts say too much or too little."""
import struct

from common import pam, png, png_chunk, put_word


def faulty(ktx):
    """A file for each fault of the reader, and some more."""
    yield "no bytes", b""
    for count in (1, 12, 63):
        yield f"{count} bytes", ktx[:count]
    for place in (0, 5, 11):
        yield f"identifier {place}", ktx[:place] + b"?" + ktx[place + 1:]
    rows = [("endian", 12, 7), ("type", 16, 5121), ("format", 24, 6408), ("internal", 28, 0x93C0), ("internal 0", 28, 0), ("width 0", 36, 0), ("width", 36, 8193), ("height", 40, 0xFFFFFFFF),
            ("depth", 44, 2), ("elements", 48, 2049), ("faces 0", 52, 0), ("faces", 52, 5), ("not square", 52, 6), ("levels", 56, 15), ("levels most", 56, 0xFFFFFFFF), ("keys", 60, 1048577),
            ("keys short", 60, 1000000), ("size", 92, 17), ("size 0", 92, 0)]
    for name, at, word in rows:
        yield name, put_word(ktx, at, word)
    large = put_word(put_word(put_word(ktx, 36, 8192), 40, 8192), 56, 1)
    yield "too large", large
    yield "too many", put_word(put_word(put_word(ktx, 36, 4096), 40, 4096), 48, 3)
    yield "keys end", ktx[:80]
    yield "size ends", ktx[:94]
    yield "blocks end", ktx[:-1]
    yield "most of it is missing", put_word(put_word(put_word(ktx[:100], 36, 4096), 40, 4096), 92, 683 * 683 * 16)
    yield "trailing", ktx + b"\0"


def faulty_astc(astc):
    return [astc[:15], b"?" + astc[1:], astc[:4] + b"\x07" + astc[5:], astc[:6] + b"\x02" + astc[7:], astc[:7] + b"\0\0\0" + astc[10:], astc[:9] + b"\x01" + astc[10:],
            astc[:13] + b"\x02" + astc[14:], astc[:7] + b"\0\x20\0\0\x20\0" + astc[13:], astc[:-1], astc + b"\0"]


# ---- pictures


def png_front(width, height):
    return b"\x89PNG\r\n\x1a\n" + png_chunk(b"IHDR", struct.pack(">IIBBBBB", width, height, 8, 6, 0, 0, 0))


def jpeg_segment(marker, data):
    return bytes([0xFF, marker]) + struct.pack(">H", len(data) + 2) + data


def jpeg_front(width, height, marker=0xC0, before=b""):
    """The front of a JPEG: application data, what else is handed in, the sides, and a scan that never ends."""
    sides = struct.pack(">BHHB", 8, height, width, 1) + b"\1\x11\0"
    return b"\xff\xd8" + jpeg_segment(0xE0, b"JFIF\0\1\1\0\0\1\0\1\0\0") + before + jpeg_segment(marker, sides) + jpeg_segment(0xDA, b"\1\1\0\0\x3f\0") + b"\x55" * 64


def webp(kind, data):
    chunk = kind + struct.pack("<I", len(data)) + data + b"\0" * (len(data) & 1)
    return b"RIFF" + struct.pack("<I", len(chunk) + 4) + b"WEBP" + chunk


def extended(width, height):
    low = lambda side: struct.pack("<I", side - 1)[:3]
    return webp(b"VP8X", b"\x10\0\0\0" + low(width) + low(height) + b"\0" * 8)


def lossless(width, height):
    return webp(b"VP8L", b"\x2f" + struct.pack("<I", (width - 1) + ((height - 1) << 14)) + b"\0" * 9)


def lossy(width, height):
    return webp(b"VP8 ", b"\x10\0\0\x9d\1\x2a" + struct.pack("<HH", width, height) + b"\0" * 10)


def refused_fronts(whole_webp):
    """Name, bytes, and what the page says."""
    long = "sides {} x {} are not 1 to 8192: scale the picture down".format
    yield "a JPEG of 65,000 x 65,000", jpeg_front(65000, 65000), long(65000, 65000)
    yield "a progressive JPEG of 9,000 x 10 behind metadata", jpeg_front(9000, 10, 0xC2, 300 * jpeg_segment(0xE2, b"\xff\xc0" * 900) + b"\xff\xff"), long(9000, 10)
    yield "a JPEG without a height", jpeg_front(16, 0), "sides 16 x 0 are not 1 to 8192"
    yield "a JPEG of too many texels", jpeg_front(8192, 8000), "65536000 texels are more than 33554432: scale the picture down"
    yield "a JPEG that ends before its sides", jpeg_front(16, 16)[:24], "JPEG: ends after 24 bytes, before the image size"
    yield "a JPEG of metadata alone", b"\xff\xd8" + 4_200_000 * jpeg_segment(0xFE, b""), "JPEG: no image size in the first 16777216 bytes"
    yield "a JPEG with a scan first", b"\xff\xd8" + jpeg_segment(0xDA, b"\1\1\0\0\x3f\0") + jpeg_front(16, 16), "JPEG: marker da at byte 2"
    yield "a JPEG with no marker", b"\xff\xd8\xff\xe0\0\4\0\0\0" + jpeg_front(16, 16), "JPEG: no marker at byte 8"
    yield "a JPEG with a segment of no length", jpeg_front(16, 16, before=b"\xff\xe1\0\0"), "JPEG: marker e1 at byte 20"
    yield "a PNG of side 9,000", png_front(9000, 1), long(9000, 1)
    yield "a PNG of 4,294,967,295", png_front(1, 0xFFFFFFFF), long(1, 0xFFFFFFFF)
    yield "a PNG of side 0", png_front(0, 16), "sides 0 x 16 are not 1 to 8192"
    yield "a PNG of too many texels", png_front(8192, 8192), "67108864 texels are more than 33554432"
    yield "a PNG that ends before its sides", png_front(16, 16)[:20], "PNG: ends after 20 bytes, before the image size"
    yield "a PNG with another chunk first", png(2, 2, bytes(16))[:8] + png_chunk(b"tEXt", b"a\0b" + bytes(10)) + png(2, 2, bytes(16))[8:], "PNG: no image size at the start"
    yield "an extended WebP of side 16,777,216", extended(16777216, 1), long(16777216, 1)
    yield "a lossless WebP of side 9,000", lossless(9000, 16384), long(9000, 16384)
    yield "a lossy WebP of side 8,193", lossy(16, 8193), long(16, 8193)
    yield "a lossy WebP without its sign", webp(b"VP8 ", bytes(20)), "WebP: no image size at the start"
    yield "a WebP of another kind", webp(b"ALPH", bytes(20)), "WebP: no image size at the start"
    yield "a truncated WebP", whole_webp[:-30], f"WebP: ends after {len(whole_webp) - 30} bytes of {len(whole_webp)}"
    yield "a WebP that ends before its sides", whole_webp[:20], "WebP: ends after 20 bytes, before the image size"
    yield "a PAM of too many images", 12289 * pam(1, 1, bytes(4)), "PAM: more than 12288 images"
    yield "a GIF", b"GIF89a\x10\0\x10\0\0\0\0;", "not a texture"
    yield "an SVG", b'<svg xmlns="http://www.w3.org/2000/svg" width="99999" height="99999"/>', "not a texture"
