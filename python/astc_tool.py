"""Encode, polish, audit and decode ASTC blocks from Python, with the library for C. The module is
this one file: copy it next to your own files, or add its folder to PYTHONPATH.

    import astc_tool

    blocks = astc_tool.encode(texels, width, height, "6x6", "quick", threads=4)
    texels = astc_tool.show(blocks, width, height, "6x6")

Texels are bytes, four per texel: red, green, blue and alpha, in rows from the top. Blocks are
bytes, 16 per block, in rows from the top; the last block of a row and the last row of blocks may
extend past the edges of the picture. Other objects with bytes are accepted too, such as a bytearray
or a numpy array. Sides are 1 to 8192; FOOTPRINTS lists the footprints and PRESETS the presets.
`fitted` also tries a block fitted to its source, for less error; `weights` are the weights of red,
green, blue and alpha in the error, 0 to 15 each, not all 0. `threads` is the number of threads; the
result does not depend on it. A wrong argument raises ValueError, an argument of a wrong type
TypeError, lack of memory MemoryError, and a missing library OSError.

The library is the file that ASTC_TOOL_LIBRARY names; otherwise libastc_tool.so.0 is searched next
to this file, in the prefix or the checkout of this file, in the system's library path, and in the
folder that pkg-config prints."""
import concurrent.futures
import ctypes
import functools
import glob
import operator
import os
import re
import subprocess
from typing import NamedTuple

__all__ = ["encode", "polish", "audit", "show", "sides", "version", "Blocks", "Texels", "Findings", "FOOTPRINTS", "PRESETS"]
FOOTPRINTS = ("4x4", "5x4", "5x5", "6x5", "6x6", "8x5", "8x6", "8x8", "10x5", "10x6", "10x8", "10x10", "12x10", "12x12")
PRESETS = ("flat", "quick", "medium", "thorough", "pairs")
LIBRARY = "libastc_tool.so.0"
LINEAR, SRGB = 0x93B0, 0x93D0
ARGUMENTS = ("", "width", "height", "format", "first row", "number of rows", "preset", "weights", "texels", "blocks")
NO_MEMORY = 10
BLOCKS_A_CALL = 512


class Blocks(bytes):
    """Blocks; `error` is the sum of their errors."""
    error = 0


class Texels(bytes):
    """Texels; `illegal` is the number of invalid blocks, which are magenta."""
    illegal = 0


class Findings(NamedTuple):
    """The sum of the errors, and the number of bad blocks: invalid ones, and those further from their
    source than a listed block or a change to one value."""
    error: int
    bad: int


# ---- what is called


def encode(texels, width, height, footprint, preset, *, fitted=False, srgb=False, weights=(1, 1, 1, 1), threads=1):
    """Encode a picture. Each block is settled, as by the commands `pack` and `pack .. fitted`."""
    picture = _Picture(width, height, footprint, srgb)
    return _settled(library().astc_encode_rows, picture, _options(preset, weights, fitted), texels, bytes(picture.block_bytes()), threads)


def polish(texels, blocks, width, height, footprint, preset, *, fitted=False, srgb=False, weights=(1, 1, 1, 1), threads=1):
    """Improve blocks from any encoder. Each block is settled, and none gets further from its source."""
    picture = _Picture(width, height, footprint, srgb)
    return _settled(library().astc_polish_rows, picture, _options(preset, weights, fitted), texels, blocks, threads)


def audit(texels, blocks, width, height, footprint, preset, *, srgb=False, weights=(1, 1, 1, 1), threads=1):
    """Check blocks from any encoder; the result has `error` and `bad`."""
    picture, options = _Picture(width, height, footprint, srgb), _options(preset, weights)
    source, judged = _bytes("texels", texels, picture.texel_bytes()), _buffer("blocks", blocks, picture.block_bytes())

    def call(first, count):
        found = _Findings()
        _check(library().astc_audit_rows(picture.rows(first, count), options, source, len(source) // 4, *picture.blocks_at(judged, first, count), found))
        return found.error, found.bad

    return Findings(*map(sum, zip(*picture.each_band(call, threads))))


def show(blocks, width, height, footprint, *, srgb=False, threads=1):
    """Decode the blocks of a picture to texels."""
    picture = _Picture(width, height, footprint, srgb)
    shown = (ctypes.c_uint8 * picture.texel_bytes())()
    given = _buffer("blocks", blocks, picture.block_bytes())

    def call(first, count):
        illegal = ctypes.c_uint32()
        _check(library().astc_show_rows(picture.rows(first, count), *picture.blocks_at(given, first, count), *picture.texels_at(shown, first, count), illegal))
        return illegal.value

    counts = picture.each_band(call, threads)
    texels = Texels(shown)
    texels.illegal = sum(counts)
    return texels


def sides(footprint):
    """Return the width and the height of a block."""
    if footprint not in FOOTPRINTS:
        raise ValueError(f"footprint is {footprint!r}, not one of {' '.join(FOOTPRINTS)}")
    return tuple(int(side) for side in footprint.split("x"))


def version():
    """Return the three numbers of the version of the library."""
    number = library().astc_version()
    return number >> 16, number >> 8 & 255, number & 255


# ---- the library


class _Rows(ctypes.Structure):
    _fields_ = [(name, ctypes.c_uint32) for name in ("width", "height", "format", "first", "count")]


class _Options(ctypes.Structure):
    _fields_ = [("preset", ctypes.c_uint32), ("weights", ctypes.c_uint8 * 4), ("fitted", ctypes.c_uint32)]


class _Findings(ctypes.Structure):
    _fields_ = [("error", ctypes.c_uint64), ("bad", ctypes.c_uint64)]


def _options(preset, weights, fitted=False):
    if preset not in PRESETS:
        raise ValueError(f"preset is {preset!r}, not one of {' '.join(PRESETS)}")
    numbers = [_number("weight", weight, 0, 15) for weight in weights]
    if len(numbers) != 4 or not any(numbers):
        raise ValueError(f"weights are {weights!r}, not four numbers of which at least one is not 0")
    return _Options(PRESETS.index(preset), (ctypes.c_uint8 * 4)(*numbers), bool(fitted))


@functools.lru_cache(maxsize=None)
def library():
    """The library, loaded at the first call."""
    loaded = _loaded()
    rows, options, counted = ctypes.POINTER(_Rows), ctypes.POINTER(_Options), [ctypes.c_void_p, ctypes.c_size_t]
    settling = [rows, options, *counted, *counted]
    for name, arguments in (("encode_rows", [*settling, ctypes.POINTER(ctypes.c_uint64)]), ("polish_rows", [*settling, ctypes.POINTER(ctypes.c_uint64)]),
                            ("audit_rows", [*settling, ctypes.POINTER(_Findings)]), ("show_rows", [rows, *counted, *counted, ctypes.POINTER(ctypes.c_uint32)]), ("version", [])):
        function = getattr(loaded, "astc_" + name)
        function.argtypes, function.restype = arguments, ctypes.c_uint32
    return loaded


def _loaded():
    named = os.environ.get("ASTC_TOOL_LIBRARY")
    if named:
        return ctypes.CDLL(named)
    for folder in _folders_near():
        if os.path.exists(os.path.join(folder, LIBRARY)):
            return ctypes.CDLL(os.path.join(folder, LIBRARY))
    try:
        return ctypes.CDLL(LIBRARY)
    except OSError:
        pass
    try:
        return ctypes.CDLL(os.path.join(_folder_by_pkg_config(), LIBRARY))
    except OSError:
        raise OSError(f"{LIBRARY} was not found: install it with ./build library install PREFIX, or set ASTC_TOOL_LIBRARY to its path") from None


def _folders_near():
    """The folder of this file, and the library folders of the same prefix or checkout."""
    here = os.path.dirname(os.path.realpath(__file__))
    found = re.fullmatch(r"(.*)/(?:share/astc_tool|lib(?:64)?/python[\d.]*/(?:site|dist)-packages)", here)
    below = [f"{found[1]}/lib", f"{found[1]}/lib64", *sorted(glob.glob(glob.escape(found[1]) + "/lib/*-linux-*"))] if found else []
    return [here, *below, os.path.join(here, "..", "crates", "astc_c", "out")]


def _folder_by_pkg_config():
    run = subprocess.run(["pkg-config", "--variable=libdir", "astc_tool"], stdout=subprocess.PIPE, stderr=subprocess.DEVNULL, text=True)
    return run.stdout.strip()


def _check(status):
    if status == NO_MEMORY:
        raise MemoryError("the library is out of memory")
    if status:
        raise ValueError(f"the library refused {ARGUMENTS[status] if status < len(ARGUMENTS) else 'arguments'}")


# ---- pictures


class _Picture:
    """The size of a picture, the size of its blocks, and the number of blocks."""

    def __init__(self, width, height, footprint, srgb):
        self.width, self.height = _number("width", width, 1, 8192), _number("height", height, 1, 8192)
        block_width, self.block_height = sides(footprint)
        self.columns, self.row_count = -(-self.width // block_width), -(-self.height // self.block_height)
        self.format = FOOTPRINTS.index(footprint) + (SRGB if srgb else LINEAR)

    def texel_bytes(self):
        return 4 * self.width * self.height

    def block_bytes(self):
        return 16 * self.columns * self.row_count

    def rows(self, first, count):
        return _Rows(self.width, self.height, self.format, first, count)

    def blocks_at(self, buffer, first, count):
        """The address of rows of blocks in a buffer, and the number of their blocks."""
        return ctypes.byref(buffer, 16 * self.columns * first), self.columns * count

    def texels_at(self, buffer, first, count):
        """The address of the texels that these rows of blocks cover, and their number."""
        above, below = self.block_height * first, min(self.height, self.block_height * (first + count))
        return ctypes.byref(buffer, 4 * self.width * above), self.width * (below - above)

    def each_band(self, call, threads):
        """The results of a call for each band of rows of blocks; `threads` calls run at once, since
        ctypes releases the lock of the interpreter."""
        threads = _number("threads", threads, 1, 1024)
        step = max(1, min(-(-BLOCKS_A_CALL // self.columns), self.row_count // threads))
        bands = [(first, min(step, self.row_count - first)) for first in range(0, self.row_count, step)]
        if threads == 1:
            return [call(*band) for band in bands]
        with concurrent.futures.ThreadPoolExecutor(threads) as pool:
            return list(pool.map(lambda band: call(*band), bands))


def _settled(function, picture, options, texels, blocks, threads):
    source, made = _bytes("texels", texels, picture.texel_bytes()), _buffer("blocks", blocks, picture.block_bytes())

    def call(first, count):
        error = ctypes.c_uint64()
        _check(function(picture.rows(first, count), options, source, len(source) // 4, *picture.blocks_at(made, first, count), error))
        return error.value

    errors = picture.each_band(call, threads)
    settled = Blocks(made)
    settled.error = sum(errors)
    return settled


def _number(name, value, least, most):
    """A whole number within its bounds: ctypes would truncate a larger one."""
    number = operator.index(value)
    if not least <= number <= most:
        raise ValueError(f"{name} is {number}, not {least} to {most}")
    return number


def _bytes(name, given, length):
    """The argument as bytes of the expected length."""
    found = given if isinstance(given, bytes) else memoryview(given).tobytes()
    if len(found) != length:
        raise ValueError(f"{name} have {len(found)} bytes, not {length}")
    return found


def _buffer(name, given, length):
    """The argument in a writable buffer of the expected length."""
    return (ctypes.c_uint8 * length).from_buffer_copy(_bytes(name, given, length))
