"""Pictures that decoders write: PAM, PNG or raw texels, as bytes of four channels; and the files of the set."""
import functools
import gzip
import hashlib
import operator
import os
import subprocess
import sys

HERE = os.path.dirname(os.path.abspath(__file__))


def apart(wanted, found):
    """By how much two blocks' texels differ at most."""
    return max(map(abs, map(operator.sub, wanted, found)))


def read_pam(data):
    """Width, height, channels and texels of a PAM file of one image with bytes; None where it is none, or is cut off."""
    header, _, texels = data.partition(b"ENDHDR\n")
    told = dict(line.split(None, 1) for line in header.split(b"\n") if len(line.split(None, 1)) == 2)
    try:
        width, height, step, most = (int(told[word]) for word in (b"WIDTH", b"HEIGHT", b"DEPTH", b"MAXVAL"))
    except (KeyError, ValueError):
        return None
    is_whole = most == 255 and 1 <= step <= 4 and len(texels) == width * height * step
    return (width, height, step, texels) if is_whole else None


def converted(path):
    """A PNG file as PAM, by the script that stands among the examples; no bytes where that can't read it."""
    done = subprocess.run([sys.executable, os.path.join(HERE, "..", "examples", "convert_picture"), path, path + ".pam"], capture_output=True)
    if done.returncode:
        return b""
    with open(path + ".pam", "rb") as file:
        data = file.read()
    os.unlink(path + ".pam")
    return data


def four_channels(step, texels):
    """Grey, grey and alpha, or red, green and blue, with what isn't there."""
    if step == 4:
        return texels
    made = bytearray(len(texels) // step * 4)
    for channel in range(4):
        alone = channel == 3 and step in (1, 3)
        made[channel::4] = b"\xFF" * (len(made) // 4) if alone else texels[(channel if step == 3 else 0 if channel < 3 else 1)::step]
    return bytes(made)


def picture_of(path, width, height):
    """The texels of a file, whose sides must be these; None where they aren't, or it is no picture."""
    with open(path, "rb") as file:
        data = file.read()
    if data.startswith(b"\x89PNG"):
        os.rename(path, path + ".png")
        data = converted(path + ".png")
        os.rename(path + ".png", path)
    if not data.startswith(b"P7\n"):
        return data if len(data) == 4 * width * height else None
    found = read_pam(data)
    return four_channels(*found[2:]) if found and found[:2] == (width, height) else None


def bytes_of(path):
    """A file of the set, unpacked."""
    with (gzip.open if path.endswith(".gz") else open)(path, "rb") as file:
        return file.read()


def hash_of(path):
    """The hash of a feature's files, which are named without their suffixes."""
    names = [path + suffix for suffix in (".astc", ".ktx", ".pam.gz", ".txt", "_srgb.ktx", "_srgb.pam.gz")]
    whole = hashlib.sha256()
    for name in names if os.path.exists(names[-1]) else names[:4]:
        whole.update(bytes_of(name))
    return whole.hexdigest()


def stored_blocks(path):
    """Footprint, sides in texels and blocks of an .astc file of the set."""
    data = bytes_of(path)
    sides = tuple(int.from_bytes(data[at:at + 3], "little") for at in (7, 10))
    return (data[4], data[5]), sides, [data[at:at + 16] for at in range(16, len(data), 16)]


def texels_of_block(texels, footprint, columns, number):
    """The bytes of a block's texels, by rows."""
    (width, height), pitch = footprint, columns * footprint[0] * 4
    start = number // columns * height * pitch + number % columns * width * 4
    return b"".join(texels[at:at + width * 4] for at in range(start, start + height * pitch, pitch))


@functools.lru_cache(maxsize=None)
def entries_of(path):
    """The blocks of a file of the set, named without its suffix: bytes, what each is for, and its texels."""
    plain = path.removesuffix("_srgb")
    footprint, sides, blocks = stored_blocks(plain + ".astc")
    with open(plain + ".txt", encoding="ascii") as file:
        purposes = file.read().splitlines()
    texels = bytes_of(path + ".pam.gz").partition(b"ENDHDR\n")[2]
    wanted = [texels_of_block(texels, footprint, sides[0] // footprint[0], number) for number in range(len(purposes))]
    return list(zip(blocks, purposes, wanted))
