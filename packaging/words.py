"""The words of astc_tool, each in one row: commands, arguments, options, presets and footprints, with their texts.
packaging/write_texts makes from them the text of --help, parts of the man page and of README, the completions, the lines that
help at a terminal, and the lists of the page and of the module for Python. To add an option, write its row here and its
meaning in crates/astc_words, then run packaging/write_texts."""
from dataclasses import dataclass

VERSION = "0.2.0"

FOOTPRINTS = ((4, 4), (5, 4), (5, 5), (6, 5), (6, 6), (8, 5), (8, 6), (8, 8), (10, 5), (10, 6), (10, 8), (10, 10), (12, 10), (12, 12))
FOOTPRINT_WORDS = tuple(f"{width}x{height}" for width, height in FOOTPRINTS)

# The presets in the order of their numbers, and what the page says of them in the order in which it offers them.
PRESETS = ("flat", "quick", "medium", "thorough", "pairs")
PRESET_USES = {
    "quick": "everyday",
    "medium": "releases",
    "thorough": "overnight",
    "pairs": "two values at a time",
    "flat": "one colour per block",
}

# For --help, the man page and README.
PRESET_HELP = (
    "how hard to search: flat (one colour per block), quick, medium, thorough; pairs (like quick, and changes both"
    " endpoints of a channel)"
)
PRESET_MAN = """\
.BR flat " (one colour per block, unless " fitted ", " advised " or " polish
finds a better block),
.BR quick ", " medium ", " thorough ,
and
.B pairs
(like quick; also tries changes to both endpoint values of a channel).
"""


@dataclass(frozen=True)
class Argument:
    """A word after a command: its name in texts, the variant of Role that stands for it, what fits in its place, and what the
    completions offer there."""
    name: str
    role: str
    expected: str
    offered: str = "nothing"


def expected_number(name, fits):
    return f"expected {name}, {fits}"


ARGUMENTS = {
    argument.role: argument
    for argument in (
        Argument("IN", "Input", "IN, the file to read", "files"),
        Argument("OUT", "Output", "OUT, the file to write", "files"),
        Argument("FILE", "Texture", "FILE, a KTX file of ASTC blocks", "files"),
        Argument("IMAGES", "Images", "IMAGES, the PAM file to compare the texture with", "files"),
        Argument("PART", "Part", "PART, a file made by astc_tool part; give all parts", "files"),
        Argument("FOOTPRINT", "Footprint", "expected a footprint: " + " ".join(FOOTPRINT_WORDS), "footprints"),
        Argument("PRESET", "Preset", "expected a preset: " + " ".join(PRESETS), "presets"),
        Argument("NUMBER", "Number", expected_number("NUMBER", "0 to 4294967295")),
        Argument("WIDTH", "Width", expected_number("WIDTH", "1 to 1024")),
        Argument("HEIGHT", "Height", expected_number("HEIGHT", "1 to 1024")),
        Argument("LEVEL", "Level", expected_number("LEVEL", "0 to 13")),
        Argument("ELEMENT", "Element", expected_number("ELEMENT", "0 to 2047")),
        Argument("FACE", "Face", expected_number("FACE", "0 to 5")),
        Argument("PLACE", "PartPlace", expected_number("PLACE", "0 to 65535 and less than COUNT")),
        Argument("COUNT", "PartCount", expected_number("COUNT", "1 to 65536")),
    )
}


@dataclass(frozen=True)
class Option:
    """An option: its forms (the word, then what follows `=`), its takers, and its texts for --help, the man page and README."""
    word: str
    value: str
    takers: tuple
    help: str
    man: str
    readme: str
    also: str = ""

    @property
    def form(self):
        return f"{self.word}={self.value}" if self.value else self.word

    @property
    def forms(self):
        """All forms, as hints and README list them."""
        return [self.form] + ([f"{self.word}={self.also}"] if self.also else [])

    @property
    def offered(self):
        """What completions offer: with a value, the word up to `=`."""
        return ([f"{self.word}="] if self.value else [self.word]) + ([f"{self.word}={self.also}"] if self.also else [])


OPTIONS = (
    Option(
        "levels",
        "L",
        ("pack", "part"),
        "write L mip levels, 1 to 14 (default: 1), or all if there are fewer; levels=full writes all",
        """\
Write L levels of the mip chain, 1 to 14, or fewer if the chain is shorter;
.B levels=full
writes all. Default: 1. Each texel of a level is the average of four stored values, channel by
channel. For other filters, make the levels elsewhere and use
.BR packktx .
""",
        "L mip levels, or all; averages of the stored bytes",
        also="full",
    ),
    Option(
        "elements",
        "K",
        ("pack", "part"),
        "an array of K elements, 1 to 2048, one image each (default: no array)",
        "An array of K elements, 1 to 2048, one image each. Default: no array.\n",
        "an array of K elements",
    ),
    Option(
        "cube",
        "",
        ("pack", "part"),
        "six square images per element: +X -X +Y -Y +Z -Z",
        "Six square images per element, in the order +X \\-X +Y \\-Y +Z \\-Z. Default: off.\n",
        "cube maps, faces in the order +X -X +Y -Y +Z -Z",
    ),
    Option(
        "srgb",
        "",
        ("pack", "packktx", "part", "import"),
        "the sRGB flavour of the format (default: linear)",
        "The sRGB flavour of the format. Default: linear.\n",
        "the sRGB flavour of the format",
    ),
    Option(
        "weights",
        "R,G,B,A",
        ("pack", "packktx", "part", "polish", "audit"),
        "the weight of the error in each channel, 0 to 15, not all 0 (default: 1,1,1,1)",
        "The weight of each channel in the error, 0 to 15, not all 0. Default: 1,1,1,1.\n",
        "the weight of each channel in the error",
    ),
    Option(
        "fitted",
        "",
        ("pack", "packktx", "part", "trial"),
        "also try a block computed from the texels, which is often closer: recommended",
        """\
Also try a block computed from the texels, which is often closer. Default: off; recommended for
every texture. The blocks are the same in parts, from the library and from the page.
""",
        "also try a block computed from the texels: recommended",
    ),
    Option(
        "advised",
        "",
        ("pack", "packktx"),
        "fitted, and also try a copy of the block before; cannot be split into parts",
        """\
As
.BR fitted ,
and also try a copy of the block before. Default: off. A part has no previous block at its start.
""",
        "`fitted`, and also try the block before",
    ),
)


@dataclass(frozen=True)
class Command:
    """A command: the variant of CommandForm, the roles of its words, and its texts for --help, the man page, README and the
    completions. A command that repeats takes further words of its last role."""
    word: str
    variant: str
    roles: tuple
    help: str
    man: str
    short: str
    repeats: bool = False

    @property
    def arguments(self):
        return [ARGUMENTS[role] for role in self.roles]

    @property
    def options(self):
        return [option for option in OPTIONS if self.word in option.takers]

    @property
    def output(self):
        """The place of the word that names the file that the command makes, if it makes one."""
        return self.roles.index("Output") + 1 if "Output" in self.roles else None


COMMANDS = (
    Command(
        "pack",
        "Pack",
        ("Input", "Output", "Footprint", "Preset"),
        "pack the images of a PAM file into a KTX file of ASTC blocks",
        "Pack the images of a PAM file into a KTX file of ASTC blocks.\n",
        "pack the images of a PAM file into a KTX file",
    ),
    Command(
        "packktx",
        "PackKtx",
        ("Input", "Output", "Footprint", "Preset"),
        "pack each mip level of an uncompressed KTX 1 file, RGB or RGBA with 8 bits per channel, into a KTX file of ASTC blocks",
        """\
Pack each mip level of an uncompressed KTX 1 file into a KTX file of ASTC blocks. The texels of IN
are RGB or RGBA with 8 bits per channel (RGB8, SRGB8, RGBA8 or SRGB8_ALPHA8 in OpenGL).
""",
        "pack the mip levels of an uncompressed KTX file",
    ),
    Command(
        "unpack",
        "Unpack",
        ("Input", "Output"),
        "decode a KTX file of ASTC blocks to PAM images",
        """\
Decode a KTX file of ASTC blocks from any encoder to PAM images. Invalid blocks are shown as
magenta.
""",
        "decode a KTX file to PAM images",
    ),
    Command(
        "audit",
        "Audit",
        ("Texture", "Images", "Preset"),
        "check each block of a KTX file against the images that it was made from: can it be decoded, and is a block of the"
        " preset's list, or a change to one of its values, closer to the source",
        """\
Check each block of a KTX file against the images that it was made from. A block is bad if it cannot
be decoded, or if a candidate of the preset or a change to one value is closer to the source. The
audit tries only single changes, also with
.BR pairs .
""",
        "count the blocks of a KTX file that could be improved",
    ),
    Command(
        "polish",
        "Polish",
        ("Images", "Texture", "Output", "Preset"),
        "improve each block of a KTX file from any encoder for the images that it was made from, or leave the block unchanged",
        """\
Re-optimise each block of a KTX file from any encoder for the images that the file was made from.
Each block then meets the conditions of a pack (see DESCRIPTION). No block has a larger error than
before, measured on the texels that
.B unpack
gives.
""",
        "improve each block of a KTX file, or leave it unchanged",
    ),
    Command(
        "part",
        "Part",
        ("Input", "Output", "PartPlace", "PartCount", "Footprint", "Preset"),
        "make part PLACE, counted from 0, of the COUNT parts, 1 to 65536, of a pack: parts can be made side by side, and on"
        " several machines",
        """\
Make part PLACE, counted from 0, of the COUNT parts, 1 to 65536, of a pack with the same arguments.
Parts can be made side by side, and on several machines.
""",
        "make part PLACE, counted from 0, of the COUNT parts of a pack",
    ),
    Command(
        "join",
        "Join",
        ("Output", "Part"),
        "join all parts, in any order, into the KTX file of the pack",
        """\
Join the parts, given once each in any order, into the KTX file of the pack, and print the report of
the pack. All parts must come from one job: one picture, one preset, the same weights, the same
options and one COUNT.
""",
        "join all parts into the KTX file of the pack",
        repeats=True,
    ),
    Command(
        "import",
        "Import",
        ("Input", "Output"),
        "convert a plain .astc file to a KTX file",
        "Convert a plain .astc file to a KTX file.\n",
        "convert an .astc file to a KTX file",
    ),
    Command(
        "export",
        "Export",
        ("Input", "Output", "Level", "Element", "Face"),
        "convert one image of a KTX file to a plain .astc file: LEVEL 0 to 13, ELEMENT 0 to 2047, FACE 0 to 5",
        """\
Convert one image of a KTX file to a plain .astc file. LEVEL is 0 to 13, ELEMENT 0 to 2047, FACE 0
to 5.
""",
        "convert an image of a KTX file to an .astc file",
    ),
    Command(
        "trial",
        "Trial",
        ("Number", "Width", "Height", "Footprint", "Preset"),
        "generate a picture from the seed NUMBER, 0 to 4294967295, with sides of 1 to 1024, pack it in memory, and print its"
        " errors and the length of its KTX file",
        """\
Generate a picture from the seed NUMBER, 0 to 4294967295, with sides of 1 to 1024, pack it in memory
and print the report. No file is read or written.
""",
        "pack a generated picture in memory",
    ),
)

# The words before a command, and their texts for --help and the man page.
LEADING = ("progress", "explain")
