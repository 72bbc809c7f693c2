"""The tables of reader_cases, command_cases, sequence_cases, mode_cases, block_cases, search_cases and settling_cases: their rows, the files that their rules make, and what is told of each row by the plain reference.
What it can't say of a fault (its name in the program) is a `*`; of a row that it can't make, it says None."""
import os
import re

import blocks as b
import calls
import commands as c
import files as f
import search as s
import words as w

CRATES = os.path.join(os.path.dirname(os.path.abspath(__file__)), "..", "..", "crates")
OUTPUTS = {"pack": 2, "packktx": 2, "unpack": 2, "import": 2, "export": 2, "part": 2, "join": 1, "polish": 3}
ENDS = {0: "Done", 1: "Found", 2: "Usage", 3: "Image", 4: "Ktx", 5: "ReadFault", 9: "Astc", 10: "Absent", 11: "Source"}
USAGE = [("no command", "NoCommand"), ("not a command", "UnknownCommand"), ("missing", "MissingWord"), ("not wanted", "ExtraWord"), ("not a footprint", "BadFootprint"),
         ("not a preset", "BadPreset"), ("not a number in range", "BadNumber"), ("not an option", "BadOption"), ("repeats an option", "RepeatedOption")]


class Row:
    def __init__(self, program, table, way, name, words, rule, named):
        self.program, self.table, self.way, self.name, self.words, self.rule, self.named = program, table, way, name, words, rule, named


def rows_of(program):
    """The rows of a program's tables, in the order in which it tells of them."""
    folder = os.path.join(CRATES, program)
    for table in open(os.path.join(folder, "args"), encoding="utf-8").read().split():
        named, way = {}, ""
        for line in open(os.path.join(folder, "data", table), encoding="utf-8").read().split("\n"):
            if line.startswith("= "):
                name, rule = line[2:].split("|")
                named[name] = file_by(rule, named)
            elif line.startswith(": "):
                way = line[2:]
            elif line and not line.startswith("#"):
                name, words, rule = line.split("|")
                yield Row(program, table, way, name, words, rule, dict(named))


def stored(program):
    """What a program's stored output tells of its rows, by their names; lines that begin with blanks belong to the row above."""
    told = {}
    for line in open(os.path.join(CRATES, program, "stdout"), encoding="utf-8").read().split("\n")[:-1]:
        if line.startswith("  "):
            told[name] += "\n" + line
        else:
            name, _, text = line.partition(": ")
            told[name] = text
    return told


# ---- files by rules


def text_bytes(text):
    letters = re.sub(r"\\(x[0-9A-F]{2}|.)", lambda m: chr(int(m[1][1:], 16)) if m[1][0] == "x" else {"n": "\n", "r": "\r", "t": "\t"}[m[1]], text)
    return letters.encode("latin-1")


def pictures(first, width, height, count, depth, is_hashed):
    image, data = width * height, b""
    for k in range(count):
        data += b"P7\nWIDTH %d\nHEIGHT %d\nDEPTH %d\nMAXVAL 255\n%sENDHDR\n" % (width, height, depth, b"" if is_hashed else b"TUPLTYPE RGB_ALPHA\n")
        for place in range(k * image, (k + 1) * image):
            data += (b.hash52(first + place & 0xFFFFFFFF).to_bytes(4, "little") if is_hashed else first.to_bytes(4, "big"))[:depth]
    return data


def slopes(width, height, *ways):
    return f.write_pam(width, height, [[(ways[k] + ways[k + 1] * x + ways[k + 2] * y) % 256 for k in (0, 3, 6)] + [255] for y in range(height) for x in range(width)])


def turned(data):
    """The words of a KTX header with their bytes turned round, and the sizes of its levels."""
    data, at = bytearray(data), 64 + int.from_bytes(data[60:64], "little")
    for _ in range(min(14, max(1, int.from_bytes(data[56:60], "little")))):
        size = int.from_bytes(data[at:at + 4], "little")
        data[at:at + 4] = data[at:at + 4][::-1]
        at += 4 + size
    for word in range(3, 16):
        data[4 * word:4 * word + 4] = data[4 * word:4 * word + 4][::-1]
    return bytes(data)


def piece(data, text, files):
    key, _, value = text.partition(" ")
    numbers = [int(n) for n in value.split()] if re.fullmatch(r"[\d ]+", value) else []
    if key == "hex":
        return data + bytes.fromhex(value)
    if key == "text":
        return data + text_bytes(value)
    if key == "times":
        count, _, rest = value.partition(" ")
        return data + piece(b"", rest, files) * int(count)
    if key == "ramp":
        return data + bytes(k % 251 for k in range(numbers[0]))
    if key == "at":
        at, new = int(value.split()[0]), bytes.fromhex(value.split()[1])
        return (data[:at] + new + data[at + len(new):])[:len(data)]
    if key == "cut":
        return data[:numbers[0]]
    if key == "skip":
        return data[numbers[0]:]
    if key == "keys":
        behind = 64 + int.from_bytes(data[60:64], "little")
        return data[:60] + numbers[0].to_bytes(4, "little") + b"\xAB" * numbers[0] + data[behind:]
    if text == "big":
        return turned(data)
    if key in ("hash", "colour"):
        return data + pictures(*numbers, key == "hash")
    if key == "slopes":
        return data + slopes(*numbers)
    return data + files[text] if text else data


def file_by(rule, files):
    data = b""
    for text in rule.split(";"):
        data = piece(data, text, files)
    return data


# ---- bytes as texts


def told(data):
    return data.hex().upper() if len(data) <= 32 else "%d bytes %s" % (len(data), calls.fnv(data))


def all_texels(images):
    return [texel for image in images.texels for texel in image]


# ---- readers


def wanted(words):
    parts = words.split()
    sides = [tuple(int(n) for n in part.split("x")) for part in parts if "x" in part]
    return int(parts[0]), "cube" in parts, sides[0] if sides else None


def images_row(words, data):
    images = f.read_pam(data, *wanted(words))
    return "width %d height %d count %d texels %s" % (images.width, images.height, len(images.texels), calls.told_texels(all_texels(images)))


def chain_row(words, data):
    images = f.read_pam(data, *wanted(words))
    return " / ".join(calls.told_texels(all_texels(level)) for level in f.chain(images, f.full_levels(images.width, images.height))[1:])


def cut_row(words, data):
    count, image, column, row = map(int, words.split())
    return " ".join(bytes(texel).hex().upper() if texel else "." for texel in f.source_of(f.read_pam(data, count), image, (4, 4), column, row))


def header_row(words, data):
    return "width %d height %d depth %d size %d" % f.pam_header_at(data, 0, int(words))


def written_row(words, _):
    width, height = map(int, words.split())
    header = f.write_pam(width, height, [])
    return "%s, read as %s" % (told(header), header_row("0", header))


def ktx_row(words, data):
    texture = f.read_ktx(data)
    sizes = [16 * across * down * (max(1, texture.elements) * texture.faces if texture.elements or texture.faces == 1 else 1)
             for across, down in map(texture.grid, range(texture.levels))]
    shape = "F%dx%d %s" % (texture.footprint + ("Srgb" if texture.srgb else "Linear",))
    numbers = (texture.width, texture.height, texture.elements, texture.faces, texture.levels)
    blocks = b"".join(block for image in texture.blocks for block in image)
    again = ", written again" if words == "again" and f.write_ktx(texture) == data else ""
    return "%s %d %d %d %d %d: %s: %s%s" % ((shape,) + numbers + (" ".join(map(str, sizes)), "%X" % int(calls.fnv(blocks), 16), again))


def source_row(words, data):
    header, levels = f.read_source(data)
    numbers = (header.width, header.height, header.elements, header.faces, max(1, header.levels))
    return "width %d height %d elements %d faces %d levels %d: %s" % (numbers + (" / ".join(calls.told_texels(all_texels(level)) for level in levels),))


def astc_row(words, data):
    texture = f.read_astc(data)
    blocks = b"".join(texture.blocks[0])
    assert f.write_astc(texture, 0, 0) == data
    return "F%dx%d %d %d: %d blocks, %s" % (texture.footprint + (texture.width, texture.height, len(texture.blocks[0]), calls.fnv(blocks)))


def plain_row(words, _):
    name, width, height = words.split()
    texture = f.Texture(tuple(int(n) for n in name.split("x")), False, int(width), int(height), 0, 1, 1)
    texture.blocks = [[]]
    return told(f.write_astc(texture, 0, 0))


def grid_row(words, _):
    name, *numbers = words.split()
    width, height, elements, faces, levels, level = map(int, numbers)
    header = f.Header(f.IDENTIFIER + b"\1\2\3\4" + bytes(48), None, None, None)
    header.width, header.height, header.elements, header.faces, header.levels = width, height, elements, faces, levels
    f.judge_extent(header, lambda name, *numbers: f.Fault(4, "%s(%s)" % (name, ", ".join(map(str, numbers)))))
    texture = f.Texture(tuple(int(n) for n in name.split("x")), False, width, height, elements, faces, max(1, levels))
    if level >= texture.levels:
        return "no such level"
    columns, rows = texture.grid(level)
    return "columns %d rows %d size %d" % (columns, rows, 16 * columns * rows * (max(1, elements) * faces if elements or faces == 1 else 1))


def part_row(words, data):
    _, _, place, parts, pieces = f.read_part(data)
    return "%d of %d:%s" % (place, parts, "".join(" %d" % error for _, error in pieces))


def range_row(words, data):
    place, parts = map(int, words.split())
    first, end = f.part_range(f.texture_in(data[16:80])[1], place, parts)
    return "%d %d" % (first, end - first)


READERS = dict(images=images_row, chain=chain_row, cut=cut_row, header=header_row, written=written_row, ktx=ktx_row, source=source_row, astc=astc_row, plain=plain_row, grid=grid_row, part=part_row, range=range_row)


def told_by_reader(row):
    if row.words.startswith("fail "):
        return None
    reader = row.way.split("|")[-1]
    try:
        return READERS[reader](row.words, file_by(row.rule, row.named))
    except f.Fault as fault:
        return fault.text if reader == "grid" else "*: " + fault.text


# ---- commands


def usage_name(text):
    name = next(name for part, name in USAGE if part in text)
    number = re.search(r"word (\d+)", text)
    return name if name in ("NoCommand", "UnknownCommand") else "%s(%s)" % (name, number[1])


def told_end(end, words):
    """As the program tells an end: its status and text, with the outcome's name in front where it isn't done, except for parts and polishes."""
    text = end.text or ("%s bad blocks" % re.search(r"bad (\d+)\n$", end.report)[1] if end.status == 1 else "done")
    if end.status == 0 or words[:1] in (["part"], ["join"], ["polish"]):
        first = "%d %s" % (end.status, text)
    else:
        name = ENDS[end.status]
        inside = {"Usage": lambda: usage_name(text), "Found": lambda: text.split()[0], "Absent": lambda: text.split()[1]}.get(name, lambda: "*")()
        first = "%d %s%s: %s" % (end.status, name, "" if name == "ReadFault" else "(%s)" % inside, text)
    return " / ".join([first] + end.report.splitlines())


def told_job(text):
    words = [word.replace("_", " ").replace("''", "") for word in text.split(" ")] if text else []
    try:
        job = w.job_of(words)
    except f.Fault as fault:
        return "%s: %s" % (usage_name(fault.text), fault.text)
    true, name = (lambda value: "true" if value else "false"), lambda: "F%dx%d" % tuple(job["footprint"])
    weights, preset = "ChannelWeights { of: %s }" % list(job["weights"]), job.get("preset", "").capitalize()
    if job["command"] in ("pack", "packktx"):
        levels = "Full" if job["levels"] == "full" else "Number(%d)" % job["levels"]
        fields = "name: %s, preset: %s, elements: %d, cube: %s, levels: %s, advised: %s, fitted: %s, srgb: %s, weights: %s" % (
            name(), preset, job["elements"], true(job["cube"]), levels, true(job["advised"]), true(job["fitted"]), true(job["srgb"]), weights)
        return "%s(PackJob { %s })" % ({"pack": "Pack", "packktx": "PackKtx"}[job["command"]], fields)
    if job["command"] == "audit":
        return "Audit(AuditJob { preset: %s, weights: %s })" % (preset, weights)
    if job["command"] == "trial":
        return "Trial(TrialJob { number: %d, width: %d, height: %d, name: %s, preset: %s, fitted: %s })" % (job["number"], job["width"], job["height"], name(), preset, true(job["fitted"]))
    if job["command"] == "export":
        return "Export(ExportJob { level: %d, element: %d, face: %d })" % (job["level"], job["element"], job["face"])
    return "Unpack" if job["command"] == "unpack" else "Import(%s)" % ("Srgb" if job["srgb"] else "Linear")


def told_verdict(text):
    name, flavour, digits, texels, preset, weights = text.split(" ")
    if preset != "flat":
        return None
    width, height = (int(n) for n in name.split("x"))
    data, weights = bytes.fromhex(digits), [int(n) for n in weights.split("=")[1].split(",")]
    source = [None if texels[k] == "-" else tuple(bytes.fromhex(texels[k:k + 8])) for k in range(0, len(texels), 8)]
    own = b.error(b.shown(width, height, data, flavour == "srgb"), weights, source)
    if not c.is_block(width, height, data):
        return "000 %d bad" % own
    met = own <= s.least_listed(width, height, preset, flavour == "srgb", weights, source)
    least = s.is_least(width, height, b.read_block(width, height, data), flavour == "srgb", weights, source)
    return "1%d%d %d%s" % (met, least, own, "" if met and least else " bad")


def told_picture(text):
    return calls.told_texels(f.trial_picture(*map(int, text.split())).texels[0])


SINGLE = {"words": told_job, "verdict": told_verdict, "picture": told_picture}
SUMS = re.compile(r"\b(error|total) (\d+)")


class Script:
    """What the steps of a row tell. Where sums are hidden, each preset is taken as flat without fits, under which all is known."""

    def __init__(self, row):
        self.named, self.files, self.text, self.last, self.hides = row.named, {}, "", "", False
        if row.rule:
            self.files["in"] = file_by(row.rule, row.named)

    def command(self, text, is_like):
        words = [word.replace("_", " ").replace("''", "") for word in text.split(" ")] if text else []
        if self.hides:
            words = ["flat" if word in w.PRESETS else word for word in words if word != "fitted"]
        end = c.run(words, self.files)
        if end.status == 0 and end.output is None and words[0] not in ("audit", "trial"):
            return False
        shown = told_end(end, words)
        self.text += ("\n  %s: " % text if self.text else "") + (SUMS.sub(r"\1 ?", shown) if self.hides else shown)
        if is_like:
            self.text += ", as before" if shown == self.last else ", sums as before" if SUMS.findall(shown) == SUMS.findall(self.last) else ", not as before"
        self.last = shown
        if end.output is not None:
            self.files[words[OUTPUTS[words[0]]]] = end.output
        return True

    def step(self, text):
        """Whether the reference can say what the step tells."""
        key, _, rest = text.partition(" ")
        if key in ("file", "make"):
            name, _, rule = rest.partition(" ")
            self.files[name] = file_by(rule, self.named if key == "file" else self.files)
        elif key == "hide":
            self.hides = True
        elif key == "show":
            self.text += " -> " + (told(self.files[rest]) if rest in self.files else "no file")
        elif key == "length":
            self.text += (" -> " if self.text else "") + "%d bytes" % len(self.files.get(rest, b""))
        elif key == "compare":
            one, other = rest.split()
            self.text += " -> " + ("the same" if self.files[one] == self.files[other] else "another")
        elif key == "equal":
            self.text += ", sums equal" if len({number for _, number in SUMS.findall(self.last)}) == 1 else ", sums differ"
        elif key == "most":
            self.text += ", at most" if int(SUMS.findall(self.last)[-1][1]) <= int(rest) else ", more"
        elif key == "settle":
            whole = c.run(["pack", "in", "out", "6x6", "flat", "levels=full"], self.files).output
            self.files[rest] += whole[92:]
        elif key == "trial-files":
            return self.trial(rest.split(), text)
        elif key in SINGLE:
            found = SINGLE[key](rest)
            self.text += found or ""
            return found is not None
        elif key == "twice":
            return self.command(rest, False) and self.twice()
        elif key in ("adviser", "fail", "fail-report", "each", "memory"):
            return False
        else:
            return self.command(rest if key == "like" else text, key == "like")
        return True

    def twice(self):
        self.text += ", as before"
        return True

    def trial(self, words, text):
        words = ["trial"] + ["flat" if self.hides and word in w.PRESETS else word for word in words]
        end = c.run(words, {})
        self.last = told_end(end, words)
        self.text += SUMS.sub(r"\1 ?", self.last) if self.hides else self.last
        number, width, height = map(int, words[1:4])
        self.files["in"] = f.write_pam(width, height, f.trial_picture(number, width, height).texels[0])
        self.files["out"] = c.run(["pack", "in", "out"] + words[4:6], self.files).output
        return True


def told_by_commands(row):
    script = Script(row)
    for text in row.way.split("|")[1].replace("{}", row.words).split(" then "):
        if not script.step(text):
            return None
    return script.text


def is_slow(row):
    """Whether the reference would take long: an audit under another preset than flat looks at each listed block."""
    return not row.way.endswith("|words {}") and bool(re.search(r"\baudit \S+ \S+ (quick|medium|thorough|pairs)\b", row.words)) and not row.way.split("|")[1].startswith("hide")


def is_so(row, text):
    """Whether a text is what the reference has for a row; None where it has nothing."""
    if row.program == "reader_cases":
        made = told_by_reader(row)
    elif row.program in ("sequence_cases", "mode_cases", "block_cases", "search_cases", "settling_cases"):
        made = calls.told_by_call(row)
    else:
        made = None if is_slow(row) else told_by_commands(row)
    if made is None:
        return None
    return re.fullmatch(re.escape(made).replace(r"\*", ".*"), text) is not None
