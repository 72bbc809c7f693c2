"""What the program does with words and files: its status, the text of its fault, its report and its output. Of a pack whose preset isn't flat
the blocks are a search's, and `faults_of_pack` tells what is wrong with them. Of a part all is known whose mean constants have no error: then they
are its blocks, whatever the preset."""
from blocks import Fault as BlockFault, error, read_block, shown, texels, write_block
from files import (Fault, Texture, chain, full_levels, image_blocks, mark_of, part_range, read_astc, read_ktx, read_pam, read_part, read_source, source_of,
                   trial_picture, write_astc, write_ktx, write_pam, write_part)
from search import is_least, least_listed, mean_constant
from words import job_of


class End:
    def __init__(self, status, text="", report="", output=None):
        self.status, self.text, self.report, self.output = status, text, report, output


def run(words, files):
    """How the program ends over these files (names and bytes). The output is None where no file is written, or where it is a search's."""
    try:
        job = job_of(words)
        for name in ("in", "texture", "images"):
            if name in job and job[name] not in files and (name, job["command"]) != ("images", "polish"):
                raise Fault(5, "a read failed")
        return {"pack": pack, "packktx": pack_source, "unpack": unpack, "audit": audit, "trial": trial, "import": bring, "export": take, "part": part, "join": join,
                "polish": polish}[job["command"]](job, files)
    except Fault as fault:
        return End(fault.status, fault.text)


def line(place, blocks, rest):
    return "level %d element %d face %d blocks %d %s\n" % (place + (blocks, rest))


def texture_of(job, images, elements, faces, levels):
    return Texture(job["footprint"], job["srgb"], images.width, images.height, elements, faces, levels)


def sources(texture, levels):
    """The sources of each image's blocks, in the order of the file."""
    for level, element, face in texture.places():
        columns, rows = texture.grid(level)
        yield [source_of(levels[level], element * texture.faces + face, texture.footprint, x, y) for y in range(rows) for x in range(columns)]


def flat(texture, levels, weights):
    """A report and file of mean constants."""
    report, total = "", 0
    for place, places in zip(texture.places(), sources(texture, levels)):
        blocks = [mean_constant(source) for source in places]
        texture.blocks.append([write_block(block) for block in blocks])
        errors = [error([tuple(v >> 8 for v in block[2])] * len(source), weights, source) for block, source in zip(blocks, places)]
        report += line(place, len(blocks), "error %d" % sum(errors))
        total += sum(errors)
    return End(0, "", report + "total %d\n" % total, write_ktx(texture))


def packed(job, texture, levels):
    return flat(texture, levels, job["weights"]) if job["preset"] == "flat" and not job["advised"] and not job["fitted"] else End(0)


def pack_input(job, files):
    faces = 6 if job["cube"] else 1
    images = read_pam(files[job["in"]], max(1, job["elements"]) * faces, job["cube"])
    full = full_levels(images.width, images.height)
    levels = full if job["levels"] == "full" else min(job["levels"], full)
    return texture_of(job, images, job["elements"], faces, levels), chain(images, levels)


def pack(job, files):
    return packed(job, *pack_input(job, files))


def source_input(job, files):
    header, levels = read_source(files[job["in"]])
    return texture_of(job, levels[0], header.elements, header.faces, len(levels)), levels


def pack_source(job, files):
    return packed(job, *source_input(job, files))


def trial(job, files):
    images = trial_picture(job["number"], job["width"], job["height"])
    end = packed(job, texture_of(job, images, 0, 1, 1), [images])
    if end.output is not None:
        end.report += "file %d\n" % len(end.output)
        end.output = None
    return end


def faults_of_pack(words, files, report, output, slow):
    """What is wrong with a pack that ended with 0: with its framing, its blocks, its sums, and where `slow` with its search."""
    job = job_of(words)
    texture, levels = (pack_input if job["command"] == "pack" else source_input)(job, files)
    width, height = texture.footprint
    try:
        found = read_ktx(output)
    except Fault as fault:
        return [fault.text]
    texture.blocks, faults, lines, total = found.blocks, [], "", 0
    if write_ktx(texture) != output:
        faults.append("the framing")
    for place, blocks, places in zip(texture.places(), texture.blocks, sources(texture, levels)):
        errors = []
        for data, source in zip(blocks, places):
            errors.append(error(shown(width, height, data, texture.srgb), job["weights"], source))
            faults += faults_of_block(texture, job, data, source, errors[-1], slow)
        lines += line(place, len(blocks), "error %d" % sum(errors))
        total += sum(errors)
    if lines + "total %d\n" % total != report:
        faults.append("the report")
    return faults


def faults_of_block(texture, job, data, source, own, slow):
    width, height = texture.footprint
    try:
        block = read_block(width, height, data)
    except BlockFault as fault:
        return [str(fault)]
    faults = []
    if write_block(block) != data:
        faults.append("bytes that no field covers, or codes that aren't the least")
    if own > error(texels(width, height, mean_constant(source), False), job["weights"], source):
        faults.append("the mean constant is nearer")
    if slow and not is_least(width, height, block, texture.srgb, job["weights"], source):
        faults.append("a change is nearer")
    if slow and least_listed(width, height, job["preset"], texture.srgb, job["weights"], source) < own:
        faults.append("a listed block is nearer")
    return faults


def unpack(job, files):
    texture = read_ktx(files[job["in"]])
    width, height = texture.footprint
    report, output, all_blocks, all_bad = "", b"", 0, 0
    for place, blocks in zip(texture.places(), texture.blocks):
        (across, down), columns = texture.sides(place[0]), texture.grid(place[0])[0]
        decoded = [shown(width, height, data, texture.srgb) for data in blocks]
        bad = sum(not is_block(width, height, data) for data in blocks)
        texel = [decoded[y // height * columns + x // width][y % height * width + x % width] for y in range(down) for x in range(across)]
        output += write_pam(across, down, texel)
        report += line(place, len(blocks), "illegal %d" % bad)
        all_blocks, all_bad = all_blocks + len(blocks), all_bad + bad
    return End(0, "", report + "total blocks %d illegal %d\n" % (all_blocks, all_bad), output)


def is_block(width, height, data):
    try:
        read_block(width, height, data)
        return True
    except BlockFault:
        return False


def audit(job, files):
    texture = read_ktx(files[job["texture"]])
    images = read_pam(files[job["images"]], max(1, texture.elements) * texture.faces, texture.faces == 6, (texture.width, texture.height))
    levels, report, total, found = chain(images, texture.levels), "", 0, 0
    width, height = texture.footprint
    for place, blocks, places in zip(texture.places(), texture.blocks, sources(texture, levels)):
        errors = [error(shown(width, height, data, texture.srgb), job["weights"], source) for data, source in zip(blocks, places)]
        bad = sum(is_bad(texture, job, data, source, own) for data, source, own in zip(blocks, places, errors))
        report += line(place, len(blocks), "error %d bad %d" % (sum(errors), bad))
        total, found = total + sum(errors), found + bad
    return End(1 if found else 0, "", report + "total %d bad %d\n" % (total, found))


def is_bad(texture, job, data, source, own):
    width, height = texture.footprint
    if not is_block(width, height, data):
        return True
    if least_listed(width, height, job["preset"], texture.srgb, job["weights"], source) < own:
        return True
    return not is_least(width, height, read_block(width, height, data), texture.srgb, job["weights"], source)


def bring(job, files):
    texture = read_astc(files[job["in"]])
    texture.srgb = job["srgb"]
    return End(0, "", "blocks %d\n" % len(texture.blocks[0]), write_ktx(texture))


def take(job, files):
    texture = read_ktx(files[job["in"]])
    wanted = (job["level"], job["element"], job["face"])
    for place, (number, most) in enumerate(zip(wanted, (texture.levels, max(1, texture.elements), texture.faces)), 3):
        if number >= most:
            raise Fault(10, "word %d names no image of the file" % place)
    image = texture.places().index(wanted)
    return End(0, "", "blocks %d\n" % len(texture.blocks[image]), write_astc(texture, image, job["level"]))


# ---- parts, and textures of other encoders


def settled_flat(job, texture, levels):
    """(block, error) of each block: the mean constants."""
    for places in sources(texture, levels):
        for source in places:
            block = mean_constant(source)
            yield write_block(block), error([tuple(v >> 8 for v in block[2])] * len(source), job["weights"], source)


def told_of(texture, start, errors):
    """The report of errors that begin with that of the block `start`: the images that have blocks of them, and the sum."""
    report, first = "", 0
    for place, count in zip(texture.places(), image_blocks(texture)):
        own = errors[max(0, first - start):max(0, first + count - start)]
        if own:
            report += line(place, len(own), "error %d" % sum(own))
        first += count
    return report + "total %d\n" % sum(errors)


def part(job, files):
    texture, levels = pack_input(job, files)
    start, end = part_range(texture, job["place"], job["parts"])
    pieces = list(settled_flat(job, texture, levels))[start:end]
    if (job["preset"] != "flat" or job["fitted"]) and any(told for _, told in pieces):
        return End(0)
    return End(0, "", told_of(texture, start, [error for _, error in pieces]),
               write_part(texture, job_mark(job, levels), job["place"], job["parts"], pieces))


def job_mark(job, levels):
    return mark_of(job["preset"], job["fitted"], job["weights"], levels)


def faults_of_part(words, files, report, output):
    """What is wrong with a part that ended with 0: with its front, its blocks, their errors, or its report."""
    job = job_of(words)
    texture, levels = pack_input(job, files)
    try:
        found, mark, place, parts, pieces = read_part(output)
    except Fault as fault:
        return [fault.text]
    wanted = job_mark(job, levels), job["place"], job["parts"]
    faults = [] if same_texture(found, texture) and (mark, place, parts) == wanted else ["the front"]
    start, end = part_range(texture, place, parts)
    width, height = texture.footprint
    for (data, told), source in zip(pieces, [source for places in sources(texture, levels) for source in places][start:end]):
        own = error(shown(width, height, data, texture.srgb), job["weights"], source)
        faults += faults_of_block(texture, job, data, source, own, False)
        if told != own:
            faults.append("an error")
    if told_of(texture, start, [told for _, told in pieces]) != report:
        faults.append("the report")
    return faults


def same_texture(a, b):
    return vars(a) == vars(b)


def join(job, files):
    found, first = {}, None
    for word, name in enumerate(job["parts"], 2):
        if name not in files:
            raise Fault(5, "a read failed")
        try:
            texture, mark, place, parts, pieces = read_part(files[name])
        except Fault as fault:
            raise Fault(fault.status, "word %d: %s" % (word, fault.text))
        first = first or (texture, mark, parts)
        if not same_texture(texture, first[0]) or (mark, parts) != first[1:]:
            raise Fault(15, "word %d: a part of another texture" % word)
        if place in found:
            raise Fault(16, "word %d: part %d again" % (word, place))
        found[place] = pieces
    texture, _, parts = first
    missing = [place for place in range(parts) if place not in found]
    if missing:
        raise Fault(17, "part %d is missing" % missing[0])
    pieces = [piece for place in range(parts) for piece in found[place]]
    at = 0
    for count in image_blocks(texture):
        texture.blocks.append([block for block, _ in pieces[at:at + count]])
        at += count
    return End(0, "", told_of(texture, 0, [error for _, error in pieces]), write_ktx(texture))


def polish(job, files):
    """Under the preset flat, too, a block that is nearer than the mean constant stays or becomes better: so of a polish the file is never known beforehand."""
    texture = read_ktx(files[job["texture"]])
    if job["images"] not in files:
        raise Fault(5, "a read failed")
    read_pam(files[job["images"]], max(1, texture.elements) * texture.faces, texture.faces == 6, (texture.width, texture.height))
    return End(0)


def faults_of_polish(words, files, report, output):
    """What is wrong with a polish that ended with 0: with its framing, its blocks, its sums, or a block that is further off than before."""
    job = job_of(words)
    old = read_ktx(files[job["texture"]])
    images = read_pam(files[job["images"]], max(1, old.elements) * old.faces, old.faces == 6, (old.width, old.height))
    width, height = old.footprint
    try:
        found = read_ktx(output)
    except Fault as fault:
        return [fault.text]
    faults, told = [] if write_ktx(found) == output else ["the framing"], []
    for before, after, places in zip(old.blocks, found.blocks, sources(old, chain(images, old.levels))):
        for data, made, source in zip(before, after, places):
            own = error(shown(width, height, made, old.srgb), job["weights"], source)
            told.append(own)
            faults += faults_of_block(old, job, made, source, own, False)
            if own > error(shown(width, height, data, old.srgb), job["weights"], source):
                faults.append("a block is further off than before")
    if told_of(old, 0, told) != report:
        faults.append("the report")
    return faults
