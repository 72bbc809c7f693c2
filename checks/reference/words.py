"""The words of a command line, by README and docs/FORMATS.md: the job that they ask for, or their first fault."""
from blocks import FOOTPRINTS
from files import Fault

PRESETS = ["flat", "quick", "medium", "thorough", "pairs"]
# words behind the command by name, and the options of the command
COMMANDS = {
    "pack": (["in", "out", "footprint", "preset"], ["elements", "cube", "levels", "advised", "fitted", "srgb", "weights"]),
    "unpack": (["in", "out"], None),
    "audit": (["texture", "images", "preset"], ["weights"]),
    "trial": (["number", "width", "height", "footprint", "preset"], None),
    "import": (["in", "out"], ["srgb"]),
    "export": (["in", "out", "level", "element", "face"], None),
    "packktx": (["in", "out", "footprint", "preset"], ["advised", "fitted", "srgb", "weights"]),
    "part": (["in", "out", "place", "parts", "footprint", "preset"], ["elements", "cube", "levels", "fitted", "srgb", "weights"]),
    "join": (["out", "part"], None),
    "polish": (["images", "texture", "out", "preset"], ["weights"]),
}
RANGES = {"number": (0, 0xFFFFFFFF), "width": (1, 1024), "height": (1, 1024), "level": (0, 13), "element": (0, 2047), "face": (0, 5),
          "place": (0, 65535), "parts": (1, 65536)}


def number_in(text, least, most):
    if not text or len(text) > 10 or any(c not in "0123456789" for c in text):
        return None
    return int(text) if least <= int(text) <= most else None


def job_of(words):
    """A dictionary of what the words ask for."""
    if not words:
        raise Fault(2, "no command")
    if words[0] not in COMMANDS:
        raise Fault(2, "word 0 is not a command")
    names, options = COMMANDS[words[0]]
    if len(words) <= len(names):
        raise Fault(2, "word %d is missing" % len(words))
    if words[0] == "join":
        return dict(command="join", out=words[1], parts=words[2:])
    most = len(names) + 1 + (words[0] == "trial" and words[6:7] == ["fitted"])
    if options is None and len(words) > most:
        raise Fault(2, "word %d is not wanted" % most)
    job = dict(command=words[0], elements=0, cube=False, levels=1, advised=False, fitted=False, srgb=False, weights=(1, 1, 1, 1))
    for place, name in enumerate(names, 1):
        job[name] = value_of(name, words[place], place)
        if name == "parts" and job["place"] >= job["parts"]:
            raise Fault(2, "word 3 is not a number in range")
    if options is None:
        job["fitted"] = most > len(names) + 1
        return job
    seen = set()
    for place in range(len(names) + 1, len(words)):
        take_option(job, options, seen, words[place], place)
    return job


def value_of(name, word, place):
    if name == "footprint":
        sides = {"%dx%d" % sides: sides for sides in FOOTPRINTS}
        if word not in sides:
            raise Fault(2, "word %d is not a footprint" % place)
        return sides[word]
    if name == "preset" and word not in PRESETS:
        raise Fault(2, "word %d is not a preset" % place)
    if name in RANGES:
        number = number_in(word, *RANGES[name])
        if number is None:
            raise Fault(2, "word %d is not a number in range" % place)
        return number
    return word


def take_option(job, options, seen, word, place):
    name, equals, text = word.partition("=")
    if name not in options or bool(equals) != (name in ("elements", "levels", "weights")):
        raise Fault(2, "word %d is not an option" % place)
    if name in seen:
        raise Fault(2, "word %d repeats an option" % place)
    seen.add(name)
    value = option_value(name, text)
    if value is None:
        raise Fault(2, "word %d is not a number in range" % place)
    job[name] = value


def option_value(name, text):
    if name == "elements":
        return number_in(text, 1, 2048)
    if name == "levels":
        return "full" if text == "full" else number_in(text, 1, 14)
    if name == "weights":
        four = [number_in(part, 0, 15) for part in text.split(",")]
        return tuple(four) if len(four) == 4 and None not in four and any(four) else None
    return True
