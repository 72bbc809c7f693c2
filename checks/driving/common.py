"""What the steps share: the program, the page's helpers, pictures and files."""
import base64
import json
import os
import re
import struct
import subprocess
import zlib

from browser import Wrong

TOP = os.path.dirname(os.path.dirname(os.path.dirname(os.path.abspath(__file__))))
PROGRAM = os.environ.get("ASTC_TOOL", os.path.join(TOP, "crates/astc_tool/out/astc_tool"))

HELPERS = """
window.bytesOf = (text) => Uint8Array.from(atob(text), (c) => c.charCodeAt(0));
window.textOf = (bytes) => { let s = ''; for (let k = 0; k < bytes.length; k += 32768) s += String.fromCharCode(...bytes.subarray(k, k + 32768)); return btoa(s); };
window.put = (id, value) => { const own = document.getElementById(id); if (own.type === 'checkbox') own.checked = value; else own.value = value; own.dispatchEvent(new Event('change')); };
window.told = () => [document.getElementById('status').textContent, document.getElementById('fault').textContent, document.getElementById('report').textContent];
window.openBytes = async (text, name) => {
  const yes = setInterval(() => document.getElementById('ask').open && document.getElementById('ask-yes').click(), 5);
  await astcPage.open(new Blob([bytesOf(text)]), name);
  clearInterval(yes);
  return told();
};
window.painted = async () => { for (let k = 0; k < 600; k++) { await new Promise((go) => requestAnimationFrame(go)); if (astcPage.view.frame === 0 && astcPage.view.whole) return; } throw new Error('never painted'); };
window.pixels = (x, y, across, down, pane = 0) => {
  const [left, top] = astcPage.view.cornerIn(astcPage.view.panes[pane]);
  return textOf(new Uint8Array(document.getElementById('view').getContext('2d').getImageData(left + x, top + y, across, down).data.buffer));
};
"""


def begun(browser):
    """Waits until the page is ready."""
    browser.wait_until("window.astcPage || document.getElementById('fault')?.textContent", 60)
    browser.ask(HELPERS)
    same("at first", browser.ask("return told()[1]"), "")


def opened(browser, data, name):
    """Opens bytes as a file; where the page asks whether a picture may take a texture's place, it may."""
    return browser.ask(f"return openBytes('{base64.b64encode(data).decode()}', {json.dumps(name)})")


def state(browser, expression):
    """An expression over the page's state, s."""
    return browser.ask(f"const s = astcPage.state; return {expression}")


def status_begins(browser, text):
    browser.wait_until(f"told()[1] || told()[0].startsWith('{text}')")
    same(f"the fault, where {text!r} is awaited", browser.ask("return told()[1]"), "")


def text_of(browser, name):
    """What the element with this id has as text, as it is seen."""
    return browser.ask(f"return document.getElementById('{name}').innerText")


def row_of(browser, name, term):
    """What a list tells of a term."""
    return browser.ask(f"""const own = [...document.querySelectorAll('#{name} dt')].find((one) => one.textContent === '{term}');
        return own ? own.nextElementSibling.textContent : null""")


def measured(browser):
    """Waits until the image that is shown is measured."""
    browser.ask("await painted(); while (!astcPage.view.measure()) await new Promise((go) => setTimeout(go, 10)); await painted();")


def read(name):
    with open(name, "rb") as file:
        return file.read()


def write(name, data):
    with open(name, "wb") as file:
        file.write(data)


def tell(*words):
    """What the program does: its status, its report and what it says."""
    ran = subprocess.run([PROGRAM, *words], stdout=subprocess.PIPE, stderr=subprocess.PIPE, check=False)
    return ran.returncode, ran.stdout.decode(), ran.stderr.decode().strip()


def same(what, found, wanted):
    if found != wanted:
        raise Wrong(f"{what}: {str(found)[:300]!r}, and not {str(wanted)[:300]!r}")


def set_pack(browser, words, workers):
    told = dict(word.split("=") for word in words[2:] if "=" in word)
    weights = told.get("weights", "1,1,1,1").split(",")
    places = "4x4 5x4 5x5 6x5 6x6 8x5 8x6 8x8 10x5 10x6 10x8 10x10 12x10 12x12".split()
    values = {"footprint": places.index(words[0]), "preset": words[1], "flavour": "srgb" if "srgb" in words else "linear", "levels": told.get("levels", "1"), "workers": workers}
    values.update({f"weight-{k}": weight for k, weight in enumerate(weights)})
    browser.ask("".join(f"put('{name}', '{value}');" for name, value in values.items()))
    browser.ask(f"document.getElementById('fitted').checked = {'true' if 'fitted' in words else 'false'}")


def packed_by_page(browser, data, name, words, workers):
    opened(browser, data, name)
    set_pack(browser, words, workers)
    browser.ask("astcPage.workers.stop(); await astcPage.pack()")
    status, fault, report = browser.ask("return told()")
    if fault:
        raise Wrong(f"pack {name}: {fault}")
    made = browser.ask("return textOf(astcPage.state.texture.bytes)")
    return base64.b64decode(made), report, status


def pixels(browser, x, y, across, down, pane=0):
    """What stands on the canvas, counted from the image's corner in a part of it; red, green and blue of each place, as all is opaque."""
    browser.ask("await painted()")
    data = base64.b64decode(browser.ask(f"return pixels({x}, {y}, {across}, {down}, {pane})"))
    return [tuple(data[at:at + 3]) for at in range(0, len(data), 4)]


def goto(browser, address):
    browser.call("Page.navigate", url=address)
    browser.wait_until("document.readyState === 'complete'", 60)
    begun(browser)


def pam_images(data):
    """The sides and texels of each image of what unpack writes."""
    at = 0
    while at < len(data):
        end = data.index(b"ENDHDR\n", at) + 7
        width, height = (int(re.search(rb"%s (\d+)" % word, data[at:end])[1]) for word in (b"WIDTH", b"HEIGHT"))
        yield width, height, data[end:end + 4 * width * height]
        at = end + 4 * width * height


def unpacked(folder, ktx):
    """The images that the program shows of a texture."""
    write(f"{folder}/unpacked.ktx", ktx)
    same("unpack", tell("unpack", f"{folder}/unpacked.ktx", f"{folder}/unpacked.pam")[0], 0)
    return list(pam_images(read(f"{folder}/unpacked.pam")))


def pam(width, height, texels):
    return b"P7\nWIDTH %d\nHEIGHT %d\nDEPTH 4\nMAXVAL 255\nTUPLTYPE RGB_ALPHA\nENDHDR\n" % (width, height) + texels


def texels_of(width, height, at):
    return bytes(value & 255 for y in range(height) for x in range(width) for value in at(x, y))


def pictures():
    """Name, sides, texels, and the words of the pack."""
    smooth = texels_of(61, 43, lambda x, y: (x * 4, y * 5, (x * y) >> 3, 255 - x))
    noisy = texels_of(40, 33, lambda x, y: ((x * 7919 + y * 104729) >> 3, (x * x + 3 * y * y) * 5, x * 6 if (x // 9 + y // 7) & 1 else 255, 255))
    mask = texels_of(29, 29, lambda x, y: (255, 255 - 3 * y, 40, 255 if (x - 14) ** 2 + (y - 14) ** 2 < 120 else 0))
    return [("smooth", 61, 43, smooth, ["6x6", "medium", "levels=full"]), ("noisy", 40, 33, noisy, ["4x4", "quick", "srgb"]),
            ("mask", 29, 29, mask, ["8x5", "quick", "weights=1,2,3,4"])]


def png_chunk(kind, data):
    return struct.pack(">I", len(data)) + kind + data + struct.pack(">I", zlib.crc32(kind + data))


def png(width, height, texels):
    rows = b"".join(b"\0" + texels[4 * width * y:4 * width * (y + 1)] for y in range(height))
    head = png_chunk(b"IHDR", struct.pack(">IIBBBBB", width, height, 8, 6, 0, 0, 0))
    return b"\x89PNG\r\n\x1a\n" + head + png_chunk(b"IDAT", zlib.compress(rows)) + png_chunk(b"IEND", b"")


def put_word(data, at, word):
    return data[:at] + struct.pack("<I", word) + data[at + 4:]


def plain_ktx(width, height, format_number, blocks):
    """A KTX file of one level and these blocks."""
    words = [0x04030201, 0, 1, 0, format_number, 0x1908, width, height, 0, 0, 1, 1, 0]
    return b"\xabKTX 11\xbb\r\n\x1a\n" + struct.pack("<13I", *words) + struct.pack("<I", 16 * len(blocks)) + b"".join(blocks)


def constant_block(colour):
    """A block of one colour, red, green, blue and alpha of 16 bits."""
    return b"\xfc\xfd" + 6 * b"\xff" + struct.pack("<4H", *colour)
