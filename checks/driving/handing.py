"""What is handed to the page and what it hands back: two files at once, pictures of other sides, six faces of a cube, rows turned over, PNG files."""
import base64
import json
import os
import struct
import zlib

from browser import Browser, Wrong
from common import opened, pam, pictures, png, read, same, set_pack, state, status_begins, tell, texels_of, unpacked, write

FACES = ["+X", "-X", "+Y", "-Y", "+Z", "-Z"]


def drop(browser, files):
    """Files dropped together, each a name and its bytes."""
    told = json.dumps([[name, base64.b64encode(data).decode()] for name, data in files])
    browser.ask(f"""const files = new DataTransfer(); for (const [name, text] of {told}) files.items.add(new File([bytesOf(text)], name));
        document.getElementById('view').dispatchEvent(new DragEvent('drop', {{ dataTransfer: files, bubbles: true, cancelable: true }}));""")


def fresh(browser):
    """Nothing but a small picture is open."""
    opened(browser, pam(8, 8, bytes(256)), "fresh.pam")
    same("what is open", state(browser, "[s.texture, s.source.name]"), [None, "fresh.pam"])


def check_pairs(browser, folder):
    name, _, _, _, _ = pictures()[0]
    texture, source = ("t.ktx", read(f"{folder}/{name}.ktx")), ("s.pam", read(f"{folder}/{name}.pam"))
    for files in ([texture, source], [source, texture]):
        fresh(browser)
        drop(browser, files)
        status_begins(browser, "s.pam is the source now")
        same("both are taken", state(browser, "[s.texture.name, s.source.name, s.mode]"), ["t.ktx", "s.pam", "split"])
    for files, wanted in (([texture, texture], "2 files: open a texture"), ([source, source, texture], "3 files: open a texture"), ([texture, ("other.pam", pam(4, 4, bytes(64)))], "the source has 4 x 4 texels")):
        drop(browser, files)
        browser.wait_until(f"told()[1].startsWith('{wanted}')", 20)


def check_asks(browser, folder):
    """A picture of other sides takes a texture's place where the user says so."""
    opened(browser, read(f"{folder}/{pictures()[0][0]}.ktx"), "kept.ktx")
    is_open = "document.getElementById('ask').open"
    for act, wanted in ((lambda: browser.click("ask-no"), "kept.ktx"), (lambda: browser.key("Escape"), "kept.ktx"), (lambda: browser.click("ask-yes"), None)):
        drop(browser, [("other.pam", pam(4, 4, bytes(64)))])
        browser.wait_until(is_open, 20)
        same("what is asked", browser.ask("return document.getElementById('ask-text').textContent"),
             "other.pam (4 by 4, one image) can't be the source of kept.ktx (61 by 43, one image). Replace the texture with it?")
        same("nothing is done before", state(browser, "s.texture.name"), "kept.ktx")
        act()
        browser.wait_until(f"!{is_open}", 20)
        browser.ask("await new Promise((go) => setTimeout(go, 50))")
        same("the texture", state(browser, "s.texture && s.texture.name"), wanted)
    same("the picture", state(browser, "s.source.name"), "other.pam")


def check_cube(browser, folder):
    """Six pictures, in the order of faces by their names, pack to the program's cube; each face is named. If the names name no faces, the page says that it takes their order."""
    side = 24
    faces = [texels_of(side, side, lambda x, y, k=k: (x * 9 + 40 * k, y * 9, (x * y * (k + 1)) >> 1, 255)) for k in range(6)]
    for names in (["px", "nx", "py", "ny", "pz", "nz"], ["right", "left", "top", "bottom", "front", "back"], ["rt", "lf", "up", "dn", "ft", "bk"]):
        files = [(f"sky_{name}.png", png(side, side, texels)) for name, texels in zip(names, faces)]
        fresh(browser)
        drop(browser, [files[k] for k in (3, 0, 5, 1, 4, 2)])
        status_begins(browser, "cube: 24 by 24, six faces: +X sky_")
        set_pack(browser, ["8x8", "quick", "levels=full"], 4)
        browser.ask("await astcPage.pack()")
        write(f"{folder}/cube.pam", b"".join(pam(side, side, texels) for texels in faces))
        same("pack", tell("pack", f"{folder}/cube.pam", f"{folder}/cube.ktx", "8x8", "quick", "levels=full", "cube")[0], 0)
        same("the cube", base64.b64decode(browser.ask("return textOf(astcPage.state.texture.bytes)")) == read(f"{folder}/cube.ktx"), True)
        same("its faces", browser.ask("return [...document.getElementById('image').options].map((one) => one.textContent)"), FACES)
    fresh(browser)
    drop(browser, [(f"sky_{k}.png", png(side, side, faces[k])) for k in (3, 0, 5, 1, 4, 2)])
    status_begins(browser, "cube: 24 by 24, six faces in the order of their names: +X sky_0.png, -X sky_1.png")
    opened(browser, read(f"{folder}/cube.ktx"), "cube.ktx")
    same("faces of a file", browser.ask("return [...document.getElementById('image').options].map((one) => one.textContent)"), FACES)
    browser.ask("put('level', 2); put('image', 3)")
    same("a level of a cube is shown large", state(browser, "[s.level, s.image, s.zoom]"), [2, 3, 32])
    drop(browser, [*files[:5], ("sky_back.png", png(4, 4, bytes(64)))])
    browser.wait_until("told()[1].startsWith('six pictures make a cube if')", 20)


def turned(width, height, texels):
    return b"".join(texels[4 * width * y:4 * width * (y + 1)] for y in reversed(range(height)))


def check_flip(browser, folder):
    """A picture turned over: as the program packs it with its rows from the bottom, except for what the key of the file says."""
    name, width, height, texels, words = pictures()[0]
    fresh(browser)
    opened(browser, pam(width, height, texels), "up.pam")
    browser.ask("put('flip', true)")
    same("the picture is turned at once", base64.b64decode(browser.ask("return textOf(astcPage.state.source.texelsAt(0, 0))")) == turned(width, height, texels), True)
    set_pack(browser, [words[0], "quick"], 4)
    write(f"{folder}/up.pam", pam(width, height, turned(width, height, texels)))
    same("pack", tell("pack", f"{folder}/up.pam", f"{folder}/up.ktx", words[0], "quick")[0], 0)
    wanted = read(f"{folder}/up.ktx").replace(b"S=r,T=d", b"S=r,T=u")
    for _ in range(2):
        browser.ask("await astcPage.pack()")
        same("what is turned over", base64.b64decode(browser.ask("return textOf(astcPage.state.texture.bytes)")) == wanted, True)
    browser.ask("put('flip', false); await astcPage.pack()")
    same("turned back", base64.b64decode(browser.ask("return textOf(astcPage.state.texture.bytes)")) == packed_plain(folder, name, words), True)


def packed_plain(folder, name, words):
    same("pack", tell("pack", f"{folder}/{name}.pam", f"{folder}/down.ktx", words[0], "quick")[0], 0)
    return read(f"{folder}/down.ktx")


def png_texels(data):
    """The sides and texels of a PNG picture as the page writes it."""
    width, height, *kind = struct.unpack(">IIBBBBB", data[16:29])
    same("the kind of the PNG picture", kind, [8, 6, 0, 0, 0])
    size = struct.unpack(">I", data[33:37])[0]
    same("its one piece", (data[37:41], data[41 + size + 8:41 + size + 12]), (b"IDAT", b"IEND"))
    same("its check sum", struct.unpack(">I", data[41 + size:45 + size])[0], zlib.crc32(data[37:41 + size]))
    raw, above, texels = zlib.decompress(data[41:41 + size]), bytes(4 * width), b""
    for y in range(height):
        row = raw[(4 * width + 1) * y:(4 * width + 1) * (y + 1)]
        same("the filter", row[0], 2)
        above = bytes((one + other) & 255 for one, other in zip(row[1:], above))
        texels += above
    return width, height, texels


def saved_png(browser, folder, name):
    place = f"{folder}/saved/{name}"
    if os.path.exists(place):
        os.remove(place)
    browser.call("Browser.setDownloadBehavior", behavior="allow", downloadPath=f"{folder}/saved")
    browser.click("save-png")
    return png_texels(Browser.wait_for(place))


def check_png(browser, folder):
    """What is shown, saved: the texture and its source byte for byte, alpha and what lies under it too; a channel, and the difference."""
    name, width, height, texels, _ = pictures()[2]
    [(_, _, shown)] = unpacked(folder, read(f"{folder}/{name}.ktx"))
    if not any(shown[at + 3] == 0 and any(shown[at:at + 3]) for at in range(0, len(shown), 4)):
        raise Wrong("the texture has no colours below an alpha of 0")
    opened(browser, read(f"{folder}/{name}.ktx"), "p.ktx")
    browser.ask("astcPage.change({ channel: 'over' })")
    opened(browser, read(f"{folder}/{name}.pam"), "p.pam")
    for mode, file, wanted in (("texture", "p_0_0.png", shown), ("source", "p_0_0_source.png", texels)):
        browser.ask(f"put('mode', '{mode}')")
        same(f"the {mode} as PNG", saved_png(browser, folder, file) == (width, height, wanted), True)
    browser.ask("put('mode', 'texture'); put('channel', 'alpha')")
    alpha = b"".join(bytes([own, own, own, 255]) for own in shown[3::4])
    same("alpha as PNG", saved_png(browser, folder, "p_0_0.png") == (width, height, alpha), True)
    browser.ask("put('mode', 'difference'); put('channel', 'opaque'); put('gain', 4)")
    apart = b"".join(bytes([*(min(255, 4 * abs(shown[at + c] - texels[at + c])) for c in range(3)), 255]) for at in range(0, len(shown), 4))
    same("the difference as PNG", saved_png(browser, folder, "p_0_0_difference.png") == (width, height, apart), True)
    browser.ask("put('channel', 'over'); put('gain', 8)")


def check_without_webgl(browser, _):
    """Where a browser has no WebGL, a picture without alpha opens byte for byte, and one with alpha is refused."""
    browser.ask("""window.context = OffscreenCanvas.prototype.getContext;
        OffscreenCanvas.prototype.getContext = function (kind, ...more) { return kind === 'webgl2' ? null : context.call(this, kind, ...more); };""")
    (_, width, height, texels, _), (_, *sides, other, _) = pictures()[1], pictures()[0]
    same("a picture without alpha", opened(browser, png(width, height, texels), "opaque.png")[1], "")
    same("its texels", base64.b64decode(browser.ask("return textOf(astcPage.state.source.texelsAt(0, 0))")) == texels, True)
    same("a picture with alpha", opened(browser, png(*sides, other), "alpha.png")[1].split(",")[0], "reading colours with alpha exactly needs WebGL 2")
    browser.ask("OffscreenCanvas.prototype.getContext = context")


def check_handed(browser, folder):
    os.makedirs(f"{folder}/saved", exist_ok=True)
    for step in (check_pairs, check_asks, check_cube, check_flip, check_png, check_without_webgl):
        step(browser, folder)
    print("page: two files at once are both taken, other sides ask first, six pictures are the program's cube, flip packs rows from the bottom, and what is shown is saved as PNG byte for byte")
