"""Kinds of pictures, another result beside the texture, the table of results, the panel, and the link."""
import base64
import math

from browser import Wrong
from common import goto, measured, opened, pam, pixels, png, read, row_of, same, set_pack, state, tell, texels_of, unpacked, write

SIDE = 24


def settings(browser):
    return browser.ask("""const of = (id) => document.getElementById(id).value; const place = Number(of('footprint'));
        return [place, of('preset'), of('flavour'), [0, 1, 2, 3].map((k) => Number(of(`weight-${k}`))), document.getElementById('fitted').checked]""")


def bump(x, y):
    """A normal as a picture has it: X in red, Y in green, Z in blue."""
    return 128 + 5 * (x - 12), 128 + 4 * (y - 12), 220, 255


def check_kinds(browser, folder):
    """Decoded colours are sRGB, normals and masks by their names linear; a kind sets the settings of README; a normal map is packed with X in red, green and blue and Y in alpha, and
    PSNR is over its two channels."""
    texels = texels_of(SIDE, SIDE, bump)
    for name, flavour in (("brick.png", "srgb"), ("brick_normal.png", "linear"), ("brick_rough.png", "linear"), ("wall.png", "srgb")):
        opened(browser, png(SIDE, SIDE, texels), name)
        same(f"the flavour of {name}", settings(browser)[2], flavour)
    for kind, wanted in (("colour", [4, "quick", "srgb", [1, 1, 1, 1], True]), ("mask", [4, "quick", "linear", [1, 1, 1, 1], True]), ("text", [0, "medium", "srgb", [1, 1, 1, 1], True]),
                         ("sky", [7, "quick", "srgb", [1, 1, 1, 1], True]), ("normal", [2, "medium", "linear", [1, 0, 0, 1], True])):
        browser.ask(f"put('kind', '{kind}')")
        same(f"the settings of {kind}", settings(browser), wanted)
    swizzled = b"".join(bytes((texels[at], texels[at], texels[at], texels[at + 1])) for at in range(0, len(texels), 4))
    same("a normal map", base64.b64decode(browser.ask("return textOf(astcPage.state.source.texelsAt(0, 0))")) == swizzled, True)
    browser.ask("put('preset', 'quick'); document.getElementById('fitted').checked = false; await astcPage.pack()")
    same("a setting by hand", browser.ask("return document.getElementById('kind').value"), "")
    write(f"{folder}/normal.pam", pam(SIDE, SIDE, swizzled))
    same("pack", tell("pack", f"{folder}/normal.pam", f"{folder}/normal.ktx", "5x5", "quick", "weights=1,0,0,1")[0], 0)
    same("the texture of normals", base64.b64decode(browser.ask("return textOf(astcPage.state.texture.bytes)")) == read(f"{folder}/normal.ktx"), True)
    [(_, _, shown)] = unpacked(folder, read(f"{folder}/normal.ktx"))
    squares = sum((a - b) ** 2 for c in (0, 3) for a, b in zip(shown[c::4], swizzled[c::4]))
    measured(browser)
    same("PSNR by weights", row_of(browser, "measures", "PSNR by weights"), f"{10 * math.log10(255 * 255 * 2 * SIDE * SIDE / squares):.2f} dB")
    browser.ask("put('mode', 'texture'); put('channel', 'normal'); astcPage.view.select(null); astcPage.change({ zoom: 1, left: 0, top: 0 })")
    x, y = shown[0] / 127.5 - 1, shown[3] / 127.5 - 1
    same("a rebuilt normal", pixels(browser, 0, 0, 1, 1), [(shown[0], shown[3], math.floor(127.5 * (1 + math.sqrt(max(0, 1 - x * x - y * y))) + 0.5))])
    browser.ask("put('channel', 'over'); put('weight-1', 1); put('weight-2', 1)")


def check_forms(browser):
    """A kind that is chosen beside a texture gives the next pack its form; a picture that is opened under a kind has its form."""
    texels = texels_of(SIDE, SIDE, bump)
    swizzled = b"".join(bytes((texels[at], texels[at], texels[at], texels[at + 1])) for at in range(0, len(texels), 4))
    opened(browser, png(SIDE, SIDE, texels), "form.png")
    source = "return textOf(astcPage.state.source.texelsAt(0, 0))"
    for kind, form in (("colour", texels), ("normal", swizzled), ("colour", texels)):
        browser.ask(f"put('kind', '{kind}'); await astcPage.pack()")
        same(f"the source of a pack as {kind}", base64.b64decode(browser.ask(source)) == form, True)
    browser.ask("put('kind', 'normal')")
    rows = SIDE - 4
    opened(browser, png(SIDE, rows, texels[:4 * SIDE * rows]), "next.png")
    same("a picture that is opened as a normal map", base64.b64decode(browser.ask(source)) == swizzled[:4 * SIDE * rows], True)
    browser.ask("put('kind', 'colour'); put('flavour', 'linear'); put('preset', 'quick')")


def check_results(browser, folder):
    """What was opened is in the list beside what was made; any other result is shown beside a texture; and the list is a table."""
    texels = texels_of(SIDE, SIDE, lambda x, y: (x * 10, y * 10, (x * y) & 255, 255))
    write(f"{folder}/compared.pam", pam(SIDE, SIDE, texels))
    same("pack", tell("pack", f"{folder}/compared.pam", f"{folder}/compared.ktx", "12x12", "flat")[0], 0)
    opened(browser, read(f"{folder}/compared.ktx"), "theirs.ktx")
    opened(browser, read(f"{folder}/compared.pam"), "compared.pam")
    set_pack(browser, ["4x4", "quick"], 2)
    browser.ask("await astcPage.pack(); await painted()")
    measured(browser)
    theirs = browser.ask("return astcPage.results.all.find((one) => one.title === 'theirs.ktx').number")
    browser.ask(f"put('other', '{theirs}'); put('mode', 'side'); astcPage.view.select(null); astcPage.change({{ zoom: 2, left: 0, top: 0 }})")
    [(_, _, other)] = unpacked(folder, read(f"{folder}/compared.ktx"))
    same("the other result", pixels(browser, 0, 0, 1, 1, 1), [tuple(other[:3])])
    browser.ask("window.copied = ''; Object.defineProperty(navigator, 'clipboard', { configurable: true, value: { writeText: async (text) => { copied = text; } } })")
    browser.ask("document.getElementById('copy-table').click(); await new Promise((go) => setTimeout(go, 50))")
    rows = [line.split("\t") for line in browser.ask("return copied").splitlines()]
    same("the table's head", rows[0], ["result", "block size", "flavour", "PSNR RGB", "bits per texel", "bytes", "seconds"])
    [own] = [row for row in rows if row[0].endswith(": theirs.ktx")]
    same("the row of what was opened", [own[1], own[2], own[4], own[5], own[6]], ["12x12", "linear", "0.89", str(len(read(f"{folder}/compared.ktx"))), ""])
    browser.ask("put('other', ''); put('mode', 'split')")
    same("the source again", state(browser, "s.other"), None)


def check_looks(browser):
    """The fault of a file under a wrong name says what the file looks like."""
    picture = png(4, 4, bytes(64))
    for data, name, wanted in ((picture, "brick.ktx", "brick.ktx looks like a PNG picture"), (picture, "brick.astc", "brick.astc looks like a PNG picture"),
                               (b"\xabKTX 20\xbb\r\n\x1a\n" + bytes(80), "brick.ktx2", "brick.ktx2 looks like a KTX 2 file"), (b"DDS " + bytes(124), "brick.dds", "looks like a DDS file"),
                               (b"BM" + bytes(60), "brick.bmp", "brick.bmp looks like a BMP picture: convert it to PNG"), (b"II*\0" + bytes(60), "brick.tga", "looks like a TIFF picture"),
                               (bytes(60), "brick.tga", "WebP picture: convert brick.tga to PNG")):
        fault = opened(browser, data, name)[1]
        if wanted not in fault:
            raise Wrong(f"{name}: the page says {fault!r}")


def check_panel(browser):
    wide = "return document.querySelector('aside').getBoundingClientRect().width"
    before = browser.ask(wide)
    browser.ask("document.getElementById('edge').focus()")
    browser.key("ArrowLeft")
    if browser.ask(wide) <= before:
        raise Wrong("the panel does not get wider")
    browser.key("ArrowRight")
    same("the panel's width again", round(browser.ask(wide)), round(before))
    browser.click("fold")
    same("the folded panel", browser.ask("return document.querySelector('aside').checkVisibility()"), False)
    browser.click("fold")
    same("the panel", browser.ask("return document.querySelector('aside').checkVisibility()"), True)


def check_link(browser):
    """A link opens the page with the settings that it was made of."""
    set_pack(browser, ["8x6", "medium", "srgb", "levels=full", "weights=3,0,1,15"], 2)
    browser.ask("put('channel', 'green'); put('grid', true); document.getElementById('grid').dispatchEvent(new Event('change', { bubbles: true }))")
    address = browser.ask("return location.href")
    wanted = settings(browser)
    browser.call("Page.navigate", url="about:blank")
    browser.wait_until("location.href === 'about:blank'", 20)
    goto(browser, address)
    same("the settings of a link", settings(browser), wanted)
    same("what it shows", state(browser, "[s.channel, s.grid, s.weights]"), ["green", True, [3, 0, 1, 15]])
    goto(browser, address.split("#")[0])


def check_features(browser, folder):
    check_kinds(browser, folder)
    check_forms(browser)
    check_results(browser, folder)
    check_looks(browser)
    check_panel(browser)
    check_link(browser)
    print("page: kinds set their settings and the form of normals, PSNR follows the weights, any result is shown beside another, the list is a table, the panel folds, and a link keeps settings")
