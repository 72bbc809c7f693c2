"""What is handed on: the view in a link, a result that is dragged out, a folder of faces that is dropped, and the settings of a texture that is opened."""
import base64
import os
import time

from browser import Wrong
from common import goto, measured, opened, pam, png, row_of, same, set_pack, state, status_begins, texels_of, text_of, write

SIDE = 256
SEEN = "[s.zoom, s.left, s.top, s.mode, s.channel, s.split, s.selected && [s.selected.column, s.selected.row]]"


def picture(side=SIDE):
    return pam(side, side, texels_of(side, side, lambda x, y: (x, y, x ^ y, 255)))


def away(browser):
    browser.call("Page.navigate", url="about:blank")
    browser.wait_until("location.href === 'about:blank'", 20)


def check_view(browser, address):
    """A link has the view and no name of a file; a file of the same sides gets it, and one of other sides does not. The user's own move is kept."""
    goto(browser, f"{address}/index.html")
    opened(browser, picture(), "secret.pam")
    set_pack(browser, ["8x8", "quick", "srgb"], 4)
    browser.ask("""await astcPage.pack(); put('mode', 'side'); put('channel', 'red'); astcPage.view.zoomTo(3, 0, 0); astcPage.view.change({ left: 97, top: 60 });
        astcPage.view.selectAt(14, 9); astcPage.change({ split: 0.25 }); await new Promise((go) => setTimeout(go, 500))""")
    wanted = state(browser, SEEN)
    browser.ask("window.copied = ''; Object.defineProperty(navigator, 'clipboard', { configurable: true, value: { writeText: async (text) => { copied = text; } } })")
    browser.click("copy-link")
    link = browser.ask("await new Promise((go) => setTimeout(go, 50)); return copied")
    same("the copied link", link, browser.ask("return location.href"))
    if "secret" in link or "&zoom=3&" not in link:
        raise Wrong(f"the link is {link}")
    away(browser)
    goto(browser, link)
    if "Open its picture or texture of 256 by 256 texels" not in text_of(browser, "welcome"):
        raise Wrong(f"a link without its file says {text_of(browser, 'welcome')!r}")
    opened(browser, picture(64), "other.pam")
    same("a picture of other sides", state(browser, "[s.zoom === 3, s.channel]"), [False, "red"])
    opened(browser, picture(), "own.pam")
    same("a picture of the same sides", state(browser, "[s.zoom, s.top]"), [3, 60])
    browser.ask("await astcPage.pack()")
    same("the view of the link", state(browser, SEEN), wanted)
    same("the address after it", browser.ask("await new Promise((go) => setTimeout(go, 500)); return location.href"), link)
    away(browser)
    goto(browser, link)
    opened(browser, picture(), "own.pam")
    browser.click("fit")
    browser.ask("await astcPage.pack()")
    same("the view after the user's move", state(browser, "[s.zoom === 3, s.mode]"), [False, "side"])
    goto(browser, f"{address}/index.html")


def check_drag(browser):
    """A row of the results is dragged out as its file."""
    opened(browser, picture(64), "dragged.pam")
    set_pack(browser, ["6x6", "flat"], 4)
    browser.ask("await astcPage.pack()")
    x, y = browser.ask("""const own = document.querySelector('#made-list button:last-child'), make = URL.createObjectURL; own.scrollIntoView(); window.dragged = null;
        URL.createObjectURL = (blob) => { const url = make.call(URL, blob); window.dragged = { blob, url }; return url; };
        const box = own.getBoundingClientRect(); return [box.x + 30, box.y + box.height / 2]""")
    browser.call("Input.setInterceptDrags", enabled=True)
    browser.mouse("mouseMoved", x, y)
    browser.mouse("mousePressed", x, y, buttons=1)
    for far in (5, 15, 40):
        browser.call("Input.dispatchMouseEvent", type="mouseMoved", x=x - far, y=y + far, button="left", buttons=1)
        time.sleep(0.1)
    items = browser.event("Input.dragIntercepted")["data"]["items"]
    same("what is dragged", [item["data"] for item in items], [f"application/octet-stream:dragged_6x6.ktx:{browser.ask('return dragged.url')}"])
    same("its bytes", browser.ask("return textOf(new Uint8Array(await dragged.blob.arrayBuffer())) === textOf(astcPage.state.texture.bytes)"), True)
    browser.mouse("mouseReleased", x - 40, y + 40)
    browser.call("Input.setInterceptDrags", enabled=False)


def dropped(browser, path):
    x, y = browser.ask("const box = document.getElementById('stage').getBoundingClientRect(); return [box.x + box.width / 2, box.y + box.height / 2]")
    for kind in ("dragEnter", "dragOver", "drop"):
        browser.call("Input.dispatchDragEvent", type=kind, x=x, y=y, data={"items": [], "files": [path], "dragOperationsMask": 1})


def check_folder(browser, folder):
    """A folder of six faces, dropped as it is, is a cube of colours with the folder's name; other files in it are left out, and a folder without any is refused."""
    opened(browser, picture(8), "small.pam")
    os.makedirs(f"{folder}/night/below")
    for k, name in enumerate(("right", "left", "top", "bottom", "front", "back")):
        write(f"{folder}/night/{name}.png", png(24, 24, texels_of(24, 24, lambda x, y, k=k: (x * 9 + 40 * k, y * 9, 0, 255))))
    write(f"{folder}/night/readme.txt", b"faces\n")
    browser.ask("put('kind', 'mask')")
    dropped(browser, f"{folder}/night")
    status_begins(browser, "night: 24 by 24, six faces: +X right.png, -X left.png, +Y top.png")
    same("the settings of a cube", browser.ask("return ['images', 'flavour', 'kind'].map((id) => document.getElementById(id).value)"), ["cube", "srgb", "colour"])
    set_pack(browser, ["6x6", "flat"], 4)
    browser.ask("await astcPage.pack(); put('image', '4')")
    measured(browser)
    same("the image that the numbers are of", row_of(browser, "measures", "image"), "face +Z")
    dropped(browser, f"{folder}/night/below")
    browser.wait_until("told()[1] === 'the folder below has no pictures and no textures'", 20)


def check_settled(browser, folder):
    """A texture that is opened sets block size and flavour. The handle of the line leaves the worst block free, and the block is seen enlarged."""
    opened(browser, picture(8), "small.pam")
    set_pack(browser, ["12x12", "flat", "srgb"], 4)
    opened(browser, picture(96), "settled.pam")
    browser.ask("await astcPage.pack()")
    ktx = base64.b64decode(browser.ask("return textOf(astcPage.state.texture.bytes)"))
    opened(browser, picture(8), "small.pam")
    set_pack(browser, ["4x4", "quick"], 4)
    opened(browser, ktx, "settled.ktx")
    same("the settings of a texture", browser.ask("return ['footprint', 'flavour'].map((id) => document.getElementById(id).value)"), ["13", "srgb"])
    write(f"{folder}/settled.pam", picture(96))
    browser.choose(lambda: browser.click("wanted-open"), [f"{folder}/settled.pam"])
    status_begins(browser, "settled.pam is the source now")
    measured(browser)
    browser.click("worst")
    zoom, begin, end, (x, y), radius, line = browser.ask("""const { lineOf } = await import('./source/overlays.js'); const { view, state: { selected, zoom } } = astcPage, [pane] = view.panes, [left, top] = view.cornerIn(pane);
        const line = lineOf(view); return [zoom, [left + selected.column * 12 * zoom, top + selected.row * 12 * zoom], [left + (selected.column + 1) * 12 * zoom, top + (selected.row + 1) * 12 * zoom], line.handle, line.radius, line.x]""")
    if zoom * 12 < 64 or not begin[0] < line < end[0]:
        raise Wrong(f"the worst block at {begin} to {end} has the line at {line}")
    if y - radius < end[1] and y + radius > begin[1]:
        raise Wrong(f"the handle at {x}, {y} hides the block at {begin} to {end}")


def check_shared(browser, folder, address):
    check_view(browser, address)
    check_drag(browser)
    check_folder(browser, folder)
    check_settled(browser, folder)
    goto(browser, f"{address}/index.html")
    print("page: a link has the view, which a file of the same sides gets, a result is dragged out as its file, a dropped folder of faces is a cube of colours, and a texture sets block size and flavour")
