"""What is seen first, and where things stand: at 1,280 by 800, at 390 by 844, and dark."""
import base64
import re
import subprocess

from browser import Wrong
from common import TOP, goto, opened, pam, pictures, read, same, set_pack, tell, texels_of, write

WINDOWS = ((1280, 800, False), (390, 844, False), (1280, 800, True), (390, 844, True))
ALWAYS = ["open", "help"]
FIRST = [*ALWAYS, "welcome-open", "sample"]

SEEN = """window.seen = () => [...document.querySelectorAll('button, select, input, summary')].filter((own) => own.checkVisibility()).map((own) => own.id || own.textContent);
window.boxOf = (own) => { const { left, top, right, bottom } = own.getBoundingClientRect(); return [left, top, right, bottom]; };"""


def check_window(browser, what):
    """Nothing is wider than the window, what is in the header stands in this many rows, and each control has a tooltip and can be read against its ground."""
    width, height = browser.ask("return [innerWidth, innerHeight]")
    same(f"{what}: how wide and high all is", browser.ask("return [document.documentElement.scrollWidth, document.documentElement.scrollHeight]"), [width, height])
    wide, room = browser.ask("const own = document.querySelector('aside'); return [own.scrollWidth, own.clientWidth]")
    same(f"{what}: how wide the settings are", wide, room)
    tops = browser.ask("return [...document.querySelectorAll('header button, header select, header input')].filter((own) => own.checkVisibility()).map((own) => (boxOf(own)[1] + boxOf(own)[3]) / 2)")
    rows = 1 + sum(after - before > 12 for before, after in zip(sorted(tops), sorted(tops)[1:]))
    if rows > (1 if width > 760 else 2):
        raise Wrong(f"{what}: the header has {rows} rows")
    right = browser.ask("return Math.max(...[...document.querySelectorAll('header button, header select, header input')].filter((own) => own.checkVisibility()).map((own) => boxOf(own)[2]))")
    if right > width:
        raise Wrong(f"{what}: the header ends at {right} of {width}")
    bare = browser.ask("return [...document.querySelectorAll('button, select, input, summary')].filter((own) => own.checkVisibility() && !own.title).map((own) => own.id || own.textContent)")
    same(f"{what}: controls without a tooltip", bare, [])


def check_first(browser, address):
    """Nothing is there but a large place to drop or open, a sample, Open and Keys."""
    for width, height, dark in WINDOWS:
        browser.size(width, height, dark)
        goto(browser, f"{address}/index.html")
        browser.ask(SEEN)
        what = f"{width} by {height}{', dark' if dark else ''}, empty"
        check_window(browser, what)
        same(f"{what}: controls", sorted(set(browser.ask("return seen()")) - {"install"}), sorted(FIRST))
        left, top, right, bottom = browser.ask("return boxOf(document.getElementById('welcome'))")
        if (right - left) * (bottom - top) < 0.7 * width * height:
            raise Wrong(f"{what}: the place to drop has {right - left} by {bottom - top}")
        same(f"{what}: the note for pages without a server", browser.ask("return document.getElementById('unserved')"), None)
        light = browser.ask("return getComputedStyle(document.body).backgroundColor")
        same(f"{what}: the ground", light == "rgb(255, 255, 255)", not dark)
    browser.size(1280, 800)


def check_sample(browser, folder):
    """The sample is packed before one's eyes: half done its upper rows are bright, the lower ones dark; it is the scene of the examples, and the program's texture of it with
    fitted blocks."""
    browser.ask("""window.grounds = []; const watch = setInterval(() => { const { making } = astcPage.state; if (!making) return;
        const view = document.getElementById('view'), [x, y] = astcPage.view.cornerIn(astcPage.view.panes[0]), own = view.getContext('2d');
        const at = (row) => own.getImageData(x + 200, y + row, 1, 1).data[2];
        grounds.push([document.getElementById('progress').value, at(20), at(300)]); }, 10); window.unwatch = () => clearInterval(watch);""")
    # By one worker, since several may be done before a frame is shown.
    browser.ask("window.workersBefore = document.getElementById('workers').value; put('workers', '1'); astcPage.workers.stop()")
    browser.click("sample")
    browser.wait_until("told()[0].startsWith('pack: done')")
    browser.ask("unwatch(); put('workers', window.workersBefore); astcPage.workers.stop()")
    rows = browser.ask("return grounds")
    if not any(above > 200 and below < 130 for _, above, below in rows):
        raise Wrong(f"the sample isn't seen as it is packed: {rows[:40]}")
    scene = f"{folder}/scene.pam"
    subprocess.run([f"{TOP}/examples/make_scene", scene], check=True)
    same("the sample", base64.b64decode(browser.ask("return textOf(astcPage.state.source.texelsAt(0, 0))")) == read(scene)[-4 * 288 * 192:], True)
    same("part", tell("part", scene, f"{folder}/scene.part", "0", "1", "6x6", "quick", "fitted")[0], 0)
    same("join", tell("join", f"{folder}/scene.ktx", f"{folder}/scene.part")[0], 0)
    same("the texture of the sample", base64.b64decode(browser.ask("return textOf(astcPage.state.texture.bytes)")) == read(f"{folder}/scene.ktx"), True)
    same("it is shown with its source", browser.ask("return astcPage.state.mode"), "split")


def check_controls(browser, folder):
    """What means nothing yet isn't there."""
    name, width, height, texels, _ = pictures()[1]
    only = ["mode", "gain", "split", "level", "image", "grid", "polish", "audit", "save-ktx", "worst", "open-source", "pack", "shown-as", "next-bad", "save-png"]
    shown = lambda: sorted(set(browser.ask("return seen()")) & set(only))
    opened(browser, pam(1, 1, bytes(4)), "one.pam")
    same("with a picture of one texel", shown(), ["pack", "save-png"])
    opened(browser, read(f"{folder}/{name}.ktx"), "t.ktx")
    same("with a texture", shown(), ["grid", "open-source", "save-ktx", "save-png"])
    opened(browser, pam(width, height, texels), "s.pam")
    both = ["audit", "grid", "mode", "open-source", "pack", "polish", "save-ktx", "save-png", "worst"]
    for mode, more in (("texture", []), ("split", ["split"]), ("side", []), ("difference", ["gain"]), ("errors", [])):
        browser.ask(f"put('mode', '{mode}')")
        same(f"with both, as {mode}", shown(), sorted([*both, *more]))


def check_busy(browser, what):
    """Settings stand above facts, and Stop is in sight and stops, wherever one has scrolled."""
    browser.ask("document.querySelector('aside').scrollTop = 1e6")
    tops = browser.ask("return ['pack-form', 'numbers', 'shape'].map((id) => boxOf(document.getElementById(id))[1])")
    same(f"{what}: settings, numbers, facts", tops, sorted(tops))
    browser.key("p")
    browser.wait_until("astcPage.busy && document.getElementById('left').textContent.includes(' left')", 60)
    said = browser.ask("return document.getElementById('left').textContent")
    if not re.fullmatch(r"[\d,]+ of [\d,]+ blocks, \d+ (s|min), about [\d.]+ (s|min|h) left", said):
        raise Wrong(f"{what}: the progress is {said!r}")
    check_window(browser, f"{what}, busy")
    box, window = browser.ask("return [boxOf(document.getElementById('stop')), [innerWidth, innerHeight]]")
    if not (box[0] >= 0 and box[1] >= 0 and box[2] <= window[0] and box[3] <= window[1] and box[2] > box[0]):
        raise Wrong(f"{what}: Stop stands at {box} in {window}")
    browser.click("stop")
    browser.wait_until("!astcPage.busy && told()[0] === 'pack: stopped'")


def check_states(browser, folder):
    """The widest state: levels, faces, a line; then a job."""
    side = 96
    images = [texels_of(side, side, lambda x, y, k=k: (x * 3 + k * 20, y * 5, x ^ y, 255)) for k in range(6)]
    write(f"{folder}/faces.pam", b"".join(pam(side, side, texels) for texels in images))
    same("pack", tell("pack", f"{folder}/faces.pam", f"{folder}/faces.ktx", "8x8", "flat", "levels=full", "cube")[0], 0)
    opened(browser, read(f"{folder}/faces.ktx"), "faces.ktx")
    opened(browser, read(f"{folder}/faces.pam"), "faces.pam")
    set_pack(browser, ["4x4", "thorough"], 2)
    for width, height, dark in WINDOWS:
        browser.size(width, height, dark)
        what = f"{width} by {height}{', dark' if dark else ''}"
        for mode in ("split", "difference", "errors"):
            browser.ask(f"document.activeElement.blur(); put('mode', '{mode}'); await painted()")
            check_window(browser, f"{what}, {mode}")
        same(f"{what}: all of the image is in sight", browser.ask("const { zoom } = astcPage.state, own = document.getElementById('view'); return 96 * zoom <= own.width && 96 * zoom <= own.height"), True)
        check_busy(browser, what)
    browser.size(1280, 800)


def check_seen(browser, folder, address):
    check_first(browser, address)
    check_sample(browser, folder)
    check_controls(browser, folder)
    check_states(browser, folder)
    browser.call("Emulation.clearDeviceMetricsOverride")
    print("page: at 1,280 by 800, 390 by 844 and dark the first screen is one place to drop, the sample is packed before one's eyes, the header has one and two rows, Stop is in sight, "
          "settings stand above facts, and each control has a tooltip and is there only where it means something")
