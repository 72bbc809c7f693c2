"""The page by keys alone: each key that it lists, and each control that Tab reaches."""
import os
import time

from browser import Browser, Wrong
from common import opened, pam, pictures, read, same, set_pack, state, status_begins, texels_of, write

SIDE = 64


def canvas(browser):
    """A number of what stands on the canvas."""
    return browser.ask("""await painted(); const view = document.getElementById('view'); let sum = 0;
        for (const word of new Uint32Array(view.getContext('2d').getImageData(0, 0, view.width, view.height).data.buffer)) sum = (sum * 31 + word) % 4294967291;
        return sum;""")


def press(browser, key, expression, wanted, shift=False):
    """A key that changes the state to this, and what stands on the canvas."""
    before = canvas(browser)
    browser.key(key, shift)
    same(f"{'Shift ' if shift else ''}{key}: {expression}", state(browser, expression), wanted)
    if canvas(browser) == before:
        raise Wrong(f"{key} doesn't change the canvas")


# ---- each key that is listed, in an order in which each finds what it wants


def press_open(browser, folder):
    images = [texels_of(SIDE, SIDE, lambda x, y, k=k: (x * 4, y * 3 + 50 * k, (x * y) >> 3, 255 - x - y)) for k in range(2)]
    write(f"{folder}/two.pam", b"".join(pam(SIDE, SIDE, texels) for texels in images))
    browser.choose(lambda: browser.key("o"), [f"{folder}/two.pam"])
    browser.wait_until("document.getElementById('ask').open || told()[0].startsWith('two.pam')", 20)
    browser.ask("document.getElementById('ask').open && document.getElementById('ask-yes').click()")
    status_begins(browser, "two.pam: 64 by 64, 2 images")


def press_pack(browser, _):
    set_pack(browser, ["6x6", "flat", "levels=full"], 4)
    browser.ask("put('images', 'array')")
    browser.key("p")
    status_begins(browser, "pack: done")
    same("what is packed", state(browser, "[s.texture.images, s.texture.levels, s.texture.blockWidth]"), [2, 7, 6])


def press_result(browser, _):
    """From what was made last to the first of what was made here, and on to what the next keys want."""
    made = state(browser, "s.texture.serial")
    set_pack(browser, ["8x8", "flat", "levels=full"], 4)
    browser.key("p")
    browser.wait_until("astcPage.state.texture.blockWidth === 8 && !astcPage.busy")
    serials = browser.ask("return astcPage.results.all.map((result) => result.texture.serial)")
    same("how many results are listed", browser.ask("return [...document.querySelectorAll('#made-list button')].map((one) => one.checkVisibility())"), [True] * len(serials))
    for wanted in serials:
        browser.key("r")
        same("the result", state(browser, "s.texture.serial"), wanted)
        same("the row that is marked", browser.ask("return [...document.querySelectorAll('#made-list button')].map((one) => one.ariaPressed)"), [str(one == wanted).lower() for one in serials])
        if wanted == made:
            return
    raise Wrong("r never comes to what was packed before")


def press_worst(browser, _):
    """The block that is furthest from its source by the measure, then the second."""
    order = browser.ask("""await painted(); while (!astcPage.view.measure()) await new Promise((go) => setTimeout(go, 10));
        const own = astcPage.view.measure().errors([1, 1, 1, 1]).all; return [...own.keys()].sort((a, b) => own[b] - own[a] || a - b)""")
    place = "s.selected.row * s.texture.gridAt(s.level)[0] + s.selected.column"
    for wanted in order[:2]:
        press(browser, "w", place, wanted)


def press_source(browser, folder):
    browser.ask("astcPage.state.source = null")
    browser.choose(lambda: browser.key("s"), [f"{folder}/two.pam"])
    status_begins(browser, "two.pam is the source now")
    same("the mode", state(browser, "s.mode"), "split")


def press_audit(browser, _):
    set_pack(browser, ["6x6", "quick"], 4)
    browser.key("a")
    status_begins(browser, "audit: ")
    same("marks", state(browser, "s.marks.length"), 7)


def press_next_bad(browser, _):
    selected = "s.selected && [s.selected.column, s.selected.row]"
    is_bad = "(() => { const at = 8 * (s.selected.row * s.texture.gridAt(0)[0] + s.selected.column), own = s.marks[0][0]; return !(own[at + 4] && own[at + 5] && own[at + 6]); })()"
    browser.key("n")
    first = state(browser, selected)
    same("the block is bad", state(browser, is_bad), True)
    browser.key("n")
    same("the next is bad", state(browser, is_bad), True)
    if state(browser, selected) == first:
        raise Wrong("n stays at a block")


def press_arrows(browser, _):
    browser.ask("astcPage.view.select(null); astcPage.view.zoomToFit(); astcPage.change({ mode: 'texture', channel: 'opaque' })")
    where = "[s.selected.column, s.selected.row]"
    for key, wanted in (("ArrowRight", [0, 0]), ("ArrowRight", [1, 0]), ("ArrowDown", [1, 1]), ("ArrowLeft", [0, 1]), ("ArrowUp", [0, 0])):
        press(browser, key, where, wanted)
    facts = browser.ask("return document.getElementById('told').innerText")
    if "column 0, row 0" not in facts:
        raise Wrong(f"the facts of a block are {facts!r}")


def press_shifted_arrows(browser, _):
    browser.ask("astcPage.change({ zoom: 32, left: 0, top: 0 })")
    for key, wanted in (("ArrowRight", [2, 0]), ("ArrowDown", [2, 2]), ("ArrowLeft", [0, 2]), ("ArrowUp", [0, 0])):
        press(browser, key, "[s.left, s.top]", wanted, shift=True)


def press_zoom(browser, _):
    browser.ask("astcPage.change({ zoom: 3 })")
    told = "[s.zoom, document.getElementById('zoom').textContent]"
    press(browser, "+", told, [4, "4:1"])
    press(browser, "-", told, [3, "3:1"])


def press_fit(browser, _):
    zoom = browser.ask(f"const view = document.getElementById('view'); return Math.floor(Math.min(view.width, view.height) / {SIDE})")
    press(browser, "f", "s.zoom", zoom)


def press_level(browser, _):
    press(browser, "]", "[s.level, Number(document.getElementById('level').value)]", [1, 1])
    press(browser, "[", "s.level", 0)
    press(browser, "[", "s.level", 6)
    press(browser, "]", "s.level", 0)


def press_image(browser, _):
    press(browser, ".", "[s.image, Number(document.getElementById('image').value)]", [1, 1])
    press(browser, ",", "s.image", 0)


def press_channel(browser, _):
    for channel in ("red", "green", "blue", "alpha", "normal", "over", "opaque"):
        press(browser, "c", "s.channel", channel)


def press_mode(browser, _):
    for mode in ("source", "split", "side", "difference", "errors", "texture"):
        press(browser, "m", "s.mode", mode)


def press_grid(browser, _):
    browser.ask("astcPage.change({ marks: null })")
    press(browser, "g", "[s.grid, document.getElementById('grid').checked]", [True, True])
    press(browser, "G", "s.grid", False, shift=True)


def press_line(browser, _):
    browser.ask("astcPage.change({ mode: 'split', split: 0.5 })")
    press(browser, ">", "s.split", 0.55, shift=True)
    press(browser, "<", "s.split", 0.5, shift=True)


def press_flavour(browser, folder):
    opened(browser, read(f"{folder}/plain.astc"), "plain.astc")
    browser.ask("astcPage.change({ channel: 'opaque' })")
    told = "[s.texture.format, document.getElementById('shown-as').value]"
    press(browser, "l", told, [0x93D4, "srgb"])
    press(browser, "l", told, [0x93B4, "linear"])


def press_escape(browser, _):
    big = texels_of(200, 200, lambda x, y: (x * y, x ^ y, x * 3 + y * 7, 255))
    opened(browser, pam(200, 200, big), "big.pam")
    set_pack(browser, ["4x4", "thorough"], 2)
    browser.ask("put('images', 'one')")
    browser.key("p")
    browser.wait_until("astcPage.busy")
    time.sleep(0.3)
    browser.key("Escape")
    status_begins(browser, "pack: stopped")
    browser.key("ArrowRight")
    press(browser, "Escape", "s.selected", None)


def press_help(browser, _):
    is_open = "return document.getElementById('keys').open"
    for close in ("Escape", "Enter"):
        browser.key("?", shift=True)
        same("the keys are shown", browser.ask(is_open), True)
        browser.key("g")
        same("a key behind the dialog", state(browser, "s.grid"), False)
        browser.key(close)
        browser.wait_until("!document.getElementById('keys').open", 10)


KEYS = {
    "O": press_open, "P": press_pack, "R": press_result, "S": press_source, "W": press_worst, "A": press_audit, "N": press_next_bad, "arrows": press_arrows, "Shift with arrows": press_shifted_arrows,
    "+ and -": press_zoom, "F": press_fit, "[ and ]": press_level, ", and .": press_image, "C": press_channel, "M": press_mode, "G": press_grid, "< and >": press_line,
    "L": press_flavour, "Escape": press_escape, "?": press_help,
}


def check_keys(browser, folder):
    browser.ask("document.activeElement.blur()")
    listed = browser.ask("return [...document.querySelectorAll('#key-list dt')].map((term) => term.textContent)")
    same("the keys that the page lists", sorted(listed), sorted(KEYS))
    for act in KEYS.values():
        act(browser, folder)
    print(f"page: each of the {len(KEYS)} rows of keys that the page lists does what it says")


# ---- each control by Tab

CONTROLS = "[...document.querySelectorAll('button, select, input, summary, a[href], [tabindex]')].filter((one) => one.checkVisibility() && !one.disabled)"


def check_control(browser, at):
    """What has the focus is named for readers of screens, and is seen to have it."""
    label = browser.ask(f"return controls[{at}].id || controls[{at}].textContent")
    [node, *_] = browser.call("Accessibility.getPartialAXTree", objectId=browser.object(f"controls[{at}]"), fetchRelatives=False)["nodes"]
    name, role = (node.get(word, {}).get("value", "").strip() for word in ("name", "role"))
    if node["ignored"] or name == "" or role in ("", "generic", "none"):
        raise Wrong(f"{label} is {role!r} with the name {name!r} to a reader of screens")
    outline, clip = browser.ask(f"""const own = getComputedStyle(controls[{at}]), box = controls[{at}].getBoundingClientRect();
        return [own.outlineStyle === 'none' ? 0 : parseFloat(own.outlineWidth), {{ x: box.x - 4, y: box.y - 4, width: box.width + 8, height: box.height + 8 }}]""")
    focused = browser.screenshot(clip=clip)
    browser.ask("document.activeElement.blur()")
    if outline < 2 or browser.screenshot(clip=clip) == focused:
        raise Wrong(f"the focus of {label} isn't seen: an outline of {outline} px")
    browser.ask(f"controls[{at}].focus({{ preventScroll: true }})")
    return role, name


def tab_to(browser, name):
    for _ in range(60):
        browser.key("Tab")
        if browser.ask("return document.activeElement.id") == name:
            return
    raise Wrong(f"Tab doesn't reach {name}")


def check_tab(browser):
    count = browser.ask(f"window.controls = {CONTROLS}; return controls.length")
    order, names = [], []
    for _ in range(2 * count + 4):
        browser.key("Tab")
        at, other = browser.ask("const own = document.activeElement; return [controls.indexOf(own), own === document.body ? '' : own.outerHTML.slice(0, 90)]")
        if at < 0 and other:
            raise Wrong(f"Tab reaches {other}")
        if at >= 0 and at not in order:
            order.append(at)
            names.append(check_control(browser, at))
    same("the controls that Tab reaches", sorted(order), list(range(count)))
    same("the order of Tab", order, [*range(order[0], count), *range(order[0])])
    same("names that several controls have", sorted(set(own for own in names if names.count(own) > 1)), [])
    return count


def check_use(browser, folder):
    """Controls of each kind, used by keys from Tab on."""
    value = "document.getElementById('{}').value".format
    for name, key, expression, wanted in (
            ("footprint", "ArrowDown", value("footprint"), "5"), ("channel", "ArrowDown", "s.channel", "opaque"), ("split", "ArrowRight", "s.split", 0.51), ("grid", " ", "s.grid", True),
            ("weight-2", "7", value("weight-2"), "7"), ("shown-as", "ArrowDown", "s.texture.format", 0x93D4), ("zoom-in", "Enter", "s.zoom", 3),
            ("mode", "ArrowDown", "s.mode", "side"), ("mode", "ArrowDown", "s.mode", "difference"), ("gain", "ArrowUp", "s.gain", 4)):
        tab_to(browser, name)
        browser.key(key)
        same(f"{key} at {name}", state(browser, expression), wanted)
    tab_to(browser, "sums")
    browser.key("Enter")
    browser.wait_until("!astcPage.busy && told()[0] === 'sums of squared differences: see the report'")
    same("the focus after sums", browser.ask("return document.activeElement.id"), "sums")
    browser.call("Browser.setDownloadBehavior", behavior="allow", downloadPath=f"{folder}/saved")
    tab_to(browser, "save-astc")
    browser.key("Enter")
    same("what is saved by keys", Browser.wait_for(f"{folder}/saved/plain_0_0.astc") == read(f"{folder}/plain.astc"), True)


def check_made_by_tab(browser):
    """A row of what was made here, chosen by keys, keeps the focus."""
    rows = "[...document.querySelectorAll('#made-list button')]"
    browser.ask(f"{rows}[0].focus()")
    browser.key("Enter")
    same("the row that is chosen", browser.ask(f"return [{rows}.indexOf(document.activeElement), {rows}[0].ariaPressed]"), [0, "true"])


def check_stop_by_tab(browser):
    browser.ask("put('preset', 'thorough')")
    tab_to(browser, "pack")
    browser.key(" ")
    browser.wait_until("astcPage.busy")
    tab_to(browser, "stop")
    browser.key("Enter")
    status_begins(browser, "pack: stopped")
    same("the focus after a stop", browser.ask("return document.activeElement.id"), "pack")


def check_focus(browser, folder):
    os.makedirs(f"{folder}/saved", exist_ok=True)
    opened(browser, read(f"{folder}/plain.astc"), "plain.astc")
    opened(browser, read(f"{folder}/{pictures()[0][0]}.pam"), "source.pam")
    set_pack(browser, ["6x6", "quick"], 2)
    browser.ask("document.querySelectorAll('details').forEach((one) => { one.open = true; })")
    browser.ask("await astcPage.sums(); astcPage.change({ zoom: 2, channel: 'over', gain: 8, split: 0.5, grid: false }); put('split', 50); astcPage.view.select(null)")
    count = check_tab(browser)
    check_use(browser, folder)
    check_stop_by_tab(browser)
    check_made_by_tab(browser)
    print(f"page: Tab reaches the {count} controls that are shown, each named and seen to have the focus; lists, fields, buttons and the line are used by keys, and a job gives the focus back")
