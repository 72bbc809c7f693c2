"""How an image stands on the canvas: zooms above and below 1, the middle, drags, levels and images, the line between both, and both side by side."""
from browser import Wrong
from common import constant_block, opened, packed_by_page, pam, pixels, plain_ktx, read, same, set_pack, state, tell, texels_of, unpacked, write

ZOOMS = ["1:32", "1:24", "1:20", "1:16", "1:12", "1:10", "1:8", "1:6", "1:5", "1:4", "1:3", "1:2", "1:1", "2:1", "3:1", "4:1", "5:1", "6:1", "8:1", "10:1", "12:1", "16:1", "20:1", "24:1", "32:1"]


def averaged(width, height, texels, unit):
    """The means of each unit by unit texels, to the nearest, halves up; rows of red, green and blue."""
    rows = []
    for top in range(0, height, unit):
        row = []
        for left in range(0, width, unit):
            own = [4 * (width * y + x) for y in range(top, min(height, top + unit)) for x in range(left, min(width, left + unit))]
            row.append(tuple((2 * sum(texels[at + c] for at in own) + len(own)) // (2 * len(own)) for c in range(3)))
        rows.append(row)
    return rows


def corner(browser, pane=0):
    return browser.ask(f"await painted(); return astcPage.view.cornerIn(astcPage.view.panes[{pane}])")


def sides(browser):
    return browser.ask("const view = document.getElementById('view'); return [view.width, view.height]")


def check_means(browser, width, height, texels, what, units):
    for unit in units:
        browser.ask(f"astcPage.change({{ zoom: 1 / {unit}, left: 0, top: 0, channel: 'opaque', mode: astcPage.state.texture ? 'texture' : 'source' }})")
        wanted = averaged(width, height, texels, unit)
        across, down = len(wanted[0]), len(wanted)
        same(f"{what} at 1:{unit}", pixels(browser, 0, 0, across, down), [one for row in wanted for one in row])
        room = sides(browser)
        same(f"where {what} stands at 1:{unit}", corner(browser), [(room[0] - across) // 2, (room[1] - down) // 2])


def check_steps(browser):
    """The buttons go through all zooms, and Fit shows the whole."""
    browser.ask("astcPage.change({ zoom: 1 / 32 })")
    browser.ask("astcPage.follow()")
    found = [browser.ask("return document.getElementById('zoom').textContent")]
    for _ in range(len(ZOOMS)):
        browser.click("zoom-in")
        found.append(browser.ask("return document.getElementById('zoom').textContent"))
    same("the zooms up", found, [*ZOOMS, ZOOMS[-1]])
    for wanted in [*ZOOMS[-2::-1], ZOOMS[0]]:
        browser.click("zoom-out")
        same("a zoom down", browser.ask("return document.getElementById('zoom').textContent"), wanted)


def check_fit(browser, width, height):
    browser.click("fit")
    room = sides(browser)
    inverse = max(-(-width // room[0]), -(-height // room[1]))
    wanted = min(room[0] // width, room[1] // height, 32) if inverse == 1 else 1 / inverse
    same("the zoom of Fit", state(browser, "s.zoom"), wanted)


def check_zoom(browser, folder):
    """A picture and a texture that are larger than the window, at 1:2 to 1:32, as the means of their texels, with more blocks a row than a call takes; levels fitted anew."""
    width, height = 1101, 707
    texels = texels_of(width, height, lambda x, y: (x * 5 + y, (x * y) >> 2, (x ^ y) * 3, 255))
    opened(browser, pam(width, height, texels), "wide.pam")
    same("a large picture is fitted", state(browser, "s.zoom < 1"), True)
    check_means(browser, width, height, texels, "a picture", (2, 7, 32))
    made, _, _ = packed_by_page(browser, pam(width, height, texels), "wide.pam", ["8x5", "flat", "levels=full"], 4)
    write(f"{folder}/wide.pam", pam(width, height, texels))
    same("pack", tell("pack", f"{folder}/wide.pam", f"{folder}/wide.ktx", "8x5", "flat", "levels=full")[0], 0)
    same("a pack of long rows, in pieces", made == read(f"{folder}/wide.ktx"), True)
    _, _, shown = unpacked(folder, made)[0]
    check_means(browser, width, height, shown, "a texture", (3, 8))
    check_steps(browser)
    for level in (0, 3, 6, 9):
        browser.ask(f"astcPage.change({{ zoom: 3 }}); put('level', {level})")
        own = (max(1, width >> level), max(1, height >> level))
        fitted = state(browser, "s.zoom")
        check_fit(browser, *own)
        same(f"the zoom at which level {level} comes", fitted, state(browser, "s.zoom"))
    print("page: a picture and a texture of 1,101 by 707 stand whole in the window's middle, below 1:1 as the means of their texels; zooms go from 1:32 to 32:1; levels are fitted anew")


def at_canvas(browser, x, y):
    """The place in the window of a place of the canvas."""
    left, top = browser.ask("const box = document.getElementById('view').getBoundingClientRect(); return [box.x, box.y]")
    return left + x, top + y


def check_drag(browser, _):
    browser.ask("put('level', 0); astcPage.change({ mode: 'texture', zoom: 2, left: 300, top: 200 })")
    browser.drag(at_canvas(browser, 400, 300), at_canvas(browser, 300, 340))
    same("what a drag moves", state(browser, "[s.left, s.top, s.selected]"), [350, 180, None])
    browser.mouse("mouseMoved", *at_canvas(browser, 240, 120))
    texel = browser.ask("return astcPage.view.blockUnder(240, 120).texel")
    x, y = at_canvas(browser, 240, 120)
    browser.call("Input.dispatchMouseEvent", type="mouseWheel", x=x, y=y, deltaX=0, deltaY=-120)
    browser.wait_until("astcPage.state.zoom === 3", 10)
    same("the texel under the wheel", browser.ask("return astcPage.view.blockUnder(240, 120).texel"), texel)
    fingers = [[at_canvas(browser, 480 - far, 330), at_canvas(browser, 480 + far, 330)] for far in (40, 60, 80)]
    browser.touch(*fingers)
    same("what two fingers zoom", state(browser, "s.zoom"), 6)
    before = state(browser, "s.left")
    browser.touch(*([at_canvas(browser, x, 200)] for x in (300, 290, 240)))
    same("what one finger moves", state(browser, "s.left"), before + 10)
    print("page: a drag moves the image, the wheel zooms about the pointer, and two fingers zoom")


def two_colours(browser, width=40, height=24):
    """A red texture, and a blue source of it."""
    red = constant_block((65535, 0, 0, 65535))
    opened(browser, plain_ktx(width, height, 0x93B0, [red] * ((width // 4) * (height // 4))), "red.ktx")
    opened(browser, pam(width, height, bytes((0, 0, 255, 255)) * (width * height)), "blue.pam")
    browser.ask("""window.names = []; const write = CanvasRenderingContext2D.prototype.fillText;
        window.unspied = () => { CanvasRenderingContext2D.prototype.fillText = write; };
        CanvasRenderingContext2D.prototype.fillText = function (text, x, y) { names.push([text, x]); write.call(this, text, x, y); };""")


def named(browser):
    """The names that stand on the canvas, and where; a painting that was due may come beside this one."""
    return list(dict.fromkeys(map(tuple, browser.ask("names.length = 0; astcPage.view.draw(); await painted(); return names"))))


def check_halves(browser, across, down):
    """Left of the line red, right of it blue, except for the line and the names."""
    row = pixels(browser, 0, down - 2, across, 1)
    line = browser.ask("const view = astcPage.view; return Math.round(view.state.split * view.sides[0] * view.state.zoom)")
    same("left of the line", set(row[:max(0, line - 2)]), {(255, 0, 0)} if line > 2 else set())
    same("right of the line", set(row[line + 2:]), {(0, 0, 255)} if line + 2 < across else set())
    return line


def check_line(browser, _):
    two_colours(browser)
    browser.ask("put('mode', 'split'); astcPage.change({ zoom: 8, split: 0.25, channel: 'opaque' })")
    left, top = corner(browser)
    same("where the line is", check_halves(browser, 320, 192), 80)
    found = dict(named(browser))
    if not (set(found) == {"texture", "source"} and found["texture"] < left + 80 < found["source"]):
        raise Wrong(f"the halves are named {found}, with the line at {left + 80}")
    handle = left + 80, top + 96
    same("what is in the handle's middle", pixels(browser, 80, 96, 1, 1), [(255, 255, 255)])
    browser.drag(at_canvas(browser, *handle), at_canvas(browser, handle[0] + 120, handle[1] + 5))
    same("where the handle is dragged to", state(browser, "s.split"), 200 / 320)
    check_halves(browser, 320, 192)
    browser.ask("astcPage.change({ zoom: 5 })")
    same("the line at another zoom", check_halves(browser, 200, 120), 125)
    for left, split, wanted in ((12, 0.1, ["source"]), (0, 0.9, ["texture"])):
        browser.ask(f"astcPage.change({{ zoom: 32, left: {left}, top: 0, split: {split} }})")
        same("the name where the line is out of sight", [text for text, _ in named(browser)], wanted)
    browser.ask("unspied()")
    print("page: the line between both belongs to the picture, its handle is dragged, and each half is named")


def check_order(browser, _):
    """What is in sight is packed first, then the rest from its beginning; and what comes in sight meanwhile, as soon as the calls that wait are done."""
    side = 240
    opened(browser, pam(side, side, texels_of(side, side, lambda x, y: (x * y, x ^ y, x * 3, 255))), "order.pam")
    set_pack(browser, ["4x4", "quick"], 1)
    areas, early, late = browser.ask("""const { view } = astcPage, all = [], sights = [];
        astcPage.change({ zoom: 32, left: 100, top: 190 }); const job = astcPage.pack(), { making } = astcPage.state, put = making.put;
        making.put = (area, texels) => { all.push(area); put.call(making, area, texels); };
        const sight = () => { const [pane] = view.panes, { left, top, zoom } = astcPage.state; return [left, top, left + pane.width / zoom, top + pane.height / zoom]; };
        while (all.length < 3) await new Promise((go) => setTimeout(go, 5));
        sights.push(sight()); const before = all.length; view.change({ left: 200, top: 70 }); sights.push(sight());
        while (all.length < before + 4) await new Promise((go) => setTimeout(go, 5));
        document.getElementById('stop').click(); await job; return [[...all.slice(0, 3), ...all.slice(before)], ...sights];""")
    is_in = lambda area, sight: area["left"] < sight[2] and area["top"] < sight[3] and area["left"] + area["across"] > sight[0] and area["top"] + area["down"] > sight[1]
    same("which of the first three pieces are in sight", [is_in(area, early) for area in areas[:3]], [True, True, False])
    same("where the rest begins", [areas[2]["left"], areas[2]["top"]], [0, 0])
    if not any(is_in(area, late) for area in areas[3:7]):
        raise Wrong(f"the pieces {areas[3:7]} are packed after {late} has come in sight")
    calls = browser.ask("""put('workers', 4); let count = 0; const job = astcPage.pack(), { making } = astcPage.state, own = making.put;
        making.put = (...words) => { count += 1; own.call(making, ...words); }; await job; return count;""")
    same("the calls of four workers for a small picture", calls, 16)
    print("page: what is in sight is packed first, also what comes in sight later, and a small picture is packed in few calls")


def check_side(browser, _):
    two_colours(browser, 400, 240)
    browser.ask("put('mode', 'side'); astcPage.change({ zoom: 2, channel: 'opaque' })")
    for left, top in ((0, 0), (60, 10)):
        browser.ask(f"astcPage.change({{ left: {left}, top: {top} }})")
        panes = browser.ask("return astcPage.view.panes")
        same("names", [text for text, _ in named(browser)], ["texture", "source"])
        for k, colour in enumerate(((255, 0, 0), (0, 0, 255))):
            x, y = (own - from_ for own, from_ in zip((panes[k]["x"], panes[k]["y"]), corner(browser, k)))
            same(f"the corner in half {k}", [x, y], [x, y] if k == 0 else first)
            first = [x, y]
            same(f"half {k}", set(pixels(browser, x + 20, y + 60, panes[k]["width"] - 40, 20, k)), {colour})
    before = corner(browser, 0), corner(browser, 1)
    browser.drag(at_canvas(browser, panes[1]["x"] + 100, 200), at_canvas(browser, panes[1]["x"] + 60, 200))
    after = corner(browser, 0), corner(browser, 1)
    same("both halves move together", [a[0] - b[0] for a, b in zip(before, after)], [40, 40])
    browser.ask("unspied(); put('mode', 'texture')")
    print("page: side by side texture and source are named, and moved and zoomed together")
