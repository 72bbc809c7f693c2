"""What the page tells of texels, blocks and pictures, and of an audit, compared with sums from what the program shows."""
import base64
import math
import re

from browser import Wrong
from common import constant_block, measured, opened, pam, pictures, pixels, plain_ktx, read, row_of, same, set_pack, state, tell, text_of, unpacked, write
from looking import at_canvas, corner

CHANNELS = ("red", "green", "blue", "alpha")


def ratio(sum_, count):
    return f"{10 * math.log10(255 * 255 * count / sum_):.2f} dB"


def sums_of_blocks(width, height, sides, texels, others):
    """The error of each block, in rows."""
    columns, rows = -(-width // sides[0]), -(-height // sides[1])
    sums = [0] * (columns * rows)
    for y in range(height):
        for x in range(width):
            at = 4 * (width * y + x)
            sums[y // sides[1] * columns + x // sides[0]] += sum((a - b) ** 2 for a, b in zip(texels[at:at + 4], others[at:at + 4]))
    return columns, sums


def check_picture(browser, width, height, texels, others):
    """PSNR, largest difference, error and bits."""
    apart = [abs(a - b) for a, b in zip(texels, others)]
    squares = [sum(one * one for one in apart[c::4]) for c in range(4)]
    most = max(apart)
    [place] = re.findall(r", (\w+) at (\d+), (\d+)", row_of(browser, "measures", "largest difference"))
    at = 4 * (width * int(place[2]) + int(place[1])) + CHANNELS.index(place[0])
    same("the largest difference and where it is", (row_of(browser, "measures", "largest difference").split(",")[0], apart[at]), (str(most), most))
    same("PSNR RGB", row_of(browser, "measures", "PSNR RGB"), ratio(sum(squares[:3]), 3 * width * height))
    same("PSNR RGBA", row_of(browser, "measures", "PSNR RGBA"), ratio(sum(squares), 4 * width * height))
    same("the error", row_of(browser, "measures", "error"), f"{sum(squares):,}")
    same("bits per texel", row_of(browser, "measures", "bits per texel"), "8.00")


def signed(number):
    return f"+{number}" if number > 0 else f"−{-number}" if number < 0 else "0"


def check_texel(browser, width, texels, others):
    """Under the pointer: the texel in the texture, in the source, and the difference; by keys the selected block's first."""
    browser.ask("put('mode', 'texture'); astcPage.view.select(null); astcPage.change({ zoom: 8, left: 0, top: 0 })")
    left, top = corner(browser)
    for x, y in ((0, 0), (17, 9), (38, 32)):
        browser.mouse("mouseMoved", *at_canvas(browser, left + 8 * x + 4, top + 8 * y + 4))
        at = 4 * (width * y + x)
        own, other = texels[at:at + 4], others[at:at + 4]
        words = [" ".join(map(str, own)), " ".join(map(str, other)), " ".join(signed(a - b) for a, b in zip(own, other))]
        wanted = f"{x}, {y} texture {words[0]} source {words[1]} difference {words[2]}"
        same(f"the texel {x}, {y}", " ".join(text_of(browser, "texel").split()), wanted)


def check_block(browser, columns, sums):
    """A block's error and its share of all; the worst, the second and so on; and where the worst stands in the window."""
    total = sum(sums)
    order = sorted(range(len(sums)), key=lambda k: (-sums[k], k))
    for wanted in order[:3]:
        browser.click("worst")
        same("the worst block", row_of(browser, "told", "position"), f"column {wanted % columns}, row {wanted // columns}")
        share = float(f"{100 * sums[wanted] / total:.2g}")
        same("its error and its share", row_of(browser, "told", "error").split(";")[0], f"{sums[wanted]:,}, {share:g} % of all")
        wide, room = browser.ask("const own = document.querySelector('aside'); return [own.scrollWidth, own.clientWidth]")
        same("how wide what is told is", wide, room)
    seen = browser.ask("return document.getElementById('close-up').innerText.split(/\\s*\\n\\s*/)")
    same("its enlarged pictures", [name for name in seen if name != "partitions"], ["texture", "source", "8 x difference"])


def check_ends(browser):
    """The ends of blocks as colours: each swatch has the colour that is told beside it, and one colour is told as it is known."""
    rows = browser.ask("""return [...document.querySelectorAll('#told dt')].filter((one) => one.textContent === 'endpoints').map((one) => {
        const told = one.nextElementSibling; return [told.textContent, [...told.querySelectorAll('.swatch')].map((own) => getComputedStyle(own).backgroundImage)]; })""")
    if not rows:
        raise Wrong("no ends are told")
    for text, swatches in rows:
        ends = [list(map(int, end.split())) for end in re.findall(r"(\d+ \d+ \d+ \d+) to (\d+ \d+ \d+ \d+)", text)[0]]
        found = [list(map(int, re.match(r"linear-gradient\(rgba?\((\d+), (\d+), (\d+)", swatch).groups())) for swatch in swatches[-2:]]
        same("the ends as colours", found, [end[:3] for end in ends])
    opened(browser, plain_ktx(4, 4, 0x93B0, [constant_block((0x8000, 0x40FF, 0xFF00, 0x7FFF))]), "one.ktx")
    browser.ask("astcPage.view.moveSelection(0, 0)")
    same("one colour", [row_of(browser, "told", "type"), row_of(browser, "told", "colour").strip()], ["one colour", "128 64 255 127"])
    opened(browser, plain_ktx(4, 4, 0x93B0, [bytes(16)]), "none.ktx")
    browser.ask("astcPage.view.moveSelection(0, 0)")
    same("no block", row_of(browser, "told", "type").split(":")[0], "invalid")


def heat(mean):
    t = min(1, math.log2(1 + mean) / 12)
    return tuple(math.floor(255 * min(1, max(0, 3 * t - part)) + 0.5) for part in range(3))


def check_heat(browser, width, height, columns, sums):
    """The map of block errors by its legend's scale, and the legend beside it."""
    browser.ask("put('mode', 'errors'); astcPage.view.select(null); astcPage.change({ zoom: 4, left: 0, top: 0 })")
    for k in (0, 3, columns - 1, len(sums) - 1):
        x, y = 4 * (k % columns), 4 * (k // columns)
        inside = min(4, width - x) * min(4, height - y)
        same(f"the colour of block {k}", pixels(browser, 4 * x + 1, 4 * y + 1, 1, 1), [heat(sums[k] / inside)])
    same("the legend's ticks", text_of(browser, "legend").split()[-7:], ["0", "3", "15", "63", "255", "1023", "4095"])
    browser.ask("put('mode', 'texture')")
    same("the legend goes with the map", browser.ask("return document.getElementById('legend').checkVisibility()"), False)


def check_made(browser, folder):
    """What was packed stays listed with its ratio, even where another file is opened at once."""
    name, width, height, others, _ = pictures()[0]
    opened(browser, read(f"{folder}/{name}.pam"), "made.pam")
    set_pack(browser, ["8x8", "quick"], 4)
    browser.ask("await astcPage.pack()")
    made = base64.b64decode(browser.ask("return textOf(astcPage.state.texture.bytes)"))
    opened(browser, pam(4, 4, bytes(64)), "other.pam")
    [(_, _, texels)] = unpacked(folder, made)
    squares = sum((a - b) ** 2 for at in range(0, len(texels), 4) for a, b in zip(texels[at:at + 3], others[at:at + 3]))
    last = "document.querySelector('#made-list button:last-child')"
    browser.wait_until(f"!{last}.innerText.includes('…')", 20)
    words = browser.ask(f"return [...{last}.children].map((one) => one.textContent)")
    same("the row of what was made", [words[0].split(": ")[1], *words[1:3]], ["8x8 quick", ratio(squares, 3 * width * height), f"{len(made):,} B"])
    browser.ask(f"{last}.click()")
    same("what a click on it shows", base64.b64decode(browser.ask("return textOf(astcPage.state.texture.bytes)")) == made, True)


def check_told(browser, folder):
    name, width, height, others, _ = pictures()[1]
    ktx = read(f"{folder}/{name}.ktx")
    [(_, _, texels)] = unpacked(folder, ktx)
    opened(browser, ktx, "told.ktx")
    opened(browser, read(f"{folder}/{name}.pam"), "told.pam")
    measured(browser)
    check_picture(browser, width, height, texels, others)
    columns, sums = sums_of_blocks(width, height, (4, 4), texels, others)
    check_texel(browser, width, texels, others)
    check_block(browser, columns, sums)
    check_heat(browser, width, height, columns, sums)
    browser.click("worst")
    check_ends(browser)
    check_made(browser, folder)
    print("page: the texel under the pointer, blocks' errors, shares and ends, PSNR, largest difference, bits, and the heat map with its legend are as sums over what the program shows say")


# ---- audits


def counted(browser):
    """How many marks have each cause, and how many both, by what the module answered."""
    return browser.ask("""const counts = [0, 0, 0, 0]; for (const own of astcPage.state.marks.flat()) for (let at = 0; at < own.length; at += 8) {
        if (!own[at + 4]) counts[0] += 1; else { counts[1] += !own[at + 5]; counts[2] += !own[at + 6]; counts[3] += !own[at + 5] && !own[at + 6]; } } return counts;""")


def totals(report):
    return [int(number) for number in re.findall(r"\d+", report.splitlines()[-1])]


def check_audited(browser, folder):
    """A texture with blocks at wrong places and some that are no block: how many could be bettered and by how much, as the program's audit and polish have it; then none."""
    name, _, _, _, _ = pictures()[1]
    source = f"{folder}/{name}.pam"
    same("pack", tell("pack", source, f"{folder}/mixed.ktx", "4x4", "quick")[0], 0)
    mixed = bytearray(read(f"{folder}/mixed.ktx"))
    mixed[96 + 16 * 10:96 + 16 * 13] = bytes(48)
    mixed[96 + 16 * 30:96 + 16 * 50] = mixed[96 + 16 * 31:96 + 16 * 51]
    write(f"{folder}/mixed.ktx", bytes(mixed))
    opened(browser, bytes(mixed), "mixed.ktx")
    opened(browser, read(source), "mixed.pam")
    set_pack(browser, ["4x4", "quick"], 4)
    browser.ask("await astcPage.audit()")
    error, bad = totals(tell("audit", f"{folder}/mixed.ktx", source, "quick")[1])
    [least] = totals(tell("polish", source, f"{folder}/mixed.ktx", f"{folder}/polished.ktx", "quick")[1])
    blocks = (len(mixed) - 96) // 16
    unreadable, listed, changed, both = counted(browser)
    same("what an audit tells", browser.ask("return told()[0]"), f"audit: {unreadable} of {blocks} blocks are invalid; {bad - unreadable} of {blocks} blocks could be improved with quick; "
         f"polishing would remove {100 * (error - least) / error:.1f} % of the error")
    same("what to do", "Polish improves these blocks and keeps the block size." in text_of(browser, "audited"), True)
    causes = [(listed, "a listed block is closer to the source ({})"), (changed, "a change to one value is closer ({})")]
    told = ", ".join(text.format(count) for count, text in causes if count) + (f"; {both} of these have both causes" if both else "")
    same("causes", text_of(browser, "audited").split(" Why: ")[-1].split(". ")[0], told)
    same("both causes are counted once", listed + changed - both, bad - unreadable)
    if min(unreadable, listed, changed, both) == 0:
        raise Wrong(f"a cause is missing: {[unreadable, listed, changed, both]}")
    same("the legend of marks", "could be improved" in text_of(browser, "legend"), True)
    check_gain(browser, folder, source)
    opened(browser, read(f"{folder}/polished.ktx"), "polished.ktx")
    browser.ask("await astcPage.audit()")
    same("an audit that finds nothing", browser.ask("return told()[0]"), f"audit: found nothing to improve in any of the {blocks} blocks with quick")
    same("no marks", [browser.ask(f"return document.getElementById('{name}').checkVisibility()") for name in ("legend", "next-bad")], [False, False])
    print("page: an audit tells what can't be read, what could be bettered and by how much, that its causes overlap, and that none is left")


def check_gain(browser, folder, source):
    """A marked block: by how much it could be bettered, as the program's polish shows it."""
    [(width, height, before)], [(_, _, after)] = (unpacked(folder, read(f"{folder}/{name}.ktx")) for name in ("mixed", "polished"))
    others = read(source)[-len(before):]
    (columns, first), (_, second) = (sums_of_blocks(width, height, (4, 4), texels, others) for texels in (before, after))
    browser.click("next-bad")
    column, row = state(browser, "[s.selected.column, s.selected.row]")
    k = columns * row + column
    share = float(f"{100 * (first[k] - second[k]) / first[k]:.2g}")
    told = row_of(browser, "told", "audit")
    if not told.startswith(f"could be improved, by {share:g} % of its error {first[k]:,}: "):
        raise Wrong(f"the audit of block {column}, {row} is {told!r}, where {share:g} % of {first[k]:,} go")
