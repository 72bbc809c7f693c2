// The page by keys.
import { nextBad, nextResult, nextWorst } from "./going.js";
import { part, terms } from "./parts.js";
import { texelsIn } from "./places.js";

const KEYS = [
  ["O", "open files"], ["S", "open a source"], ["arrows", "move the selected block"], ["Shift with arrows", "move the image"], ["+ and -", "zoom"], ["F", "fit the image"],
  ["[ and ]", "level"], [", and .", "element or face"], ["C", "channels"], ["M", "texture, source, both, side by side, difference, block errors"], ["G", "block grid"],
  ["< and >", "the line between texture and source"], ["L", "the colour space of an .astc file"], ["P", "pack"], ["A", "audit"], ["W", "the worst block, then the next"], ["N", "the marked block that polishing improves most, then the next"],
  ["R", "the next result"], ["Escape", "stop, or deselect the block"], ["?", "these keys"],
];

const ARROWS = { ArrowLeft: [-1, 0], ArrowRight: [1, 0], ArrowUp: [0, -1], ArrowDown: [0, 1] };
const PLACES_A_MOVE = 64;

function moveBy(page, event) {
  const [x, y] = ARROWS[event.key];
  event.preventDefault();
  if (event.shiftKey) {
    const far = Math.max(1, Math.floor(texelsIn(PLACES_A_MOVE, page.state.zoom)));
    page.view.change({ left: page.state.left + far * x, top: page.state.top + far * y });
  } else {
    page.view.moveSelection(x, y);
  }
}

// The value after this one in a list of options that aren't disabled, or before it.
function step(id, by) {
  const select = part(id);
  if (select.disabled || !select.checkVisibility()) {
    return;
  }
  const options = Array.from(select.options).filter((option) => !option.disabled);
  const at = options.findIndex((option) => option.value === select.value);
  const next = options[(at + by + options.length) % options.length];
  if (next) {
    select.value = next.value;
    select.dispatchEvent(new Event("change", { bubbles: true }));
  }
}

function moveLine(by) {
  const line = part("split");
  if (line.checkVisibility()) {
    line.value = String(Math.min(100, Math.max(0, Number(line.value) + by)));
    line.dispatchEvent(new Event("input"));
  }
}

function press(id) {
  const control = part(id);
  if (!control.disabled && control.checkVisibility()) {
    control.click();
  }
}

function keyActions(page) {
  const stop = () => (part("stop").hidden ? page.view.select(null) : part("stop").click());
  return {
    o: () => press("open"), s: () => press("open-source"), "+": () => press("zoom-in"), "=": () => press("zoom-in"), "-": () => press("zoom-out"), f: () => press("fit"),
    g: () => press("grid"), "?": () => press("help"), a: () => press("audit"), p: () => press("pack"), w: () => nextWorst(page), n: () => nextBad(page), r: () => nextResult(page),
    Escape: stop, l: () => step("shown-as", 1), "[": () => step("level", -1), "]": () => step("level", 1), ",": () => step("image", -1), ".": () => step("image", 1),
    c: () => step("channel", 1), m: () => step("mode", 1), "<": () => moveLine(-5), ">": () => moveLine(5),
  };
}

const isTyped = ({ target, key }) => target.matches('select, input:not([type="checkbox"], [type="range"])') && key !== "Escape";

export function wireKeys(page) {
  part("key-list").replaceChildren(...terms(KEYS));
  const actions = keyActions(page);
  document.addEventListener("keydown", (event) => {
    if (event.ctrlKey || event.metaKey || event.altKey || isTyped(event) || document.querySelector("dialog[open]")) {
      return;
    }
    if (event.key in ARROWS) {
      if (page.view.subject && !event.target.matches("input, pre")) {
        moveBy(page, event);
      }
      return;
    }
    const action = actions[event.key.length === 1 ? event.key.toLowerCase() : event.key];
    if (action) {
      action();
    }
  });
}
