// The page's settings and view in the address after `#`, so that a link opens the page as it was. No file is in it: the view waits until a picture or a
// texture of its sides is opened.
import { FOOTPRINTS, placeOfSides } from "./formats.js";
import { part } from "./parts.js";
import { MOST_ZOOM, texelsIn } from "./places.js";

const SETTINGS = ["kind", "preset", "flavour", "levels", "channel", "gain", "least"];
const SWITCHES = ["fitted", "flip", "grid"];
const VIEW = ["size", "mode", "level", "image", "split", "zoom", "at", "block"];
const MILLISECONDS_STILL = 300;

const weightParts = () => [0, 1, 2, 3].map((k) => part(`weight-${k}`));

// The texel in the middle of the window, and back to where the window begins.
const middleOf = ({ state: { left, top, zoom }, panes: [pane] }) => [left + texelsIn(pane.width, zoom) / 2, top + texelsIn(pane.height, zoom) / 2];
const startAt = ({ panes: [pane] }, [x, y], zoom) => ({ left: x - texelsIn(pane.width, zoom) / 2, top: y - texelsIn(pane.height, zoom) / 2 });

// What is shown, in words; what is as at first has none.
function viewWords(view) {
  const { level, image, split, zoom, selected, texture, source } = view.state;
  const { width, height } = view.subject;
  return {
    size: `${width}x${height}`, mode: texture && source ? view.mode : null, level: level || null, image: image || null, split: split === 0.5 ? null : Math.round(100 * split),
    zoom: view.isFitted ? null : Number(zoom.toFixed(4)), at: view.isFitted ? null : middleOf(view).map((place) => Number(place.toFixed(2))).join(),
    block: selected ? `${selected.column},${selected.row}` : null,
  };
}

function linkText({ view, linked }) {
  const words = new URLSearchParams();
  words.set("footprint", FOOTPRINTS[Number(part("footprint").value)].join("x"));
  SETTINGS.forEach((id) => words.set(id, part(id).value));
  SWITCHES.forEach((id) => words.set(id, part(id).checked ? "1" : "0"));
  words.set("weights", weightParts().map(({ value }) => value).join(","));
  const shown = { ...(view.subject ? viewWords(view) : {}), ...linked };
  VIEW.forEach((name) => (shown[name] ?? null) !== null && words.set(name, shown[name]));
  return words.toString().replaceAll("%2C", ",");
}

// A value of the link, if the control has it.
function putValue(control, value) {
  if (value !== null && (control.tagName !== "SELECT" || [...control.options].some((option) => option.value === value))) {
    control.value = value;
  }
}

function readSettings(page, words) {
  const sides = /^(\d+)x(\d+)$/.exec(words.get("footprint") ?? "");
  const place = sides ? placeOfSides(Number(sides[1]), Number(sides[2])) : -1;
  putValue(part("footprint"), place < 0 ? null : String(place));
  SETTINGS.forEach((id) => putValue(part(id), words.get(id)));
  SWITCHES.forEach((id) => words.has(id) && (part(id).checked = words.get(id) === "1"));
  const weights = (words.get("weights") ?? "").split(",");
  if (weights.length === 4 && weights.every((weight) => /^([0-9]|1[0-5])$/.test(weight))) {
    weightParts().forEach((control, k) => (control.value = weights[k]));
  }
  page.view.change({ channel: part("channel").value, gain: Number(part("gain").value), grid: part("grid").checked });
  part("least").dispatchEvent(new Event("input"));
  page.keepsFlavour = words.has("flavour");
  page.weigh();
}

function readLink(page) {
  const words = new URLSearchParams(location.hash.slice(1));
  readSettings(page, words);
  const view = Object.fromEntries(VIEW.filter((name) => words.has(name)).map((name) => [name, words.get(name)]));
  page.linked = Object.keys(view).length > 0 ? view : null;
  const size = /^(\d+)x(\d+)$/.exec(view.size ?? "");
  part("linked").textContent = size ? `The link has the settings and the view, but no file. Open its picture or texture of ${size[1]} by ${size[2]} texels.` : "";
  followLink(page);
}

const numbersOf = (text) => (text ?? "").split(",").map(Number);
const within = (number, least, most) => Number.isFinite(number) && number >= least && number <= most;

// The zooms of the view: whole numbers, or one over them.
const zoomOf = (number) => (number >= 1 ? Math.min(MOST_ZOOM, Math.round(number)) : 1 / Math.min(MOST_ZOOM, Math.round(1 / number)));

// Brings the view to the position that the link says.
function placeView({ view }, { level, image, split, zoom, at, block }) {
  const { subject } = view;
  const [ownLevel, ownImage] = [Number(level ?? 0), Number(image ?? 0)];
  view.change({ level: subject.levels > ownLevel ? ownLevel : 0, image: subject.images > ownImage ? ownImage : 0, split: within(Number(split), 0, 100) ? split / 100 : 0.5 });
  view.zoomToFit();
  if (within(Number(zoom), 1 / MOST_ZOOM, MOST_ZOOM) && numbersOf(at).length === 2 && numbersOf(at).every(Number.isFinite)) {
    const own = zoomOf(Number(zoom));
    view.change({ zoom: own, ...startAt(view, numbersOf(at), own) });
  }
  const [column, row] = numbersOf(block);
  const [width, height] = view.sides;
  if (view.state.texture && within(column, 0, Math.ceil(width / subject.blockWidth) - 1) && within(row, 0, Math.ceil(height / subject.blockHeight) - 1)) {
    view.select(view.blockOf([column * subject.blockWidth, row * subject.blockHeight]));
  }
}

// Shows what was opened as the link says, if it has the sides of what the link was made for: at once where it is, how both are shown once both are there.
export function followLink(page) {
  const { linked, view } = page;
  if (!linked || !view.subject) {
    return;
  }
  const { texture, source } = view.state;
  if (linked.size && linked.size !== `${view.subject.width}x${view.subject.height}`) {
    return;
  }
  if (texture && source && [...part("mode").options].some(({ value }) => value === linked.mode)) {
    view.change({ mode: linked.mode });
  }
  if (!linked.isMoved) {
    placeView(page, linked);
  }
  if (!linked.mode || (texture && source)) {
    page.linked = null;
  }
  page.refresh();
}

// The view is the user's from the first move on.
function wireMoves(page) {
  const keepMode = () => {
    const { size, mode } = page.linked ?? {};
    page.linked = !page.view.subject ? page.linked : mode ? { size, mode, isMoved: true } : null;
  };
  ["view", "zooming"].forEach((id) => ["pointerdown", "wheel"].forEach((kind) => part(id).addEventListener(kind, keepMode)));
}

export function wireLink(page) {
  if (location.hash.length > 1) {
    readLink(page);
  }
  window.addEventListener("hashchange", () => readLink(page));
  const write = () => history.replaceState(null, "", `#${linkText(page)}`);
  document.addEventListener("change", ({ target }) => target.matches("select, input:not([type=file])") && write());
  let timer = null;
  page.onMoved = () => {
    clearTimeout(timer);
    timer = page.view.subject && setTimeout(write, MILLISECONDS_STILL);
  };
  wireMoves(page);
  part("copy-link").onclick = () => {
    write();
    page.copy(location.href, "copied a link with the settings and the view; no file is in it");
  };
}
