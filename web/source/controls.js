// The controls of the page, and files that are dropped and pasted.
import { FOOTPRINTS, Fault, PRESET_USES, bitsOf, formatOf, placeOfSides } from "./formats.js";
import { nextBad, nextWorst } from "./going.js";
import { chooseKind, fillKinds } from "./kinds.js";
import { fillSelect, part } from "./parts.js";
import { saveAstc, saveKtx, savePng } from "./saving.js";

// What the page opens of a folder.
const OPENED = /\.(png|jpe?g|webp|pam|ktx|astc)$/i;

// What is chosen, dropped or pasted, as openAll takes it.
const filesOf = (list, name) => Array.from(list, (file) => ({ blob: file, name: file.name || name }));

function wireChooser(page) {
  let asSource = false;
  const choose = (source) => {
    asSource = source;
    part("file").value = "";
    part("file").multiple = !source;
    part("file").click();
  };
  part("open").onclick = part("welcome-open").onclick = () => choose(false);
  part("open-source").onclick = part("wanted-open").onclick = () => choose(true);
  part("file").onchange = ({ target }) => target.files.length > 0 && page.openAll(filesOf(target.files), { asSource });
  part("sample").onclick = () => page.busy || page.openSample();
}

// The files of a dropped folder that the page can open; a reader gives some at a time.
async function filesIn(folder) {
  const [reader, all] = [folder.createReader(), []];
  for (let some = [null]; some.length > 0; all.push(...some)) {
    some = await new Promise((take, fail) => reader.readEntries(take, fail));
  }
  const own = all.filter(({ isFile, name }) => isFile && OPENED.test(name));
  return Promise.all(own.map(async (entry) => ({ blob: await new Promise((take, fail) => entry.file(take, fail)), name: entry.name, folder: folder.name })));
}

// Files that are dropped, or those of one folder.
async function openDropped(page, { items, files }) {
  const [folder] = Array.from(items, (item) => item.webkitGetAsEntry?.()).filter((entry) => entry?.isDirectory);
  try {
    const all = folder ? await filesIn(folder) : filesOf(files);
    if (folder && all.length === 0) {
      throw new Fault(`the folder ${folder.name} has no pictures and no textures`);
    }
    if (all.length > 0) {
      await page.openAll(all);
    }
  } catch (cause) {
    page.complain(cause);
  }
}

function wireDrops(page) {
  const over = (is) => document.body.classList.toggle("over", is);
  document.ondragover = (event) => {
    event.preventDefault();
    over(true);
  };
  document.ondragleave = (event) => event.relatedTarget === null && over(false);
  document.ondrop = (event) => {
    event.preventDefault();
    over(false);
    openDropped(page, event.dataTransfer);
  };
  document.onpaste = ({ clipboardData }) => {
    if (clipboardData.files.length > 0) {
      page.openAll(filesOf(clipboardData.files, "pasted"));
    }
  };
}

function wireViewing(page) {
  const middle = () => [part("view").width / 2, part("view").height / 2];
  part("zoom-in").onclick = () => page.view.zoomAbout(1, ...middle());
  part("zoom-out").onclick = () => page.view.zoomAbout(-1, ...middle());
  part("fit").onclick = () => page.view.zoomToFit();
  part("level").onchange = ({ target }) => page.changeImage({ level: Number(target.value) });
  part("image").onchange = ({ target }) => page.changeImage({ image: Number(target.value) });
  part("channel").onchange = ({ target }) => page.change({ channel: target.value });
  part("mode").onchange = ({ target }) => page.changeMode(target.value);
  part("gain").onchange = ({ target }) => page.change({ gain: Number(target.value) });
  part("grid").onchange = ({ target }) => page.change({ grid: target.checked });
  part("split").oninput = ({ target }) => page.change({ split: Number(target.value) / 100 });
  part("shown-as").onchange = ({ target }) => page.showAs(target.value);
  part("help").onclick = () => part("keys").showModal();
  part("worst").onclick = () => nextWorst(page);
  part("next-bad").onclick = () => nextBad(page);
  part("least").oninput = ({ target }) => {
    part("least-told").textContent = `${target.value} %`;
    page.change({ least: Number(target.value) / 100 });
  };
  part("other").onchange = ({ target }) => page.compareWith(Number(target.value));
  part("copy-table").onclick = () => page.copy(page.results.table(), `copied a table of ${page.results.all.length} results`);
}

const WIDTHS = [16, 48];

// The panel is folded by a button, and gets wider or narrower by its edge.
function wirePanel(page) {
  const [edge, aside] = [part("edge"), document.querySelector("aside")];
  const widen = (width) => {
    const own = Math.min(WIDTHS[1], Math.max(WIDTHS[0], width));
    aside.style.width = `${own}rem`;
    edge.ariaValueNow = String(Math.round(own));
    page.view.resize();
  };
  const rem = () => parseFloat(getComputedStyle(document.documentElement).fontSize);
  part("fold").onclick = () => {
    const isFolded = part("fold").ariaPressed !== "true";
    part("fold").ariaPressed = String(isFolded);
    part("fold").textContent = isFolded ? "Show panel" : "Hide panel";
    aside.hidden = edge.hidden = isFolded;
    page.view.resize();
  };
  edge.onpointerdown = (event) => edge.setPointerCapture(event.pointerId);
  edge.onpointermove = (event) => edge.hasPointerCapture(event.pointerId) && widen((innerWidth - event.clientX) / rem());
  edge.onkeydown = (event) => {
    const by = { ArrowLeft: 1, ArrowRight: -1 }[event.key];
    if (by) {
      event.stopPropagation();
      widen(aside.getBoundingClientRect().width / rem() + by);
    }
  };
}

function wireSettings(page) {
  const footprints = FOOTPRINTS.map(([width, height], k) => [k, `${width}x${height}: ${bitsOf(formatOf(k, false)).toFixed(2)} bits`]);
  fillSelect(part("footprint"), footprints, placeOfSides(6, 6));
  fillSelect(part("preset"), Object.entries(PRESET_USES).map(([name, use]) => [name, `${name}: ${use}`]), "quick");
  part("workers").value = String(navigator.hardwareConcurrency || 2);
  fillKinds();
  part("kind").onchange = ({ target }) => chooseKind(page, target.value);
  for (const id of ["footprint", "preset", "flavour"]) {
    part(id).addEventListener("change", () => (part("kind").value = ""));
  }
  part("flip").onchange = ({ target }) => page.flip(target.checked);
  for (let k = 0; k < 4; k++) {
    part(`weight-${k}`).onchange = () => {
      part("kind").value = "";
      page.weigh();
    };
  }
}

function wireJobs(page) {
  part("pack-form").onsubmit = (event) => {
    event.preventDefault();
    page.pack();
  };
  part("polish").onclick = () => page.polish();
  part("audit").onclick = () => page.audit();
  part("sums").onclick = () => page.sums();
  part("stop").onclick = () => page.workers.stop();
  part("save-ktx").onclick = () => saveKtx(page.state);
  part("save-astc").onclick = () => saveAstc(page.state);
  part("save-png").onclick = () => savePng(page).catch((cause) => page.complain(cause));
}

export function wireControls(page) {
  [wireChooser, wireDrops, wireViewing, wirePanel, wireSettings, wireJobs].forEach((wire) => wire(page));
}
