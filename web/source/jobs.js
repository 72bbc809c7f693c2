// Jobs over all workers: pack, polish, audit and sums, with progress, and how they end.
import { inFormOf } from "./kinds.js";
import { auditSums, auditText } from "./audits.js";
import { Fault, MOST_ELEMENTS, PRESETS, formatOf, fullLevels } from "./formats.js";
import { Making } from "./making.js";
import { sumsOf } from "./measures.js";
import { auditLines, sumLines, tellReport } from "./numbers.js";
import { audit, betterErrors, blankFor, copyOf, noneBettered, pack, polish } from "./packing.js";
import { inTurn, part, show } from "./parts.js";
import { Stopped } from "./pool.js";

const LEFT_ALONE = ["pack", "polish", "audit", "sums", "open", "open-source", "shown-as", "save-ktx", "save-astc", "save-png", "flip"];

// The preset and the weights that the settings say. Blocks are fitted by a pack alone.
function optionsOf() {
  const weights = [0, 1, 2, 3].map((k) => Number(part(`weight-${k}`).value));
  if (weights.some((weight) => !Number.isInteger(weight) || weight < 0 || weight > 15) || weights.every((weight) => weight === 0)) {
    throw new Fault("channel weights must be whole numbers from 0 to 15, and not all 0: change them in More settings");
  }
  return { preset: PRESETS.indexOf(part("preset").value), weights, fitted: false };
}

// The weights that the settings say, or null where they aren't any.
export function weightsOf() {
  try {
    return optionsOf().weights;
  } catch {
    return null;
  }
}

// The shape that the settings say for a picture.
function shapeOf(picture) {
  const isSquare = picture.width === picture.height;
  const way = part("images").value;
  const levels = part("levels").value === "full" ? fullLevels(picture.width, picture.height) : Number(part("levels").value);
  const format = formatOf(Number(part("footprint").value), part("flavour").value === "srgb");
  if (way === "cube" && (picture.images % 6 !== 0 || !isSquare)) {
    throw new Fault("a cube needs six square images: choose another value of Images in More settings, or open the six pictures of a cube together");
  }
  if (way === "one" && picture.images !== 1) {
    throw new Fault(`there are ${picture.images} images: choose array or cube as Images in More settings`);
  }
  if (picture.images > MOST_ELEMENTS) {
    throw new Fault(`${picture.images} elements are more than ${MOST_ELEMENTS}: open fewer images`);
  }
  const elements = way === "array" ? picture.images : way === "cube" && picture.images > 6 ? picture.images / 6 : 0;
  return { format, levels, elements, faces: way === "cube" ? 6 : 1 };
}

// A control that is disabled loses the keyboard's focus: it gets it back unless another has it by now.
function giveBack(focused) {
  const own = document.activeElement;
  if (own === document.body || own?.disabled || own?.hidden) {
    focused?.focus();
  }
}

// A time, so fine as it matters.
function timeText(seconds) {
  if (seconds < 120) {
    return `${seconds.toFixed(0)} s`;
  }
  return seconds < 7200 ? `${(seconds / 60).toFixed(0)} min` : `${(seconds / 3600).toFixed(1)} h`;
}

function showProgress({ blocksDone, blockCount, seconds }) {
  if (part("progress").hidden) {
    return;
  }
  part("progress").max = blockCount;
  part("progress").value = blocksDone;
  const left = blocksDone === 0 ? "" : `, ${timeText(seconds)}, about ${timeText((seconds / blocksDone) * (blockCount - blocksDone))} left`;
  part("left").textContent = `${blocksDone.toLocaleString("en")} of ${blockCount.toLocaleString("en")} blocks${left}`;
}

function setWorkers(pool) {
  pool.count = Math.min(64, Math.max(1, Number(part("workers").value) || 1));
  if (pool.workers.length > pool.count) {
    pool.stop();
  }
}

// Runs a job, and says how it ended.
async function run(page, title, work) {
  part("fault").textContent = "";
  setWorkers(page.workers);
  const focused = document.activeElement;
  const inert = [...LEFT_ALONE.map(part), ...document.querySelectorAll("button.made")].filter((control) => !control.disabled);
  inert.forEach((control) => (control.disabled = true));
  show({ stop: true, progress: true });
  part("progress").removeAttribute("value");
  page.busy = true;
  page.tell(`${title} …`);
  try {
    await work();
  } catch (cause) {
    page.workers.stop();
    if (cause instanceof Stopped) {
      page.tell(`${title}: stopped`);
    } else {
      page.complain(cause);
      page.tell(`${title}: failed`);
    }
  } finally {
    page.busy = false;
    page.view.change({ making: null });
    inert.forEach((control) => (control.disabled = false));
    show({ stop: false, progress: false });
    part("left").textContent = "";
    page.refresh();
    giveBack(focused);
  }
}

// Makes the blocks of an empty or copied texture before the user's eyes, and opens it.
async function make(page, { title, by, fill, texture, picture, options, beneath }) {
  const { level, image, channel } = page.state;
  const seen = { level: Math.min(level, texture.levels - 1), image, isInSight: (area) => making.isOf(page.state) && page.view.isInSight(area) };
  const making = new Making(texture, seen.level, { image, channel, beneath, name: `${title} …`, onPiece: () => page.view.draw() });
  page.view.change({ making });
  const call = { picture, options, seen, onProgress: inTurn(showProgress), onPiece: (area, texels) => making.put(area, texels) };
  const { sums, seconds } = await fill(page.workers, texture, call);
  page.view.change({ making: null });
  page.showMade({ texture, picture, title: by, seconds });
  tellReport(sumLines(texture, sums));
  page.tell(`${title}: done in ${seconds.toFixed(1)} s, ${texture.bytes.length.toLocaleString("en")} bytes`);
}

const presetName = (options) => PRESETS[options.preset] + (options.fitted ? ", fitted" : "");

export function packJob(page) {
  return run(page, "pack", () => {
    const { source } = page.state;
    const options = { ...optionsOf(), fitted: part("fitted").checked };
    const formed = inFormOf(source, part("kind").value);
    const picture = formed.isFlipped === part("flip").checked ? formed : formed.flipped();
    const texture = blankFor(picture, shapeOf(picture));
    return make(page, { title: "pack", by: presetName(options), fill: pack, texture, picture, options, beneath: picture === source ? "source" : null });
  });
}

export function polishJob(page) {
  return run(page, "polish", () => {
    const { texture, source: picture } = page.state;
    const options = optionsOf();
    return make(page, { title: "polish", by: `polished, ${presetName(options)}`, fill: polish, texture: copyOf(texture), picture, options, beneath: "texture" });
  });
}

// First which blocks are bad, then by how much. A stop while that is asked leaves what is known.
export function auditJob(page) {
  return run(page, "audit", async () => {
    const { texture, source: picture } = page.state;
    const call = { picture, options: optionsOf(), onProgress: inTurn(showProgress) };
    const { found, seconds } = await audit(page.workers, texture, call);
    const bettered = noneBettered(texture);
    tellReport(auditLines(texture, found));
    const tell = (ending) => {
      const [sums, preset] = [auditSums(found, bettered), presetName(call.options)];
      page.view.change({ marks: found, bettered, audited: { sums, preset } });
      page.showAround();
      page.tell(`audit: ${auditText(sums, preset)}${ending}`);
    };
    tell(`, in ${seconds.toFixed(1)} s; measuring the possible improvement …`);
    try {
      await betterErrors(page.workers, texture, found, { ...call, bettered });
      tell("");
    } catch (cause) {
      if (!(cause instanceof Stopped)) {
        throw cause;
      }
      page.workers.stop();
      tell("; stopped before the possible improvement was measured");
    }
  });
}

export function sumsJob(page) {
  return run(page, "errors", async () => {
    const { texture, source } = page.state;
    tellReport(sumLines(texture, await sumsOf(page.workers, texture, source, optionsOf().weights)));
    part("report-box").open = true;
    page.tell("sums of squared differences: see the report");
  });
}
