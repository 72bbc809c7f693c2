// What a block says: what it is made of in words and pictures, and its fields as numbers.
import { coloursOf, differencesOf } from "./colours.js";
import { BLOCK_FAULTS, ENDPOINT_MODES } from "./formats.js";
import { made, swatch } from "./parts.js";

const PLANES = ["", "red", "green", "blue", "alpha"];
const PART_COLOURS = [[76, 120, 168], [245, 133, 24], [84, 162, 75], [178, 121, 162]];
const CLOSE_UP = 84;

const hex = (bytes) => Array.from(bytes, (byte) => byte.toString(16).padStart(2, "0")).join(" ");
const highBytes = (values) => values.map((value) => value >> 8);

// Pairs of a name and a text: what the block is made of.
export function makeUp(told) {
  if (told.fault !== 0) {
    return [["type", `invalid: ${BLOCK_FAULTS[told.fault]}`], ["shown as", [swatch([255, 0, 255]), " magenta"]]];
  }
  if (told.isCoded === 0) {
    const colour = highBytes(told.rgba);
    return [["type", "one colour"], ["colour", [swatch(colour), ` ${colour.join(" ")}`]]];
  }
  const parts = told.parts === 1 ? "one partition" : `${told.parts} partitions (seed ${told.seed})`;
  const planes = told.planes === 2 ? `, a second plane for ${PLANES[told.plane]}` : "";
  return [["type", `${parts}, weight grid ${told.across} x ${told.down}, ${told.weightValues} values per weight${planes}`], ...told.endpointModes.map((mode, k) => endsRow(told, mode, k))];
}

// The two ends of a partition, with the colours between them.
function endsRow(told, mode, k) {
  const [from, to] = told.ends[k];
  const ramp = made("span", "", "ramp");
  const css = ([red, green, blue, alpha]) => `rgb(${red} ${green} ${blue} / ${alpha / 255})`;
  ramp.style.backgroundImage = `linear-gradient(to right, ${css(from)}, ${css(to)}), repeating-conic-gradient(#999 0 25%, #ccc 0 50%)`;
  const name = told.parts === 1 ? [] : [swatch(PART_COLOURS[k]), ` ${k + 1}: `];
  return ["endpoints", [...name, swatch(from), ramp, swatch(to), ` ${from.join(" ")} to ${to.join(" ")} (${ENDPOINT_MODES[mode]})`]];
}

// Pairs of a name and a text: the fields.
export function fieldRows(told, bytes) {
  if (told.fault !== 0) {
    return [["invalid", BLOCK_FAULTS[told.fault]], ["bytes", hex(bytes)]];
  }
  if (told.isCoded === 0) {
    const isWhole = told.extent.every((place) => place === 8191);
    return [["red, green, blue, alpha", told.rgba.join(", ")], ["extent", isWhole ? "none" : told.extent.join(", ")], ["bytes", hex(bytes)]];
  }
  return [
    ["block mode", String(told.mode)], ["endpoint modes", told.endpointModes.join(" ")], ["colour integers", `${told.colours.join(" ")} of ${told.colourValues} values`],
    ["weights", told.weights.join(" ")], ["bytes", hex(bytes)],
  ];
}

function closeUp(name, image, blockWidth) {
  const figure = made("figure");
  const canvas = made("canvas");
  [canvas.width, canvas.height] = [image.width, image.height];
  canvas.style.width = `${Math.round((CLOSE_UP * image.width) / blockWidth)}px`;
  canvas.setAttribute("role", "img");
  canvas.setAttribute("aria-label", `The block's ${name}`);
  canvas.getContext("2d").putImageData(image, 0, 0);
  figure.append(canvas, made("figcaption", name));
  return figure;
}

function partImage(told, area, blockWidth) {
  const image = new ImageData(area.across, area.down);
  for (let k = 0; k < area.across * area.down; k++) {
    const own = told.partOf[Math.floor(k / area.across) * blockWidth + (k % area.across)];
    image.data.set([...PART_COLOURS[own], 255], 4 * k);
  }
  return image;
}

// The block enlarged: what it shows, its source, eight times the difference, and its partitions.
export function closeUps(told, { texels, others, area, blockWidth }) {
  const all = [["texture", coloursOf(texels, area, "over")]];
  if (others) {
    all.push(["source", coloursOf(others, area, "over")], ["8 x difference", differencesOf(texels, others, area, "over", 8)]);
  }
  if (told.fault === 0 && told.isCoded === 1 && told.parts > 1) {
    all.push(["partitions", partImage(told, area, blockWidth)]);
  }
  return all.map(([name, image]) => closeUp(name, image, blockWidth));
}
