// What is saved: textures as .ktx and .astc files, and the picture that is shown as PNG.
import { CHANNELS, coloursOf, differencesOf, heatColour } from "./colours.js";
import { writeAstc, writeKtx } from "./files.js";
import { blockMeans } from "./heat.js";
import { stem } from "./packing.js";
import { saveBlob } from "./parts.js";
import { pngOf } from "./png.js";

const ROWS_AT_ONCE = 512;

const save = (bytes, name) => saveBlob(new Blob([bytes], { type: "application/octet-stream" }), name);

export function saveKtx({ texture }) {
  save(writeKtx(texture), `${stem(texture.name)}.ktx`);
}

export function saveAstc({ texture, level, image }) {
  save(writeAstc(texture, level, image), `${stem(texture.name)}_${level}_${image}.astc`);
}

// All texels of an image of a texture.
async function wholeTexels(tiles, texture, level, image) {
  const [width, height] = texture.sidesAt(level);
  const texels = new Uint8Array(4 * width * height);
  for (let top = 0; top < height; top += ROWS_AT_ONCE) {
    const area = { left: 0, top, across: width, down: Math.min(ROWS_AT_ONCE, height - top) };
    texels.set(await tiles.make(texture, level, image, area), 4 * width * top);
  }
  return texels;
}

// The heat map, texel by texel.
function heatTexels(measure, { texture, weights }) {
  const means = blockMeans(measure, weights, texture);
  const texels = new Uint8Array(4 * measure.width * measure.height);
  for (let at = 0, y = 0; y < measure.height; y++) {
    const row = measure.columns * Math.floor(y / texture.blockHeight);
    for (let x = 0; x < measure.width; x++, at += 4) {
      texels.set([...heatColour(means[row + Math.floor(x / texture.blockWidth)]), 255], at);
    }
  }
  return texels;
}

// The texels of what is shown: of the texture or the source as they are, or of one channel; else the colours of the difference or the heat map.
async function shownTexels({ tiles, view }) {
  const { texture, source, level, image, channel, gain } = view.state;
  const { mode, sides: [width, height] } = view;
  const area = { left: 0, top: 0, across: width, down: height };
  if (mode === "errors") {
    return heatTexels(view.measure(), view.state);
  }
  const own = mode === "source" ? source.texelsAt(level, image) : await wholeTexels(tiles, texture, level, image);
  if (mode === "difference") {
    return differencesOf(own, source.texelsAt(level, image), area, channel, gain).data;
  }
  return channel in CHANNELS || channel === "opaque" || channel === "normal" ? coloursOf(own, area, channel).data : own;
}

const SHOWN_NAMES = { source: "_source", difference: "_difference", errors: "_errors" };

export async function savePng(page) {
  const { state, view } = page;
  const [width, height] = view.sides;
  if (view.mode === "errors" && !view.measure()) {
    page.tell("measuring block errors …");
    return;
  }
  const blob = await pngOf(await shownTexels(page), width, height);
  saveBlob(blob, `${stem(view.subject.name)}_${state.level}_${state.image}${SHOWN_NAMES[view.mode] ?? ""}.png`);
}
