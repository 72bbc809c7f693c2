// The map of block errors: a colour a block, by its mean squared difference a texel.
import { heatColour } from "./colours.js";

let latest = { measure: null, key: "", image: null };

// The mean of each block, over those of its texels that lie in the image.
export function blockMeans(measure, weights, { blockWidth, blockHeight }) {
  const within = (side, unit, place) => Math.min(unit, side - place * unit);
  return measure.errors(weights).all.map((error, k) => {
    const column = k % measure.columns;
    const row = (k - column) / measure.columns;
    return error / (within(measure.width, blockWidth, column) * within(measure.height, blockHeight, row));
  });
}

function heatOf(measure, weights, texture) {
  const image = new ImageData(measure.columns, measure.rows);
  blockMeans(measure, weights, texture).forEach((mean, k) => image.data.set([...heatColour(mean), 255], 4 * k));
  const canvas = new OffscreenCanvas(image.width, image.height);
  canvas.getContext("2d").putImageData(image, 0, 0);
  return canvas;
}

// The map of an image, made once.
export function heatImage(measure, weights, texture) {
  const key = weights.join();
  if (latest.measure !== measure || latest.key !== key) {
    latest = { measure, key, image: heatOf(measure, weights, texture) };
  }
  return latest.image;
}
