// The map of an audit: what polishing would gain at each block, over the image, if it is shown too small for outlines.
import { gainOf, isShown, whyBad } from "./audits.js";
import { placesOf } from "./places.js";

export const INVALID = [255, 59, 48];
export const IMPROVABLE = [143, 184, 255];
const QUIETEST = 96;

let latestMap = { judged: null, audited: null, least: 0, canvas: null };

// The opacity of a mark, 0 to 255: the more of the error would go, the more.
export function opacityOf(judged, bettered, k) {
  return whyBad(judged, k) === 1 ? 224 : QUIETEST + Math.round((224 - QUIETEST) * (gainOf(judged, bettered, k) ?? 0));
}

function mapOf(judged, bettered, least, columns) {
  const image = new ImageData(columns, judged.length / 8 / columns);
  for (let k = 0; k < judged.length / 8; k++) {
    if (isShown(judged, bettered, least, k)) {
      image.data.set([...(whyBad(judged, k) === 1 ? INVALID : IMPROVABLE), opacityOf(judged, bettered, k)], 4 * k);
    }
  }
  const canvas = new OffscreenCanvas(image.width, image.height);
  canvas.getContext("2d").putImageData(image, 0, 0);
  return canvas;
}

// Paints the map, averaged if a block is smaller than a place of the canvas. `best` has the errors after polishing, as far as they are known.
export function paintGains(context, view, pane, judged, best) {
  const { texture, level, zoom, least, audited } = view.state;
  const [columns, rows] = texture.gridAt(level);
  if (latestMap.judged !== judged || latestMap.audited !== audited || latestMap.least !== least) {
    latestMap = { judged, audited, least, canvas: mapOf(judged, best, least, columns) };
  }
  const [x, y] = view.cornerIn(pane);
  context.save();
  context.beginPath();
  context.rect(x, y, ...view.sides.map((side) => placesOf(side, zoom)));
  context.clip();
  context.imageSmoothingEnabled = zoom * Math.min(texture.blockWidth, texture.blockHeight) < 1;
  context.imageSmoothingQuality = "high";
  context.drawImage(latestMap.canvas, x, y, columns * texture.blockWidth * zoom, rows * texture.blockHeight * zoom);
  context.restore();
}
