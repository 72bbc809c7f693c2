// The position of an image in a window: zooms of whole numbers, and below 1 of one over a whole number. Lengths of windows are in places of the canvas, starts in texels.

export const MOST_ZOOM = 32;

const STEPS = [1, 2, 3, 4, 5, 6, 8, 10, 12, 16, 20, 24, MOST_ZOOM];
const ZOOMS = [...STEPS.slice(1).reverse().map((step) => 1 / step), ...STEPS];
const NEAR = 1e-9;

// The number of texels in a place of the canvas, along an axis.
export function texelsAPlace(zoom) {
  return zoom >= 1 ? 1 : Math.round(1 / zoom);
}

// How many places of the canvas this many texels take.
export function placesOf(texels, zoom) {
  return zoom >= 1 ? texels * zoom : Math.ceil(texels / texelsAPlace(zoom));
}

// How many texels this many places of the canvas show.
export function texelsIn(places, zoom) {
  return zoom >= 1 ? places / zoom : places * texelsAPlace(zoom);
}

export function zoomText(zoom) {
  return zoom >= 1 ? `${zoom}:1` : `1:${texelsAPlace(zoom)}`;
}

// The next zoom up, or down.
export function steppedZoom(zoom, by) {
  const next = by > 0 ? ZOOMS.find((one) => one > zoom + NEAR) : ZOOMS.findLast((one) => one < zoom - NEAR);
  return next ?? zoom;
}

// The zoom of the list that is nearest to a number.
export function nearestZoom(number) {
  const apart = (zoom) => Math.abs(Math.log(zoom / number));
  return ZOOMS.reduce((best, zoom) => (apart(zoom) < apart(best) ? zoom : best));
}

// The greatest zoom at which all of an image is seen.
export function fitZoom([width, height], [across, down]) {
  const room = Math.min(across / width, down / height);
  const zoom = room >= 1 ? Math.floor(room) : 1 / Math.ceil(1 / room - NEAR);
  return Math.min(MOST_ZOOM, Math.max(1 / MOST_ZOOM, zoom));
}

// Where a window begins on an axis, in texels, held so that the image is in its middle where all of it is seen, and has no room beside it where not.
export function heldStart(start, side, room, zoom) {
  const free = room - placesOf(side, zoom);
  if (free >= 0) {
    return 0 - Math.floor(free / 2) / zoom;
  }
  const unit = texelsAPlace(zoom);
  const most = unit * Math.ceil((side - texelsIn(room, zoom)) / unit);
  return Math.min(most, Math.max(0, unit * Math.round(start / unit)));
}

// The start from which a range of texels is seen, as near as can be to the one that there is.
export function broughtStart(start, place, unit, room, zoom) {
  const seen = Math.floor(texelsIn(room, zoom));
  if (place < start) {
    return place;
  }
  return place + unit > start + seen ? place + unit - seen : start;
}
