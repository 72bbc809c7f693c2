// The drawings over the image: the grid of blocks, the marks of an audit, the selected block, the line between both, and the names of the halves.
import { gainOf, isShown, whyBad } from "./audits.js";
import { IMPROVABLE, INVALID, paintGains } from "./gains.js";
import { placesOf } from "./places.js";

const GRID = "rgba(0, 140, 255, 0.8)";
const LEAST_GRID = 8;
const LEAST_OUTLINED = 8;
const HANDLE = 13;

const scaleOf = () => window.devicePixelRatio || 1;

export function paintGrid(context, view, pane) {
  const { zoom, grid } = view.state;
  const { blockWidth, blockHeight } = view.subject;
  if (!grid || !view.state.texture || zoom * Math.min(blockWidth, blockHeight) < LEAST_GRID) {
    return;
  }
  const [x, y] = view.cornerIn(pane);
  const [across, down] = view.sides.map((side) => placesOf(side, zoom));
  context.fillStyle = GRID;
  for (let at = 0; at < across; at += blockWidth * zoom) {
    context.fillRect(x + at, y, 1, down);
  }
  for (let at = 0; at < down; at += blockHeight * zoom) {
    context.fillRect(x, y + at, across, 1);
  }
}

// A ring inside a rectangle, so far from its sides and so thick, or as thick as there is room.
function paintRing(context, { x, y, across, down }, inset, most, colour) {
  const [left, top, wide, high] = [x + inset, y + inset, across - 2 * inset, down - 2 * inset];
  const thick = Math.min(most, Math.ceil(Math.min(wide, high) / 2));
  context.fillStyle = colour;
  context.fillRect(left, top, wide, thick);
  context.fillRect(left, top + high - thick, wide, thick);
  context.fillRect(left, top, thick, high);
  context.fillRect(left + wide - thick, top, thick, high);
}

// Between black edges, so that one of both is seen on any picture.
function paintMark(context, own, thick, colour) {
  paintRing(context, own, 0, thick + 2, "#000");
  paintRing(context, own, 1, thick, colour);
}

// The visible blocks of a pane, with their positions.
function* blocksIn(view, pane) {
  const { texture, level, zoom } = view.state;
  const { blockWidth, blockHeight } = texture;
  const [columns, rows] = texture.gridAt(level);
  const [x, y] = view.cornerIn(pane);
  const [across, down] = [blockWidth * zoom, blockHeight * zoom];
  const [right, bottom] = view.sides.map((side) => placesOf(side, zoom));
  const first = (corner, from, unit) => Math.max(0, Math.floor((from - corner) / unit));
  const last = (corner, from, room, unit, count) => Math.min(count - 1, Math.floor((from + room - corner) / unit));
  for (let row = first(y, pane.y, down); row <= last(y, pane.y, pane.height, down, rows); row++) {
    for (let column = first(x, pane.x, across); column <= last(x, pane.x, pane.width, across, columns); column++) {
      const [left, top] = [column * across, row * down];
      yield { k: row * columns + column, own: { x: x + left, y: y + top, across: Math.min(across, right - left), down: Math.min(down, bottom - top) } };
    }
  }
}

// Outlines from 8:1 on, the thicker the more polishing would gain; below, a map of the gains.
export function paintMarks(context, view, pane) {
  const { marks, bettered, texture, level, image, zoom, least } = view.state;
  if (!marks || !texture) {
    return;
  }
  const [judged, best] = [marks[level][image], bettered?.[level][image]];
  if (zoom < LEAST_OUTLINED) {
    paintGains(context, view, pane, judged, best);
    return;
  }
  for (const { k, own } of blocksIn(view, pane)) {
    if (isShown(judged, best, least, k)) {
      const isInvalid = whyBad(judged, k) === 1;
      const thick = isInvalid ? 3 : (gainOf(judged, best, k) ?? 0) >= 0.2 ? 2 : 1;
      paintMark(context, own, thick, `rgb(${(isInvalid ? INVALID : IMPROVABLE).join(" ")})`);
    }
  }
}

export function paintSelection(context, view, pane) {
  const { selected, zoom } = view.state;
  if (!selected) {
    return;
  }
  const { blockWidth, blockHeight } = view.subject;
  const [x, y] = view.cornerIn(pane);
  const [left, top] = [x + Math.floor(selected.column * blockWidth * zoom), y + Math.floor(selected.row * blockHeight * zoom)];
  const [across, down] = [Math.max(3, blockWidth * zoom), Math.max(3, blockHeight * zoom)];
  for (const [colour, inset] of [["#000", -1], ["#fff", 0]]) {
    context.strokeStyle = colour;
    context.lineWidth = 1;
    context.strokeRect(left - 0.5 + inset, top - 0.5 + inset, across + 1 - 2 * inset, down + 1 - 2 * inset);
  }
}

// A height for the handle at which it doesn't hide the selected block: below the block if it would.
function besideBlock({ state: { selected, zoom }, subject: { blockHeight } }, top, middle, radius) {
  const begin = top + (selected?.row ?? 0) * blockHeight * zoom;
  const end = begin + blockHeight * zoom;
  return selected && middle > begin - radius && middle < end + radius ? end + 1.5 * radius : middle;
}

// The position of the line between both, which belongs to the image; the handle stays in sight.
export function lineOf(view) {
  const { split, zoom } = view.state;
  const [pane] = view.panes;
  const [corner, top] = view.cornerIn(pane);
  const [across, down] = view.sides.map((side) => placesOf(side, zoom));
  const x = corner + Math.round(split * across);
  const radius = HANDLE * scaleOf();
  const middle = besideBlock(view, top, (Math.max(0, top) + Math.min(pane.height, top + down)) / 2, radius);
  return { x, top: Math.max(0, top), bottom: Math.min(pane.height, top + down), handle: [Math.min(pane.width - radius, Math.max(radius, x)), middle], radius };
}

// Whether a place of the canvas is on the line's handle, or nearly on the line.
export function isOnLine(view, x, y) {
  const line = lineOf(view);
  return Math.hypot(x - line.handle[0], y - line.handle[1]) <= 1.3 * line.radius || (Math.abs(x - line.x) <= line.radius / 2 && y >= line.top && y <= line.bottom);
}

// The part of the image's width that lies left of a place of the canvas.
export function splitAt(view, x) {
  const [corner] = view.cornerIn(view.panes[0]);
  return Math.min(1, Math.max(0, (x - corner) / placesOf(view.sides[0], view.state.zoom)));
}

export function paintLine(context, view) {
  const { x, top, bottom, handle, radius } = lineOf(view);
  const thin = scaleOf();
  context.fillStyle = "#000";
  context.fillRect(x - 2 * thin, top, 4 * thin, bottom - top);
  context.fillStyle = "#fff";
  context.fillRect(x - thin, top, 2 * thin, bottom - top);
  context.beginPath();
  context.arc(...handle, radius, 0, 2 * Math.PI);
  context.fill();
  context.strokeStyle = "#000";
  context.lineWidth = 1.5 * thin;
  context.stroke();
  context.beginPath();
  for (const side of [-1, 1]) {
    const [from, to] = [0.25 * side * radius, 0.6 * side * radius];
    context.moveTo(handle[0] + from, handle[1] - radius / 3);
    context.lineTo(handle[0] + to, handle[1]);
    context.lineTo(handle[0] + from, handle[1] + radius / 3);
  }
  context.stroke();
}

// The edge between two panes.
export function paintHalves(context, view) {
  const [, other] = view.panes;
  if (other) {
    context.fillStyle = "#888";
    context.fillRect(other.x, other.y, other.x ? 1 : view.canvas.width, other.x ? view.canvas.height : 1);
  }
}

// A name on a dark ground, whose end or beginning is at x.
function paintName(context, text, x, y, isLeft) {
  const size = 12 * scaleOf();
  context.font = `${size}px system-ui, sans-serif`;
  context.textBaseline = "middle";
  const across = context.measureText(text).width + size;
  const left = isLeft ? x - across : x;
  context.fillStyle = "rgba(0, 0, 0, 0.75)";
  context.fillRect(left, y, across, 1.7 * size);
  context.fillStyle = "#fff";
  context.fillText(text, left + size / 2, y + 0.9 * size);
}

// The name of a half: with another result beside the texture, both have their names in the list of results.
function halfName({ state: { other } }, shown) {
  return other ? (shown === "texture" ? other.ownName : other.name) : shown;
}

// Beside the line, or at the window's edge if the line is beyond the edge.
function paintNamesAtLine(context, view, gap) {
  const { x, top } = lineOf(view);
  const { width } = view.canvas;
  if (x > 0) {
    paintName(context, halfName(view, "texture"), Math.min(x, width) - gap, top + gap, true);
  }
  if (x < width) {
    paintName(context, halfName(view, view.partner), Math.max(x, 0) + gap, top + gap, false);
  }
}

// Which half is which.
export function paintNames(context, view) {
  const { making } = view.state;
  const gap = 6 * scaleOf();
  if (making?.isOf(view.state)) {
    paintName(context, making.name, gap, gap, false);
  } else if (view.mode === "split") {
    paintNamesAtLine(context, view, gap);
  } else if (view.mode === "side") {
    view.panes.forEach((pane) => paintName(context, halfName(view, pane.shown), pane.x + gap, pane.y + gap, false));
  }
}
