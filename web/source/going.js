// Where one goes next: to the worst block, to a block that the audit marks, to another texture that was made here.
import { gainOf, rankedMarks, whyBad } from "./audits.js";
import { percent } from "./numbers.js";

// With a line between texture and source, the line moves to the middle of the block, so that both are seen.
function goTo(page, k) {
  const { texture, level } = page.state;
  const [columns] = texture.gridAt(level);
  const column = k % columns;
  if (page.view.mode === "split") {
    page.change({ split: Math.min(1, ((column + 0.5) * texture.blockWidth) / texture.sidesAt(level)[0]) });
  }
  page.view.goTo(column, Math.floor(k / columns));
}

// The place of the selected block among all, or -1.
function selectedPlace({ texture, level, selected }) {
  return selected ? selected.row * texture.gridAt(level)[0] + selected.column : -1;
}

export function nextWorst(page) {
  const { texture, source, weights } = page.state;
  const measure = texture && source ? page.view.measure() : null;
  const worst = measure?.worst(weights) ?? [];
  if (worst.length === 0) {
    page.tell(measure ? "all blocks equal their source" : texture && source ? "measuring blocks …" : "open the source to find the worst block");
    return;
  }
  const rank = (worst.indexOf(selectedPlace(page.state)) + 1) % worst.length;
  goTo(page, worst[rank]);
  page.tell(rank === 0 ? "the worst block of this image" : `block ${rank + 1} of this image, counted from the worst`);
}

// To the marked block that polishing would improve most, then to the next.
export function nextBad(page) {
  const { marks, bettered, texture, level, image, least } = page.state;
  if (!marks || !texture) {
    return;
  }
  const [judged, best] = [marks[level][image], bettered?.[level][image]];
  const ranked = rankedMarks(judged, best, least);
  if (ranked.length === 0) {
    page.tell("no block of this image is marked");
    return;
  }
  const rank = (ranked.indexOf(selectedPlace(page.state)) + 1) % ranked.length;
  const k = ranked[rank];
  goTo(page, k);
  const [columns] = texture.gridAt(level);
  const gain = gainOf(judged, best, k);
  const told = whyBad(judged, k) === 1 ? "the block is invalid" : gain === null ? "the block could be improved" : `polishing would remove ${percent(gain)} of its error`;
  page.tell(`mark ${rank + 1} of ${ranked.length}, column ${k % columns}, row ${Math.floor(k / columns)}: ${told}`);
}

export function nextResult(page) {
  const next = page.results.after(page.state.texture);
  if (next && !page.busy) {
    page.showResult(next);
  }
}
