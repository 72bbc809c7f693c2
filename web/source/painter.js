// Paints the canvas: the image, both with a line between or side by side, how far they are apart, and what is being made of them.
import { averaged, coloursOf, differencesOf } from "./colours.js";
import { heatImage } from "./heat.js";
import { lineOf, paintGrid, paintHalves, paintLine, paintMarks, paintNames, paintSelection } from "./overlays.js";
import { placesOf, texelsAPlace, texelsIn } from "./places.js";
import { tileSides } from "./tiles.js";

const MOST_PLACES_KEPT = 24_000_000;
const MILLISECONDS_A_FRAME = 14;

export class Painter {
  constructor(view, tiles) {
    Object.assign(this, { view, tiles, drawn: new Map(), size: 0, whole: true });
  }

  paint() {
    const context = this.view.canvas.getContext("2d", { willReadFrequently: true });
    context.imageSmoothingEnabled = false;
    context.clearRect(0, 0, this.view.canvas.width, this.view.canvas.height);
    this.whole = true;
    this.late = performance.now() + MILLISECONDS_A_FRAME;
    if (!this.view.subject) {
      return;
    }
    for (const pane of this.view.panes) {
      context.save();
      context.beginPath();
      context.rect(pane.x, pane.y, pane.width, pane.height);
      context.clip();
      this.paintPane(context, pane);
      context.restore();
    }
    paintHalves(context, this.view);
    paintNames(context, this.view);
  }

  paintPane(context, pane) {
    const { making } = this.view.state;
    if (making?.isOf(this.view.state)) {
      if (making.beneath) {
        this.paintImage(context, pane, making.beneath);
      }
      making.paint(context, this.view, pane);
      return;
    }
    if (this.view.mode === "split") {
      this.paintSplit(context, pane);
    } else {
      this.paintImage(context, pane, pane.shown);
    }
    const line = this.view.mode === "split" ? [paintLine] : [];
    [paintGrid, paintMarks, ...line, paintSelection].forEach((paint) => paint(context, this.view, pane));
  }

  // The texture is at the left of the line, the source or another result at its right.
  paintSplit(context, pane) {
    const { x } = lineOf(this.view);
    for (const [shown, from, to] of [["texture", 0, x], [this.view.partner, x, this.view.canvas.width]]) {
      context.save();
      context.beginPath();
      context.rect(from, 0, Math.max(0, to - from), this.view.canvas.height);
      context.clip();
      this.paintImage(context, pane, shown);
      context.restore();
    }
  }

  paintImage(context, pane, shown) {
    if (shown === "errors") {
      this.paintHeat(context, pane);
      return;
    }
    const { zoom } = this.view.state;
    const [x, y] = this.view.cornerIn(pane);
    for (const area of this.areas(pane)) {
      const drawn = this.drawnOf(area, shown);
      this.whole &&= drawn !== null;
      if (drawn) {
        const [left, top] = [placesOf(area.left, zoom), placesOf(area.top, zoom)];
        context.drawImage(drawn, x + left, y + top, placesOf(area.across, zoom), placesOf(area.down, zoom));
      }
    }
  }

  // A colour a block, as far as the image goes.
  paintHeat(context, pane) {
    const measure = this.view.measure();
    this.whole &&= measure !== null;
    if (!measure) {
      return;
    }
    const { texture, zoom, weights } = this.view.state;
    const [x, y] = this.view.cornerIn(pane);
    context.save();
    context.beginPath();
    context.rect(x, y, ...this.view.sides.map((side) => placesOf(side, zoom)));
    context.clip();
    context.imageSmoothingEnabled = zoom * texture.blockWidth < 1;
    context.drawImage(heatImage(measure, weights, texture), x, y, measure.columns * texture.blockWidth * zoom, measure.rows * texture.blockHeight * zoom);
    context.restore();
  }

  // The tiles in sight.
  areas(pane) {
    const [width, height] = this.view.sides;
    const { zoom } = this.view.state;
    const [left, top] = [Math.max(0, this.view.state.left), Math.max(0, this.view.state.top)];
    const [across, down] = tileSides(this.view.subject, zoom);
    const right = Math.min(width, this.view.state.left + Math.ceil(texelsIn(pane.width, zoom)) + 1);
    const bottom = Math.min(height, this.view.state.top + Math.ceil(texelsIn(pane.height, zoom)) + 1);
    const all = [];
    for (let y = top - (top % down); y < bottom; y += down) {
      for (let x = left - (left % across); x < right; x += across) {
        all.push({ left: x, top: y, across: Math.min(across, width - x), down: Math.min(down, height - y) });
      }
    }
    return all;
  }

  // A tile as it is shown, or null until its texels are there and there is time to colour them.
  drawnOf(area, shown) {
    const { texture, source, other, level, image, channel, gain, zoom } = this.view.state;
    const subjects = { texture, source, other: other?.texture };
    const of = subjects[shown]?.serial ?? `${texture.serial}-${source.serial}/${gain}`;
    const key = `${shown}/${of}/${channel}/${texelsAPlace(zoom)}/${level}/${image}/${area.left}/${area.top}/${area.across}`;
    const kept = this.drawn.get(key);
    if (kept) {
      this.drawn.delete(key);
      this.drawn.set(key, kept);
      return kept;
    }
    if (performance.now() > this.late) {
      this.view.draw();
      return null;
    }
    const colours = this.colours(area, shown);
    return colours && this.keep(key, texelsAPlace(zoom) === 1 ? colours : averaged(colours, texelsAPlace(zoom)));
  }

  keep(key, image) {
    const canvas = new OffscreenCanvas(image.width, image.height);
    canvas.getContext("2d").putImageData(image, 0, 0);
    this.drawn.set(key, canvas);
    this.size += canvas.width * canvas.height;
    for (const [other, dropped] of this.drawn) {
      if (this.size <= MOST_PLACES_KEPT) {
        break;
      }
      this.drawn.delete(other);
      this.size -= dropped.width * dropped.height;
    }
    return canvas;
  }

  // The colours of an area, or null until its texels are there.
  colours(area, shown) {
    const { texture, source, other, level, image, channel, gain } = this.view.state;
    const texels = this.tiles.get({ source, other: other?.texture }[shown] ?? texture, level, image, area);
    if (!texels || shown !== "difference") {
      return texels && coloursOf(texels, area, channel);
    }
    return differencesOf(texels, this.tiles.get(source, level, image, area), area, channel, gain);
  }
}
