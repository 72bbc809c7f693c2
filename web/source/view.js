// The view: a texture and its source, a level and an image, and the position on the canvas.
import { Painter } from "./painter.js";
import { broughtStart, fitZoom, heldStart, nearestZoom, steppedZoom, texelsIn } from "./places.js";

// The least number of places of the canvas for a block after a jump to it.
const LEAST_SEEN = 64;

export class View {
  constructor(canvas, { tiles, measures, onSelect, onPlaced, onMoved }) {
    Object.assign(this, { canvas, measures, onSelect, onPlaced, onMoved, frame: 0, isFitted: true });
    this.painter = new Painter(this, tiles);
    this.state = {
      texture: null, source: null, level: 0, image: 0, zoom: 1, left: 0, top: 0, channel: "over", mode: "texture", gain: 8, split: 0.5, grid: false,
      marks: null, bettered: null, audited: null, least: 0.05, other: null, selected: null, making: null, weights: [1, 1, 1, 1],
    };
    new ResizeObserver(() => this.resize()).observe(canvas);
  }

  // The subject of the view: the texture, or a picture alone.
  get subject() {
    return this.state.texture ?? this.state.source;
  }

  // What is shown of what there is.
  get mode() {
    const { texture, source, mode } = this.state;
    return !texture ? "source" : !source ? "texture" : mode;
  }

  // What is beside the texture: another result, or the source.
  get partner() {
    return this.state.other ? "other" : "source";
  }

  // The panes of the canvas, each with its content. All have the same sides and show the same texels.
  get panes() {
    const { width, height } = this.canvas;
    if (this.mode !== "side") {
      return [{ x: 0, y: 0, width, height, shown: this.mode }];
    }
    const isWide = width >= height;
    const [across, down] = isWide ? [Math.floor(width / 2), height] : [width, Math.floor(height / 2)];
    return [
      { x: 0, y: 0, width: across, height: down, shown: "texture" },
      { x: isWide ? across : 0, y: isWide ? 0 : down, width: across, height: down, shown: this.partner },
    ];
  }

  // The position of the image's corner in a pane.
  cornerIn(pane) {
    const { left, top, zoom } = this.state;
    return [pane.x + Math.round(0 - left * zoom), pane.y + Math.round(0 - top * zoom)];
  }

  get sides() {
    return this.subject.sidesAt(this.state.level);
  }

  // Whether all that is in sight has been painted.
  get whole() {
    return this.painter.whole;
  }

  // Whether an area of the image is in sight.
  isInSight(area) {
    const [pane] = this.panes;
    const { left, top, zoom } = this.state;
    const [right, bottom] = [left + texelsIn(pane.width, zoom), top + texelsIn(pane.height, zoom)];
    return area.left < right && area.top < bottom && area.left + area.across > left && area.top + area.down > top;
  }

  change(more) {
    if (["zoom", "left", "top"].some((name) => name in more)) {
      this.isFitted = false;
    }
    Object.assign(this.state, more);
    this.place();
  }

  // Keeps the image in its place, and draws it.
  place() {
    if (this.subject) {
      const [pane] = this.panes;
      const [width, height] = this.sides;
      const { left, top, zoom } = this.state;
      this.state.left = heldStart(left, width, pane.width, zoom);
      this.state.top = heldStart(top, height, pane.height, zoom);
    }
    this.onMoved();
    this.draw();
  }

  resize() {
    const scale = window.devicePixelRatio || 1;
    this.canvas.width = Math.max(1, Math.round(this.canvas.clientWidth * scale));
    this.canvas.height = Math.max(1, Math.round(this.canvas.clientHeight * scale));
    if (this.isFitted && this.subject) {
      this.zoomToFit();
    } else {
      this.place();
    }
  }

  zoomToFit() {
    const [pane] = this.panes;
    this.change({ zoom: fitZoom(this.sides, [pane.width, pane.height]) });
    this.isFitted = true;
    this.onPlaced();
  }

  // A step of zoom about a place of the canvas.
  zoomAbout(step, x, y) {
    this.zoomTo(steppedZoom(this.state.zoom, step), x, y);
  }

  zoomTo(zoom, x, y) {
    const pane = this.paneAt(x, y);
    const keep = (from, place) => from + place / this.state.zoom - place / zoom;
    this.change({ zoom, left: keep(this.state.left, x - pane.x), top: keep(this.state.top, y - pane.y) });
    this.onPlaced();
  }

  zoomNear(number, x, y) {
    this.zoomTo(nearestZoom(number), x, y);
  }

  paneAt(x, y) {
    return this.panes.findLast((pane) => x >= pane.x && y >= pane.y) ?? this.panes[0];
  }

  // The texel under a place of the canvas with its block, or null.
  blockUnder(x, y) {
    if (!this.subject) {
      return null;
    }
    const [cornerX, cornerY] = this.cornerIn(this.paneAt(x, y));
    const [width, height] = this.sides;
    const texel = [x - cornerX, y - cornerY].map((place) => Math.floor(texelsIn(Math.floor(place), this.state.zoom)));
    const isInside = texel[0] >= 0 && texel[1] >= 0 && texel[0] < width && texel[1] < height;
    return isInside ? this.blockOf(texel) : null;
  }

  blockOf([x, y]) {
    const { blockWidth, blockHeight } = this.subject;
    return { column: Math.floor(x / blockWidth), row: Math.floor(y / blockHeight), texel: [x, y] };
  }

  select(block) {
    this.state.selected = block;
    this.onSelect(block);
    this.onMoved();
    this.draw();
  }

  // Selects a block by its column and row, and brings it in sight.
  selectAt(column, row) {
    const { blockWidth, blockHeight } = this.subject;
    const [pane] = this.panes;
    const { left, top, zoom } = this.state;
    this.state.left = broughtStart(left, column * blockWidth, blockWidth, pane.width, zoom);
    this.state.top = broughtStart(top, row * blockHeight, blockHeight, pane.height, zoom);
    this.place();
    this.select(this.blockOf([column * blockWidth, row * blockHeight]));
  }

  // Selects a block in the middle of the window, so large that it is seen.
  goTo(column, row) {
    const { blockWidth, blockHeight } = this.subject;
    const zoom = Math.max(this.state.zoom, Math.ceil(LEAST_SEEN / Math.min(blockWidth, blockHeight)));
    const [pane] = this.panes;
    const middle = (place, unit, room) => (place + 0.5) * unit - texelsIn(room, zoom) / 2;
    this.change({ zoom, left: middle(column, blockWidth, pane.width), top: middle(row, blockHeight, pane.height) });
    this.onPlaced();
    this.selectAt(column, row);
  }

  // Selects the block this many columns and rows further.
  moveSelection(columns, rows) {
    const { blockWidth, blockHeight } = this.subject;
    const [width, height] = this.sides;
    const { selected, left, top } = this.state;
    const first = (start, unit) => Math.floor(Math.max(0, start) / unit);
    const own = selected ?? { column: first(left, blockWidth) - columns, row: first(top, blockHeight) - rows };
    const within = (place, side, unit) => Math.min(Math.max(0, place), Math.ceil(side / unit) - 1);
    this.selectAt(within(own.column + columns, width, blockWidth), within(own.row + rows, height, blockHeight));
  }

  // What is measured of the image that is shown, or null until it is.
  measure() {
    const { texture, source: picture, level, image } = this.state;
    return texture && picture ? this.measures.of({ texture, picture, level, image }) : null;
  }

  draw() {
    if (!this.frame) {
      this.frame = requestAnimationFrame(() => {
        this.frame = 0;
        this.painter.paint();
      });
    }
  }
}
