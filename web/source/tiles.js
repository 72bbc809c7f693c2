// Tiles of texels of a texture, shown by the module in workers; the latest are kept. A picture's texels are there at once.
import { covering } from "./formats.js";
import { texelsAPlace } from "./places.js";
import { cut } from "./pictures.js";

const ABOUT = 256;
const LARGEST_UNIT = 4;
const MOST_TEXELS_KEPT = 12_000_000;

// How many texels a tile has: at 1:1 and above whole blocks, below whole places of the canvas.
export function tileSides(subject, zoom) {
  const unit = texelsAPlace(zoom);
  if (unit === 1) {
    const whole = (side) => side * Math.floor(ABOUT / side);
    return [whole(subject.blockWidth), whole(subject.blockHeight)];
  }
  const side = unit * Math.floor((ABOUT * Math.min(LARGEST_UNIT, unit)) / unit);
  return [side, side];
}

export class Tiles {
  constructor(pool, onMade, onFault) {
    Object.assign(this, { pool, onMade, onFault, kept: new Map(), pending: new Set(), size: 0 });
  }

  // The texels of a part of an image, or null until they are made. Few are made at a time: whoever draws asks again for what is still in sight.
  get(subject, level, image, area) {
    if (subject.chains) {
      return cut(subject.texelsAt(level, image), subject.sidesAt(level)[0], area);
    }
    const key = `${subject.serial}/${level}/${image}/${area.left}/${area.top}/${area.across}/${area.down}`;
    const texels = this.kept.get(key);
    if (texels) {
      this.kept.delete(key);
      this.kept.set(key, texels);
      return texels;
    }
    if (!this.pending.has(key) && this.pending.size < 2 * this.pool.count) {
      this.begin(key, subject, level, image, area);
    }
    return null;
  }

  async begin(key, subject, level, image, area) {
    this.pending.add(key);
    try {
      this.keep(key, await this.make(subject, level, image, area));
      this.pending.delete(key);
      this.onMade();
    } catch (cause) {
      this.onFault(cause);
    }
  }

  keep(key, texels) {
    this.kept.set(key, texels);
    this.size += texels.length / 4;
    for (const [other, dropped] of this.kept) {
      if (this.size <= MOST_TEXELS_KEPT || other === key) {
        return;
      }
      this.kept.delete(other);
      this.size -= dropped.length / 4;
    }
  }

  // The texels that the blocks of an area show: those of all blocks that it touches, cut to it.
  async make(texture, level, image, area) {
    const { blockWidth, blockHeight } = texture;
    const [width, height] = texture.sidesAt(level);
    const [columns] = texture.gridAt(level);
    const [left, top] = [area.left - (area.left % blockWidth), area.top - (area.top % blockHeight)];
    const own = covering(area.left + area.across - left, blockWidth);
    const count = covering(area.top + area.down - top, blockHeight);
    const all = texture.blocksAt(level, image);
    const blocks = new Uint8Array(16 * own * count);
    for (let row = 0; row < count; row++) {
      const from = 16 * ((top / blockHeight + row) * columns + left / blockWidth);
      blocks.set(all.subarray(from, from + 16 * own), 16 * own * row);
    }
    const [across, down] = [Math.min(own * blockWidth, width - left), Math.min(count * blockHeight, height - top)];
    const rows = { width: across, height: down, format: texture.format, first: 0, count };
    const { texels } = await this.pool.run("show", { rows, blocks, texelCount: across * down }, { first: true });
    const isWhole = across === area.across && down === area.down;
    return isWhole ? texels : cut(texels, across, { left: area.left - left, top: area.top - top, across: area.across, down: area.down });
  }
}
