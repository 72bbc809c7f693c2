// How far a texture is from its source: the squared differences of each block and channel, which are exact, and the largest difference.
import { cut } from "./pictures.js";

const TEXELS_AT_ONCE = 1 << 19;
const MOST_MEASURES = 12;
const MOST_RANKED = 1000;

// Of each block of an area, four sums, a channel each; and the largest difference, its channel and its texel.
export function channelSums(texels, others, { width, height }, blockWidth, blockHeight) {
  const columns = Math.ceil(width / blockWidth);
  const sums = new Uint32Array(4 * columns * Math.ceil(height / blockHeight));
  let [most, place] = [0, 0];
  for (let at = 0, y = 0; y < height; y++) {
    const row = columns * Math.floor(y / blockHeight);
    for (let x = 0; x < width; x++) {
      const to = 4 * (row + Math.floor(x / blockWidth));
      for (let c = 0; c < 4; c++, at++) {
        const apart = Math.abs(texels[at] - others[at]);
        sums[to + c] += apart * apart;
        if (apart > most) {
          [most, place] = [apart, at];
        }
      }
    }
  }
  const texel = place >> 2;
  return { sums, largest: Uint32Array.of(most, place & 3, texel % width, Math.floor(texel / width)) };
}

// The peak signal-to-noise ratio of this many bytes with this sum of squared differences.
function ratioOf(sum, bytes) {
  return sum === 0 ? Infinity : 10 * Math.log10((255 * 255 * bytes) / sum);
}

// What is measured of an image.
class Measure {
  constructor(texture, level) {
    [this.width, this.height] = texture.sidesAt(level);
    [this.columns, this.rows] = texture.gridAt(level);
    this.sums = new Uint32Array(4 * this.columns * this.rows);
    this.largest = [0, 0, 0, 0];
    this.kept = new Map();
  }

  put(texture, row, { sums, largest }) {
    this.sums.set(sums, 4 * this.columns * row);
    if (largest[0] > this.largest[0]) {
      this.largest = [largest[0], largest[1], largest[2], largest[3] + row * texture.blockHeight];
    }
  }

  // The error of each block, each channel as often as its weight says, and their sum.
  errors(weights) {
    const key = weights.join();
    if (!this.kept.has(key)) {
      const all = new Float64Array(this.sums.length / 4);
      let total = 0;
      for (let k = 0; k < all.length; k++) {
        for (let c = 0; c < 4; c++) {
          all[k] += weights[c] * this.sums[4 * k + c];
        }
        total += all[k];
      }
      this.kept.set(key, { all, total });
    }
    return this.kept.get(key);
  }

  // The ratio over red, green and blue, and over all four.
  ratios() {
    const sums = [0, 0, 0, 0];
    this.sums.forEach((sum, k) => (sums[k & 3] += sum));
    const colours = sums[0] + sums[1] + sums[2];
    const count = this.width * this.height;
    return { colours: ratioOf(colours, 3 * count), all: ratioOf(colours + sums[3], 4 * count) };
  }

  // The ratio over all channels by their weights.
  ratioBy(weights) {
    const sum = weights.reduce((one, other) => one + other, 0);
    return ratioOf(this.errors(weights).total, sum * this.width * this.height);
  }

  // The blocks that are furthest from their sources, the worst first; a thousand at most, and some more where they are equal.
  worst(weights) {
    const { all } = this.errors(weights);
    const order = all.slice().sort();
    const least = Math.max(1, order[Math.max(0, order.length - MOST_RANKED)]);
    const found = [];
    all.forEach((error, k) => error >= least && found.push(k));
    return found.sort((a, b) => all[b] - all[a] || a - b);
  }
}

// One call of a worker about a band of rows of blocks.
async function measureBand(pool, measure, { texture, picture, level, image }, row, count) {
  const rows = texture.rowsAt(level, row, count);
  const blocks = texture.blocksAt(level, image).slice(16 * measure.columns * row, 16 * measure.columns * (row + count));
  const others = cut(picture.texelsAt(level, image), rows.width, { left: 0, top: row * texture.blockHeight, across: rows.width, down: rows.height });
  const { blockWidth, blockHeight } = texture;
  measure.put(texture, row, await pool.run("measure", { rows, blocks, others, blockWidth, blockHeight }));
}

// Measures a whole image; null if the measure isn't needed any more.
async function measureImage(pool, subject, isWanted = () => true) {
  const measure = new Measure(subject.texture, subject.level);
  const step = Math.max(1, Math.floor(TEXELS_AT_ONCE / (measure.width * subject.texture.blockHeight)));
  let next = 0;
  const lane = async () => {
    while (next < measure.rows && isWanted()) {
      const row = next;
      next += step;
      await measureBand(pool, measure, subject, row, Math.min(step, measure.rows - row));
    }
  };
  await Promise.all(Array.from({ length: pool.count }, lane));
  return isWanted() ? measure : null;
}

// The latest measures; one that nobody asks for any more is given up.
export class Measures {
  constructor(pool, onMade) {
    Object.assign(this, { pool, onMade, kept: new Map(), wanted: "", begun: new Set(), pinned: new Set() });
  }

  static key({ texture, picture, level, image }) {
    return `${texture.serial}/${picture.serial}/${level}/${image}`;
  }

  // The measure of an image, or null until it is there.
  of(subject) {
    this.wanted = Measures.key(subject);
    const kept = this.kept.get(this.wanted);
    if (!kept && !this.begun.has(this.wanted)) {
      this.begin(this.wanted, subject);
    }
    return kept ?? null;
  }

  // Measures an image to its end, whatever is asked for in the meantime.
  pin(subject) {
    this.pinned.add(Measures.key(subject));
    this.of(subject);
  }

  async begin(key, subject) {
    this.begun.add(key);
    try {
      const measure = await measureImage(this.pool, subject, () => this.wanted === key || this.pinned.has(key));
      if (measure) {
        this.keep(key, measure);
        this.onMade(subject, measure);
      }
    } finally {
      this.begun.delete(key);
      this.pinned.delete(key);
    }
  }

  keep(key, measure) {
    this.kept.set(key, measure);
    while (this.kept.size > MOST_MEASURES) {
      this.kept.delete(this.kept.keys().next().value);
    }
  }
}

// The sums of a texture's images under weights, for each level and image.
export async function sumsOf(pool, texture, picture, weights) {
  const sums = [];
  for (let level = 0; level < texture.levels; level++) {
    const own = [];
    for (let image = 0; image < texture.images; image++) {
      own.push((await measureImage(pool, { texture, picture, level, image })).errors(weights).total);
    }
    sums.push(own);
  }
  return sums;
}
