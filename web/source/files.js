// Files of blocks: KTX and .astc, read and written. Nothing is made by the numbers of a header before the file is known to hold it.
import {
  FOOTPRINTS, LONGEST_SIDE, MOST_TEXELS, astcFault, covering, formatOf, imageSizeFault, ktxFault, placeOfSides, shortFault, sideAt, sidesOf, trailingFault,
} from "./formats.js";

const IDENTIFIER = [0xab, 0x4b, 0x54, 0x58, 0x20, 0x31, 0x31, 0xbb, 0x0d, 0x0a, 0x1a, 0x0a];
const MAGIC = [0x13, 0xab, 0xa1, 0x5c];

// A texture: the shape, the start of the blocks of each level, and whether the file has the flavour. The page gives each a serial number.
export class Texture {
  constructor(shape, bytes, starts, name, tellsFlavour = true) {
    Object.assign(this, shape, { bytes, starts, name, tellsFlavour, serial: null });
    [this.blockWidth, this.blockHeight] = sidesOf(shape.format);
    this.images = Math.max(1, this.elements) * this.faces;
  }

  sidesAt(level) {
    return [sideAt(this.width, level), sideAt(this.height, level)];
  }

  gridAt(level) {
    const [width, height] = this.sidesAt(level);
    return [covering(width, this.blockWidth), covering(height, this.blockHeight)];
  }

  // The blocks of an image, in rows from the top.
  blocksAt(level, image) {
    const [columns, rows] = this.gridAt(level);
    const from = this.starts[level] + 16 * columns * rows * image;
    return this.bytes.subarray(from, from + 16 * columns * rows);
  }

  // The same blocks in a flavour, for a file that has none.
  inFlavour(isSrgb) {
    return new Texture({ ...this, format: formatOf(this.format & 15, isSrgb) }, this.bytes, this.starts, this.name, this.tellsFlavour);
  }

  // What a call about rows of an image says, where these rows are handed over as a picture of their own: whole rows of blocks but the last, so
  // each block has the same source as in the whole picture.
  rowsAt(level, first, count) {
    const [width, height] = this.sidesAt(level);
    const from = first * this.blockHeight;
    return { width, height: Math.min(height - from, count * this.blockHeight), format: this.format, first: 0, count };
  }
}

export function levelBytes(shape, level) {
  const [blockWidth, blockHeight] = sidesOf(shape.format);
  const blocks = covering(sideAt(shape.width, level), blockWidth) * covering(sideAt(shape.height, level), blockHeight);
  return 16 * blocks * Math.max(1, shape.elements) * shape.faces;
}

function levelSize(shape, level) {
  return shape.elements === 0 ? levelBytes(shape, level) / shape.faces : levelBytes(shape, level);
}

export function isKtx(bytes) {
  return IDENTIFIER.slice(0, 4).every((byte, k) => bytes[k] === byte);
}

export function isAstc(bytes) {
  return MAGIC.every((byte, k) => bytes[k] === byte);
}

export function readKtx(proved, bytes, name) {
  const header = proved.header(bytes);
  if (header.fault !== 0) {
    throw ktxFault(header.fault, header.first, header.second);
  }
  const view = new DataView(bytes.buffer, bytes.byteOffset, bytes.byteLength);
  const starts = [];
  let at = 64 + header.keyBytes;
  if (bytes.length < at) {
    throw shortFault(bytes.length);
  }
  for (let level = 0; level < header.levels; level++) {
    at = readLevel(header, level, at, view);
    starts.push(at);
    at += levelBytes(header, level);
    if (bytes.length < at) {
      throw shortFault(bytes.length);
    }
  }
  if (bytes.length > at) {
    throw trailingFault();
  }
  return new Texture(header, bytes, starts, name);
}

// The start of a level's blocks, after the size of the level.
function readLevel(header, level, at, view) {
  if (view.byteLength < at + 4) {
    throw shortFault(view.byteLength);
  }
  const found = view.getUint32(at, header.isBig === 0);
  const wanted = levelSize(header, level);
  if (found !== wanted) {
    throw imageSizeFault(level, found, wanted);
  }
  return at + 4;
}

export function readAstc(bytes, name) {
  if (bytes.length < 16) {
    throw astcFault(1);
  }
  if (!isAstc(bytes)) {
    throw astcFault(2);
  }
  const number = (at) => bytes[at] + 256 * bytes[at + 1] + 65536 * bytes[at + 2];
  const place = placeOfSides(bytes[4], bytes[5]);
  if (place < 0 || bytes[6] !== 1) {
    throw astcFault(3);
  }
  const [width, height, depth] = [number(7), number(10), number(13)];
  const fits = (side) => side >= 1 && side <= LONGEST_SIDE;
  if (!fits(width) || !fits(height) || depth !== 1) {
    throw astcFault(4);
  }
  if (width * height > MOST_TEXELS) {
    throw astcFault(5);
  }
  const shape = { format: formatOf(place, false), width, height, elements: 0, faces: 1, levels: 1 };
  const wanted = 16 + levelBytes(shape, 0);
  if (bytes.length !== wanted) {
    throw astcFault(bytes.length < wanted ? 6 : 7);
  }
  return new Texture(shape, bytes, [16], name, false);
}

// A texture of this shape whose blocks aren't made yet: a KTX file with its header and sizes.
export function blankKtx(shape, name) {
  const sizes = Array.from({ length: shape.levels }, (_, level) => levelBytes(shape, level));
  const bytes = new Uint8Array(92 + sizes.reduce((sum, size) => sum + 4 + size, 0));
  const view = new DataView(bytes.buffer);
  putHeader(shape, bytes, view);
  const starts = [];
  let at = 92;
  sizes.forEach((size, level) => {
    view.setUint32(at, levelSize(shape, level), true);
    starts.push(at + 4);
    at += 4 + size;
  });
  return new Texture(shape, bytes, starts, name);
}

function putHeader(shape, bytes, view) {
  bytes.set(IDENTIFIER);
  const words = [0x04030201, 0, 1, 0, shape.format, 0x1908, shape.width, shape.height, 0, shape.elements, shape.faces, shape.levels, 28, 23];
  words.forEach((word, k) => view.setUint32(12 + 4 * k, word, true));
  bytes.set(new TextEncoder().encode(`KTXorientation\0S=r,T=${shape.isFlipped ? "u" : "d"}\0`), 68);
}

// The KTX file of a texture, as it is written.
export function writeKtx(texture) {
  const made = blankKtx(texture, texture.name);
  for (let level = 0; level < texture.levels; level++) {
    const from = texture.starts[level];
    made.bytes.set(texture.bytes.subarray(from, from + levelBytes(texture, level)), made.starts[level]);
  }
  return made.bytes;
}

// The plain file of one image.
export function writeAstc(texture, level, image) {
  const [width, height] = texture.sidesAt(level);
  const [blockWidth, blockHeight] = FOOTPRINTS[texture.format & 15];
  const low = (side) => [side & 255, (side >> 8) & 255, side >> 16];
  const header = [...MAGIC, blockWidth, blockHeight, 1, ...low(width), ...low(height), ...low(1)];
  const blocks = texture.blocksAt(level, image);
  const bytes = new Uint8Array(16 + blocks.length);
  bytes.set(header);
  bytes.set(blocks, 16);
  return bytes;
}
