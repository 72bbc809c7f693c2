// Pictures: PAM files by hand, PNG, JPEG and WebP as the browser reads them, byte for byte.
import { Fault, LONGEST_SIDE, MOST_IMAGES, MOST_TEXELS, fullLevels, sideAt } from "./formats.js";
import { headOf } from "./heads.js";

// One or more images of the same sides, texel after texel; their mip chains are made when they are asked for. Six of them may be a cube's faces.
export class Picture {
  constructor(width, height, images, name, { isCube = false, isFlipped = false, plain = null } = {}) {
    Object.assign(this, { width, height, images: images.length, name, isCube, isFlipped, plain, isDecoded: false, chains: images.map((texels) => [texels]) });
    this.levels = fullLevels(width, height);
    this.blockWidth = 8;
    this.blockHeight = 8;
    this.faces = isCube ? 6 : 1;
    this.elements = images.length > this.faces ? images.length / this.faces : 0;
  }

  // The same with its rows from the bottom.
  flipped() {
    const images = this.chains.map(([texels]) => fromBottom(texels, 4 * this.width));
    return new Picture(this.width, this.height, images, this.name, { isCube: this.isCube, isFlipped: !this.isFlipped, plain: this.plain?.flipped() ?? null });
  }

  // Whether red, green and blue are equal at each texel, as in a picture with X in them and Y in alpha.
  get isGrey() {
    return this.chains.every(([texels]) => texels.every((value, at) => (at & 3) === 3 || value === texels[at & ~3]));
  }

  // A normal map with X in red, green and blue and Y in alpha. `plain` is the picture as it was opened.
  forNormals() {
    const images = this.chains.map(([texels]) => texels.map((_, at) => texels[(at & ~3) + ((at & 3) === 3 ? 1 : 0)]));
    return new Picture(this.width, this.height, images, this.name, { isCube: this.isCube, isFlipped: this.isFlipped, plain: this });
  }

  sidesAt(level) {
    return [sideAt(this.width, level), sideAt(this.height, level)];
  }

  texelsAt(level, image) {
    const chain = this.chains[image];
    while (chain.length <= level) {
      const [width, height] = this.sidesAt(chain.length - 1);
      chain.push(halved(chain[chain.length - 1], width, height));
    }
    return chain[level];
  }
}

function fromBottom(texels, row) {
  const turned = new Uint8Array(texels.length);
  for (let at = 0; at < texels.length; at += row) {
    turned.set(texels.subarray(at, at + row), texels.length - at - row);
  }
  return turned;
}

// The next level of a mip chain: each channel is the mean of four stored bytes, halves rounded up; past the edge the last column or row counts again.
export function halved(texels, width, height) {
  const [across, down] = [Math.max(1, width >> 1), Math.max(1, height >> 1)];
  const made = new Uint8Array(4 * across * down);
  for (let y = 0; y < down; y++) {
    const top = Math.min(2 * y, height - 1) * width;
    const bottom = Math.min(2 * y + 1, height - 1) * width;
    for (let x = 0; x < across; x++) {
      const left = Math.min(2 * x, width - 1);
      const right = Math.min(2 * x + 1, width - 1);
      for (let c = 0; c < 4; c++) {
        const sum = texels[4 * (top + left) + c] + texels[4 * (top + right) + c] + texels[4 * (bottom + left) + c] + texels[4 * (bottom + right) + c];
        made[4 * (y * across + x) + c] = (sum + 2) >> 2;
      }
    }
  }
  return made;
}

// The texels of columns and rows of a larger picture.
export function cut(texels, width, { left, top, across, down }) {
  const part = new Uint8Array(4 * across * down);
  for (let y = 0; y < down; y++) {
    const from = 4 * ((top + y) * width + left);
    part.set(texels.subarray(from, from + 4 * across), 4 * y * across);
  }
  return part;
}

const SMALLER = ": scale the picture down";

export function checkSides(width, height, count = 1) {
  if (width < 1 || height < 1 || width > LONGEST_SIDE || height > LONGEST_SIDE) {
    throw new Fault(`sides ${width} x ${height} are not 1 to ${LONGEST_SIDE}${Math.max(width, height) > LONGEST_SIDE ? SMALLER : ""}`);
  }
  if (width * height * count > MOST_TEXELS) {
    throw new Fault(`${width * height * count} texels are more than ${MOST_TEXELS}${SMALLER}`);
  }
}

export function isPam(bytes) {
  return bytes[0] === 0x50 && bytes[1] === 0x37 && (bytes[2] <= 13 || bytes[2] === 32);
}

export function readPam(bytes, name) {
  const images = [];
  let at = 0;
  let sides = null;
  while (at < bytes.length || sides === null) {
    if (images.length === MOST_IMAGES) {
      throw new Fault(`PAM: more than ${MOST_IMAGES} images`);
    }
    const header = pamHeader(bytes, at, images.length);
    checkSides(header.width, header.height, images.length + 1);
    sides ??= header;
    if (header.width !== sides.width || header.height !== sides.height) {
      throw new Fault(`PAM: image ${images.length} has another size`);
    }
    const end = header.end + header.width * header.height * header.depth;
    if (bytes.length < end) {
      throw new Fault(`PAM: image ${images.length} ends after ${bytes.length - at} bytes`);
    }
    images.push(widened(bytes.subarray(header.end, end), header.depth));
    at = end;
  }
  return new Picture(sides.width, sides.height, images, name);
}

const KNOWN = ["WIDTH", "HEIGHT", "DEPTH", "MAXVAL"];

function pamHeader(bytes, from, image) {
  const front = String.fromCharCode(...bytes.subarray(from, from + 4096));
  const match = /^P7[\t\v\f\r ]*\n([\s\S]*?\n)?[\t\v\f\r ]*ENDHDR[\t\v\f\r ]*\n/.exec(front);
  if (!match) {
    throw new Fault(`PAM: image ${image} has no complete header`);
  }
  const told = {};
  for (const line of (match[1] ?? "").split("\n").map((text) => text.trim())) {
    putPamLine(told, line, image);
  }
  KNOWN.forEach((word) => {
    if (told[word] === undefined) {
      throw new Fault(`PAM: image ${image} has no line ${word}`);
    }
  });
  if (told.MAXVAL !== 255 || told.DEPTH < 1 || told.DEPTH > 4) {
    throw new Fault(`PAM: image ${image} has depth ${told.DEPTH} and MAXVAL ${told.MAXVAL}, not 1 to 4 and 255`);
  }
  return { width: told.WIDTH, height: told.HEIGHT, depth: told.DEPTH, end: from + match[0].length };
}

function putPamLine(told, line, image) {
  const [word, number, ...more] = line.split(/[\t\v\f\r ]+/);
  if (line === "" || line.startsWith("#") || word === "TUPLTYPE") {
    return;
  }
  if (!KNOWN.includes(word) || told[word] !== undefined || more.length > 0 || !/^\d{1,10}$/.test(number ?? "")) {
    throw new Fault(`PAM: image ${image} has an invalid line "${line.slice(0, 60)}"`);
  }
  told[word] = Number(number);
}

// Grey; grey and alpha; red, green, blue; or all four, as all four.
function widened(raster, depth) {
  if (depth === 4) {
    return raster.slice();
  }
  const count = raster.length / depth;
  const texels = new Uint8Array(4 * count).fill(255);
  for (let k = 0; k < count; k++) {
    const own = raster.subarray(depth * k, depth * k + depth);
    const colour = depth === 3 ? own : [own[0], own[0], own[0]];
    texels.set(colour, 4 * k);
    if (depth === 2) {
      texels[4 * k + 3] = own[1];
    }
  }
  return texels;
}

// A picture that the browser decodes, once its front has said that it isn't too large. A 2D canvas would multiply by alpha and lose bytes, so they are
// read back through WebGL.
export async function readByBrowser(blob, name) {
  const { type, sides } = await headOf(blob);
  checkSides(...sides);
  let bitmap;
  try {
    bitmap = await createImageBitmap(blob.slice(0, blob.size, type), { premultiplyAlpha: "none", colorSpaceConversion: "none" });
  } catch {
    throw new Fault(`the browser can't decode this as ${type}: the file is broken, or of an unsupported kind`);
  }
  try {
    checkSides(bitmap.width, bitmap.height);
    const picture = new Picture(bitmap.width, bitmap.height, [texelsOf(bitmap)], name);
    picture.isDecoded = true;
    return picture;
  } finally {
    bitmap.close();
  }
}

// Without WebGL a picture without alpha, of which a 2D canvas keeps each byte.
function opaqueTexels(bitmap) {
  const context = new OffscreenCanvas(bitmap.width, bitmap.height).getContext("2d");
  context.drawImage(bitmap, 0, 0);
  const texels = new Uint8Array(context.getImageData(0, 0, bitmap.width, bitmap.height).data.buffer);
  for (let at = 3; at < texels.length; at += 4) {
    if (texels[at] !== 255) {
      throw new Fault("reading colours with alpha exactly needs WebGL 2, which this browser lacks at this size: open a PAM file, or use another browser");
    }
  }
  return texels;
}

function texelsOf(bitmap) {
  const gl = new OffscreenCanvas(1, 1).getContext("webgl2");
  if (!gl || gl.getParameter(gl.MAX_TEXTURE_SIZE) < Math.max(bitmap.width, bitmap.height)) {
    return opaqueTexels(bitmap);
  }
  gl.pixelStorei(gl.UNPACK_PREMULTIPLY_ALPHA_WEBGL, false);
  gl.pixelStorei(gl.UNPACK_COLORSPACE_CONVERSION_WEBGL, gl.NONE);
  gl.bindTexture(gl.TEXTURE_2D, gl.createTexture());
  gl.texImage2D(gl.TEXTURE_2D, 0, gl.RGBA8, gl.RGBA, gl.UNSIGNED_BYTE, bitmap);
  gl.bindFramebuffer(gl.FRAMEBUFFER, gl.createFramebuffer());
  const texture = gl.getParameter(gl.TEXTURE_BINDING_2D);
  gl.framebufferTexture2D(gl.FRAMEBUFFER, gl.COLOR_ATTACHMENT0, gl.TEXTURE_2D, texture, 0);
  const texels = new Uint8Array(4 * bitmap.width * bitmap.height);
  gl.readPixels(0, 0, bitmap.width, bitmap.height, gl.RGBA, gl.UNSIGNED_BYTE, texels);
  const failed = gl.getError() !== gl.NO_ERROR;
  gl.getExtension("WEBGL_lose_context")?.loseContext();
  if (failed) {
    throw new Fault("the browser could not return the bytes of the picture");
  }
  return texels;
}
