// The sides of a PNG, JPEG or WebP picture, read from the front of its file. Whoever decodes it makes as many texels as they say, so they are looked
// at before. What a front doesn't say plainly is refused: a decoder that is more lenient might find other sides.
import { Fault } from "./formats.js";

// The segments in front of a JPEG's sides are metadata; a file with more of them than this is refused.
const LONGEST_FRONT = 1 << 24;

const PNG = [0x89, 0x50, 0x4e, 0x47, 0x0d, 0x0a, 0x1a, 0x0a];
const JPEG = [0xff, 0xd8, 0xff];

const textAt = (bytes, at) => String.fromCharCode(...bytes.subarray(at, at + 4));

function viewOf(bytes) {
  return new DataView(bytes.buffer, bytes.byteOffset, bytes.byteLength);
}

function need(form, bytes, length) {
  if (bytes.length < length && bytes.length === LONGEST_FRONT) {
    throw new Fault(`${form}: no image size in the first ${LONGEST_FRONT} bytes`);
  }
  if (bytes.length < length) {
    throw new Fault(`${form}: ends after ${bytes.length} bytes, before the image size`);
  }
}

function pngSides(bytes) {
  need("PNG", bytes, 24);
  const view = viewOf(bytes);
  if (view.getUint32(8) !== 13 || textAt(bytes, 12) !== "IHDR") {
    throw new Fault("PNG: no image size at the start");
  }
  return [view.getUint32(16), view.getUint32(20)];
}

// SOF0 to SOF15 but DHT, JPG and DAC, whose numbers lie among them.
const hasSides = (marker) => marker >= 0xc0 && marker <= 0xcf && ![0xc4, 0xc8, 0xcc].includes(marker);

// Tables, restart intervals, application data and comments: the segments that may come before the sides.
const isPassed = (marker) => [0xc4, 0xcc, 0xdb, 0xdd, 0xfe].includes(marker) || (marker >= 0xe0 && marker <= 0xef);

function jpegSides(bytes) {
  const view = viewOf(bytes);
  let at = 2;
  for (;;) {
    need("JPEG", bytes, at + 9);
    if (bytes[at] !== 0xff) {
      throw new Fault(`JPEG: no marker at byte ${at}`);
    }
    const marker = bytes[at + 1];
    if (marker === 0xff) {
      at += 1;
    } else if (hasSides(marker)) {
      return [view.getUint16(at + 7), view.getUint16(at + 5)];
    } else if (isPassed(marker) && view.getUint16(at + 2) >= 2) {
      at += 2 + view.getUint16(at + 2);
    } else {
      throw new Fault(`JPEG: marker ${marker.toString(16)} at byte ${at} is not allowed before the image size, or is too short`);
    }
  }
}

function webpSides(bytes, size) {
  need("WebP", bytes, 25);
  const view = viewOf(bytes);
  const wanted = view.getUint32(4, true) + 8;
  if (size < wanted) {
    throw new Fault(`WebP: ends after ${size} bytes of ${wanted}`);
  }
  const kind = textAt(bytes, 12);
  if (kind === "VP8L" && bytes[20] === 0x2f) {
    const sides = view.getUint32(21, true);
    return [1 + (sides & 0x3fff), 1 + ((sides >>> 14) & 0x3fff)];
  }
  need("WebP", bytes, 30);
  if (kind === "VP8X") {
    const side = (at) => 1 + view.getUint16(at, true) + 65536 * bytes[at + 2];
    return [side(24), side(27)];
  }
  if (kind === "VP8 " && bytes[23] === 0x9d && bytes[24] === 0x01 && bytes[25] === 0x2a) {
    return [view.getUint16(26, true) & 0x3fff, view.getUint16(28, true) & 0x3fff];
  }
  throw new Fault("WebP: no image size at the start");
}

// The type and the sides of a picture by its front.
export async function headOf(blob) {
  const bytes = new Uint8Array(await blob.slice(0, LONGEST_FRONT).arrayBuffer());
  const begins = (signs) => signs.every((sign, k) => bytes[k] === sign);
  if (begins(PNG)) {
    return { type: "image/png", sides: pngSides(bytes) };
  }
  if (begins(JPEG)) {
    return { type: "image/jpeg", sides: jpegSides(bytes) };
  }
  if (textAt(bytes, 0) === "RIFF" && textAt(bytes, 8) === "WEBP") {
    return { type: "image/webp", sides: webpSides(bytes, blob.size) };
  }
  throw new Fault("not a texture (.ktx, .astc) or a PAM, PNG, JPEG or WebP picture");
}
