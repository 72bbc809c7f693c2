// What the formats fix: footprints, presets, limits, and the texts of faults as the program has them.

export const FOOTPRINTS = [
  [4, 4], [5, 4], [5, 5], [6, 5], [6, 6], [8, 5], [8, 6], [8, 8], [10, 5], [10, 6], [10, 8], [10, 10], [12, 10], [12, 12],
];

export const PRESETS = ["flat", "quick", "medium", "thorough", "pairs"];

// What each is for, in the order in which they are offered.
export const PRESET_USES = { quick: "everyday", medium: "releases", thorough: "overnight", pairs: "two values at a time", flat: "one colour per block" };

// Kinds of pictures with their usual settings, as in README: block size, preset, flavour and channel weights.
export const KINDS = {
  colour: { name: "colour", sides: [6, 6], preset: "quick", flavour: "srgb", weights: [1, 1, 1, 1] },
  normal: { name: "normal map", sides: [5, 5], preset: "medium", flavour: "linear", weights: [1, 0, 0, 1] },
  mask: { name: "mask, roughness", sides: [6, 6], preset: "quick", flavour: "linear", weights: [1, 1, 1, 1] },
  text: { name: "text, UI", sides: [4, 4], preset: "medium", flavour: "srgb", weights: [1, 1, 1, 1] },
  sky: { name: "sky", sides: [8, 8], preset: "quick", flavour: "srgb", weights: [1, 1, 1, 1] },
};

// In the order in which a file has them.
export const FACES = ["+X", "-X", "+Y", "-Y", "+Z", "-Z"];

export const LONGEST_SIDE = 8192;
export const MOST_TEXELS = 33554432;
export const MOST_ELEMENTS = 2048;
export const MOST_IMAGES = 6 * MOST_ELEMENTS;

const LINEAR = 0x93b0;
const SRGB = 0x93d0;

// The number in OpenGL of a footprint by its place, in a flavour.
export function formatOf(place, isSrgb) {
  return (isSrgb ? SRGB : LINEAR) + place;
}

export function isSrgb(format) {
  return format >= SRGB;
}

export function sidesOf(format) {
  return FOOTPRINTS[format & 15];
}

// How many bits of blocks a texel takes.
export function bitsOf(format) {
  const [width, height] = sidesOf(format);
  return 128 / (width * height);
}

export function nameOf(format) {
  const [width, height] = sidesOf(format);
  return `${width}x${height} ${isSrgb(format) ? "sRGB" : "linear"}`;
}

export function placeOfSides(width, height) {
  return FOOTPRINTS.findIndex((sides) => sides[0] === width && sides[1] === height);
}

export function covering(side, unit) {
  return Math.ceil(side / unit);
}

export function sideAt(side, level) {
  return Math.max(1, side >> level);
}

export function fullLevels(width, height) {
  return 32 - Math.clz32(Math.max(width, height));
}

// A fault of a file: the text is shown without changes.
export class Fault extends Error {}

const KTX_FAULTS = [
  null,
  (n) => `KTX: only ${n} bytes`,
  (n) => `KTX: byte ${n} of the identifier is wrong`,
  (n) => `KTX: endianness ${n}`,
  (kind, format) => `KTX: type ${kind} format ${format} is not compressed`,
  (n) => `KTX: unknown format ${n}`,
  (width, height) => `KTX: sides ${width} x ${height} are not 1 to 8192`,
  (n) => `KTX: depth ${n}`,
  (n) => `KTX: ${n} elements are more than 2048`,
  (n) => `KTX: ${n} faces`,
  (width, height) => `KTX: faces ${width} x ${height} are not square`,
  (n) => `KTX: too many levels ${n}`,
  (n) => `KTX: ${n} bytes of keys are more than 1048576`,
  (n) => `${n} texels are more than 33554432`,
];

export function ktxFault(number, first, second) {
  return new Fault(KTX_FAULTS[number](first, second));
}

export const imageSizeFault = (level, found, wanted) => new Fault(`KTX: level ${level} has size ${found} and not ${wanted}`);
export const shortFault = (length) => new Fault(`KTX: ends after ${length} bytes`);
export const trailingFault = () => new Fault("KTX: bytes after the last block");

export const ASTC_FAULTS = [null, "short header", "magic number", "footprint", "sides", "too many texels", "short data", "trailing bytes"];

export function astcFault(number) {
  return new Fault(`.astc: fault ${number} (${ASTC_FAULTS[number]})`);
}

export const BLOCK_FAULTS = [
  null,
  "the block mode is reserved",
  "a constant colour of the HDR profile",
  "the reserved bits of a void extent are not both 1",
  "the void extent's smallest coordinate is not below its largest",
  "the weight grid is larger than the footprint",
  "more than 64 weights",
  "the weights take fewer than 24 or more than 96 bits",
  "two planes and four partitions",
  "more than 18 colour integers",
  "an endpoint mode of the HDR profile",
  "too few bits are left for the colour integers",
];

export const ENDPOINT_MODES = [
  "luminance, direct", "luminance, base and offset", "HDR", "HDR", "luminance and alpha, direct", "luminance and alpha, base and offset",
  "RGB, base and scale", "HDR", "RGB, direct", "RGB, base and offset", "RGB, base and scale, and two alphas", "HDR", "RGBA, direct",
  "RGBA, base and offset", "HDR", "HDR",
];

export const ARGUMENTS = [null, "width", "height", "format", "first row", "number of rows", "preset", "weights", "texels", "blocks"];
