// The proved code as WebAssembly: what it exports, over typed arrays. Addresses have 64 bits, so pointers and lengths go in as BigInt.
import { ARGUMENTS } from "./formats.js";

const align = (address) => (address + 15) & ~15;

export class ProvedModule {
  static async from(compiled) {
    const instance = await WebAssembly.instantiate(compiled, {});
    return new ProvedModule(instance.exports);
  }

  constructor(exports) {
    this.exports = exports;
    this.memory = exports.memory;
    const base = exports.__heap_base;
    this.base = align(Number(typeof base === "object" ? base.value : base));
    this.next = this.base;
  }

  // Room for a number of bytes, until the next call begins. The library takes no memory, so the page owns everything after its data.
  room(length) {
    const at = this.next;
    this.next = align(at + Math.max(length, 1));
    const wanted = this.next - this.memory.buffer.byteLength;
    if (wanted > 0) {
      this.memory.grow(BigInt(Math.ceil(wanted / 65536)));
    }
    return at;
  }

  put(bytes) {
    const at = this.room(bytes.length);
    new Uint8Array(this.memory.buffer, at, bytes.length).set(bytes);
    return at;
  }

  copy(at, length) {
    return new Uint8Array(this.memory.buffer.slice(at, at + length));
  }

  view(at, length) {
    return new DataView(this.memory.buffer, at, length);
  }

  words(numbers) {
    const at = this.room(4 * numbers.length);
    new Uint32Array(this.memory.buffer, at, numbers.length).set(numbers);
    return at;
  }

  begin() {
    this.next = this.base;
  }

  putRows(rows) {
    return this.words([rows.width, rows.height, rows.format, rows.first, rows.count]);
  }

  putOptions(options) {
    const at = this.room(12);
    const view = this.view(at, 12);
    view.setUint32(0, options.preset, true);
    options.weights.forEach((weight, k) => view.setUint8(4 + k, weight));
    view.setUint32(8, options.fitted ? 1 : 0, true);
    return at;
  }

  // The blocks of rows, encoded, or polished from the given blocks.
  settle(name, { rows, options, texels, blocks }) {
    this.begin();
    const [atRows, atOptions, atTexels, atBlocks, atError] = [
      this.putRows(rows), this.putOptions(options), this.put(texels), this.put(blocks), this.room(8),
    ];
    const status = this.exports[name](
      BigInt(atRows), BigInt(atOptions), BigInt(atTexels), BigInt(texels.length / 4), BigInt(atBlocks), BigInt(blocks.length / 16), BigInt(atError),
    );
    refuse(status);
    return { blocks: this.copy(atBlocks, blocks.length), error: Number(this.view(atError, 8).getBigUint64(0, true)) };
  }

  encode(call) {
    return this.settle("page_encode", call);
  }

  polish(call) {
    return this.settle("page_polish", call);
  }

  // Eight bytes a block: its error, and whether it is legal, meets what is listed, and is least.
  judge({ rows, options, texels, blocks }) {
    this.begin();
    const count = blocks.length / 16;
    const [atRows, atOptions, atTexels, atBlocks, atJudged] = [
      this.putRows(rows), this.putOptions(options), this.put(texels), this.put(blocks), this.put(new Uint8Array(8 * count)),
    ];
    const status = this.exports.page_judge(
      BigInt(atRows), BigInt(atOptions), BigInt(atTexels), BigInt(texels.length / 4), BigInt(atBlocks), BigInt(count), BigInt(atJudged), BigInt(count),
    );
    refuse(status);
    return { judged: this.copy(atJudged, 8 * count) };
  }

  show({ rows, blocks, texelCount }) {
    this.begin();
    const [atRows, atBlocks, atTexels, atIllegal] = [this.putRows(rows), this.put(blocks), this.room(4 * texelCount), this.room(4)];
    const status = this.exports.page_show(
      BigInt(atRows), BigInt(atBlocks), BigInt(blocks.length / 16), BigInt(atTexels), BigInt(texelCount), BigInt(atIllegal),
    );
    refuse(status);
    return { texels: this.copy(atTexels, 4 * texelCount), illegal: this.view(atIllegal, 4).getUint32(0, true) };
  }

  // What the header of a KTX file says, or the number of its fault with its two numbers.
  header(bytes) {
    this.begin();
    const front = bytes.subarray(0, 64);
    const [atBytes, atTold] = [this.put(front), this.room(56)];
    this.exports.page_header(BigInt(atBytes), BigInt(front.length), BigInt(atTold));
    const view = this.view(atTold, 56);
    const names = ["fault", "isBig", "format", "width", "height", "elements", "faces", "levels", "keyBytes"];
    const told = Object.fromEntries(names.map((name, k) => [name, view.getUint32(4 * k, true)]));
    return { ...told, first: view.getBigUint64(40, true), second: view.getBigUint64(48, true) };
  }

  // What a block says.
  block(format, bytes) {
    this.begin();
    const size = 56 + 16 + 4 + 18 + 64 + 32 + 144 + 2;
    const [atBytes, atTold] = [this.put(bytes), this.room(size)];
    refuse(this.exports.page_block(format, BigInt(atBytes), 1n, BigInt(atTold)));
    return blockTold(this.view(atTold, size), this.copy(atTold, size));
  }
}

const BLOCK_NAMES = [
  "fault", "isCoded", "mode", "across", "down", "planes", "weightValues", "colourValues", "parts", "seed", "selector", "plane", "colourCount", "weightCount",
];

function blockTold(view, bytes) {
  const told = Object.fromEntries(BLOCK_NAMES.map((name, k) => [name, view.getUint32(4 * k, true)]));
  const halves = (at) => [0, 1, 2, 3].map((k) => view.getUint16(at + 2 * k, true));
  const list = (at, count) => Array.from(bytes.subarray(at, at + count));
  return {
    ...told,
    rgba: halves(56),
    extent: halves(64),
    endpointModes: list(72, told.parts),
    colours: list(76, told.colourCount),
    weights: list(94, told.weightCount),
    ends: [0, 1, 2, 3].slice(0, told.parts).map((part) => [list(158 + 8 * part, 4), list(162 + 8 * part, 4)]),
    partOf: bytes.slice(190, 334),
  };
}

function refuse(status) {
  if (status !== 0) {
    throw new Error(`the module refused the ${ARGUMENTS[status] ?? `argument ${status}`}`);
  }
}
