// Pictures packed, textures polished and judged: pieces of an image are shared out to workers, and progress is counted by blocks.
import { UNKNOWN, whyBad } from "./audits.js";
import { blankKtx, writeKtx } from "./files.js";
import { sidesOf } from "./formats.js";
import { cut } from "./pictures.js";

// How many texels a call is about at most, by preset: as many as take half a second or so. A call makes tables of its own, in some 5 ms. The first calls and the
// last are about a quarter as many, so that something is soon seen, and all workers end at about the same time.
const MOST_TEXELS_A_CALL = [262144, 98304, 49152, 6144, 32768];

// A piece with a smaller share of the most texels is not quartered: the tables of three more calls would take about as long as its blocks.
const LEAST_SHARE = 1 / 16;

// The same in blocks of a texture: so few that each worker gets some.
function mostOf(texture, { preset }, workers) {
  const grids = Array.from({ length: texture.levels }, (_, level) => texture.gridAt(level));
  const all = texture.images * grids.reduce((sum, [columns, rows]) => sum + columns * rows, 0);
  const most = Math.floor(MOST_TEXELS_A_CALL[preset] / (texture.blockWidth * texture.blockHeight));
  return Math.min(most, Math.ceil(all / (4 * workers)));
}

// Parts of an image, about as wide as high, so that little beside the window is packed with what is in it.
function* piecesOfImage([columns, rows], [blockWidth, blockHeight], most) {
  const wide = Math.min(columns, Math.max(1, Math.round(Math.sqrt((most * blockHeight) / blockWidth))));
  const across = Math.ceil(columns / Math.ceil(columns / wide));
  const down = Math.max(1, Math.floor(most / across));
  for (let row = 0; row < rows; row += down) {
    for (let column = 0; column < columns; column += across) {
      const [own, high] = [Math.min(across, columns - column), Math.min(down, rows - row)];
      yield { row, column, columns: own, rows: high, count: own * high };
    }
  }
}

// A piece as up to four.
function quarters({ level, image, row, column, columns, rows }) {
  const [wide, high] = [Math.ceil(columns / 2), Math.ceil(rows / 2)];
  const part = (across, down) => ({ level, image, row: row + down * high, column: column + across * wide, columns: across ? columns - wide : wide, rows: down ? rows - high : high });
  return [part(0, 0), part(1, 0), part(0, 1), part(1, 1)].map((own) => ({ ...own, count: own.columns * own.rows, isSmall: true })).filter(({ count }) => count > 0);
}

// The blocks of a texture, level by level, image by image and row by row, in pieces that are soon done.
function piecesOf(texture, options, workers) {
  const [all, most] = [[], mostOf(texture, options, workers)];
  for (let level = 0; level < texture.levels; level++) {
    for (let image = 0; image < texture.images; image++) {
      for (const piece of piecesOfImage(texture.gridAt(level), [texture.blockWidth, texture.blockHeight], most)) {
        all.push({ level, image, ...piece });
      }
    }
  }
  return all;
}

// The place in its image of the first block of each row of a piece, and in the piece.
function* rowsOf(texture, { level, row, column, columns, rows }) {
  const [all] = texture.gridAt(level);
  for (let k = 0; k < rows; k++) {
    yield [(row + k) * all + column, k * columns];
  }
}

// Puts what is found of the blocks of a piece, so many values a block, in its place among those of the image.
function putPiece(texture, piece, into, values, each = 1) {
  for (const [place, from] of rowsOf(texture, piece)) {
    into.set(values.subarray(each * from, each * (from + piece.columns)), each * place);
  }
}

// The texels of a piece that lie in the image.
function areaOf(texture, { level, row, column, columns, rows }) {
  const { blockWidth, blockHeight } = texture;
  const [width, height] = texture.sidesAt(level);
  const [left, top] = [column * blockWidth, row * blockHeight];
  return { left, top, across: Math.min(columns * blockWidth, width - left), down: Math.min(rows * blockHeight, height - top) };
}

// One call about a piece: its own texels and blocks alone, as a picture of its own. Each block has the same source as in the whole picture.
function callFor(texture, picture, options, piece) {
  const { level, image, count, columns } = piece;
  const area = areaOf(texture, piece);
  const rows = { width: area.across, height: area.down, format: texture.format, first: 0, count: piece.rows };
  const texels = cut(picture.texelsAt(level, image), texture.sidesAt(level)[0], area);
  const [blocks, all] = [new Uint8Array(16 * count), texture.blocksAt(level, image)];
  for (const [place, to] of rowsOf(texture, piece)) {
    blocks.set(all.subarray(16 * place, 16 * (place + columns)), 16 * to);
  }
  return { rows, options, texels, blocks, blockWidth: texture.blockWidth, blockHeight: texture.blockHeight };
}

// Takes the next piece out of those that are left: the first in sight, else the first. At the beginning and at the end the piece is a small one, unless it has at
// most `least` blocks.
function takeNext(left, isInSight, isSmall, least) {
  let at = Math.max(0, left.findIndex(isInSight));
  if (isSmall && !left[at].isSmall && left[at].count > least) {
    left.splice(at, 1, ...quarters(left[at]));
    at = Math.max(at, left.findIndex(isInSight));
  }
  return left.splice(at, 1)[0];
}

// Runs a call of a worker for each piece, by the name that `nameOf` gives it. Few more calls than workers wait at a time, so that memory stays small, and
// what has come in sight is soon packed. `take` gets each answer.
async function runPieces(pool, pieces, { nameOf, isInSight = () => true, texture, picture, options, onProgress, take }) {
  const blockCount = pieces.reduce((sum, { count }) => sum + count, 0);
  const [begun, left] = [performance.now(), [...pieces]];
  let [blocksDone, taken] = [0, 0];
  const secondsNow = () => (performance.now() - begun) / 1000;
  const least = (LEAST_SHARE * MOST_TEXELS_A_CALL[options.preset]) / (texture.blockWidth * texture.blockHeight);
  const lane = async () => {
    while (left.length > 0) {
      const isSmall = taken++ < 4 * pool.count || left.length < 2 * pool.count;
      const piece = takeNext(left, isInSight, isSmall, least);
      take(piece, await pool.run(nameOf(piece), callFor(texture, picture, options, piece)));
      blocksDone += piece.count;
      onProgress({ blocksDone, blockCount, seconds: secondsNow() });
    }
  };
  onProgress({ blocksDone, blockCount, seconds: 0 });
  await Promise.all(Array.from({ length: 2 * pool.count }, lane));
  return secondsNow();
}

function emptySums(texture) {
  return Array.from({ length: texture.levels }, () => new Array(texture.images).fill(0));
}

// Fills a texture by a call for each piece, first the pieces that are in sight at the time. Pieces of the image in view come with their texels, for `onPiece`.
async function fill(pool, name, texture, { picture, options, seen, onProgress, onPiece }) {
  const sums = emptySums(texture);
  const isSeen = (piece) => piece.level === seen.level && piece.image === seen.image;
  const isInSight = (piece) => isSeen(piece) && seen.isInSight(areaOf(texture, piece));
  const take = (piece, { blocks, error, texels }) => {
    putPiece(texture, piece, texture.blocksAt(piece.level, piece.image), blocks, 16);
    sums[piece.level][piece.image] += error;
    if (texels) {
      onPiece(areaOf(texture, piece), texels);
    }
  };
  const nameOf = (piece) => (isSeen(piece) ? `${name}AndShow` : name);
  const seconds = await runPieces(pool, piecesOf(texture, options, pool.count), { nameOf, isInSight, texture, picture, options, onProgress, take });
  return { texture, sums, seconds };
}

// An empty texture for a picture. Of the shape: format, levels, elements, faces.
export function blankFor(picture, { format, levels, elements, faces }) {
  const [blockWidth, blockHeight] = sidesOf(format);
  const name = `${stem(picture.name)}_${blockWidth}x${blockHeight}.ktx`;
  return blankKtx({ format, width: picture.width, height: picture.height, elements, faces, levels, isFlipped: picture.isFlipped }, name);
}

// Its blocks, by the options preset and weights.
export function pack(pool, blank, call) {
  return fill(pool, "encode", blank, call);
}

// A copy of a texture, whose blocks a polish replaces.
export function copyOf(texture) {
  const copy = blankKtx(texture, `${stem(texture.name)}_polished.ktx`);
  copy.bytes.set(writeKtx(texture));
  return copy;
}

// A texture whose blocks are no further from their sources than the blocks that it begins with.
export function polish(pool, copy, call) {
  return fill(pool, "polish", copy, call);
}

function eachImage(texture, make) {
  return Array.from({ length: texture.levels }, (_, level) => {
    const [columns, rows] = texture.gridAt(level);
    return Array.from({ length: texture.images }, () => make(columns * rows));
  });
}

// What is found of each block: for each level and image, eight bytes a block as the module answers them.
export async function audit(pool, texture, { picture, options, onProgress }) {
  const found = eachImage(texture, (count) => new Uint8Array(8 * count));
  const take = (piece, { judged }) => putPiece(texture, piece, found[piece.level][piece.image], judged, 8);
  const seconds = await runPieces(pool, piecesOf(texture, options, pool.count), { nameOf: () => "judge", texture, picture, options, onProgress, take });
  return { found, seconds };
}

// By how much: for each level and image the error that each block has once it is polished, in the pieces of which an audit found bad ones.
export async function betterErrors(pool, texture, found, { picture, options, onProgress, bettered }) {
  const isBad = (judged, from, to) => Array.from({ length: to - from }, (_, k) => whyBad(judged, from + k)).some((why) => why !== 0);
  const hasBad = (piece) => [...rowsOf(texture, piece)].some(([place]) => isBad(found[piece.level][piece.image], place, place + piece.columns));
  const take = (piece, { errors }) => putPiece(texture, piece, bettered[piece.level][piece.image], errors);
  await runPieces(pool, piecesOf(texture, options, pool.count).filter(hasBad), { nameOf: () => "better", texture, picture, options, onProgress, take });
}

export function noneBettered(texture) {
  return eachImage(texture, (count) => new Uint32Array(count).fill(UNKNOWN));
}

export function stem(name) {
  return name.replace(/\.[^.]*$/, "") || "texture";
}
