// What an audit finds of blocks, and what it says of a texture.

// Where no better block was looked for.
export const UNKNOWN = 0xffffffff;

// Whether a block is bad, and why: bit 0 if the block can't be read, bit 1 if a listed block is closer, bit 2 if a change of one integer is.
export function whyBad(judged, k) {
  if (judged[8 * k + 4] === 0) {
    return 1;
  }
  return (judged[8 * k + 5] === 0 ? 2 : 0) + (judged[8 * k + 6] === 0 ? 4 : 0);
}

const viewOfJudged = (judged) => new DataView(judged.buffer, judged.byteOffset, judged.length);

export function errorAt(judged, k) {
  return viewOfJudged(judged).getUint32(8 * k, true);
}

// The part of a block's error that polishing removes, or null if that part isn't known.
export function gainOf(judged, bettered, k) {
  const least = bettered?.[k] ?? UNKNOWN;
  const error = errorAt(judged, k);
  return least === UNKNOWN ? null : error === 0 ? 0 : (error - least) / error;
}

// Whether the mark of block k is shown: the block is invalid, its gain is unknown, or polishing removes at least the part `least` of its error.
export function isShown(judged, bettered, least, k) {
  const why = whyBad(judged, k);
  return why !== 0 && (why === 1 || (gainOf(judged, bettered, k) ?? 1) >= least);
}

// The marked blocks, the invalid ones first, then those that polishing would improve most; those below the least gain only if there are no others.
export function rankedMarks(judged, bettered, least) {
  const all = Array.from({ length: judged.length / 8 }, (_, k) => k).filter((k) => whyBad(judged, k) !== 0);
  const shown = all.filter((k) => isShown(judged, bettered, least, k));
  const rank = (k) => (whyBad(judged, k) === 1 ? 2 : gainOf(judged, bettered, k) ?? 0);
  return (shown.length > 0 ? shown : all).sort((a, b) => rank(b) - rank(a) || a - b);
}

// Sums over all blocks of an audit: how many are bad and why, and by how much all could be bettered.
export function auditSums(found, bettered) {
  const sums = { blocks: 0, bad: 0, unreadable: 0, listed: 0, changed: 0, both: 0, error: 0, least: 0, unknown: 0 };
  found.forEach((own, level) => own.forEach((judged, image) => {
    const view = viewOfJudged(judged);
    for (let k = 0; k < judged.length / 8; k++) {
      addBlock(sums, whyBad(judged, k), view.getUint32(8 * k, true), bettered?.[level][image][k] ?? UNKNOWN);
    }
  }));
  return sums;
}

function addBlock(sums, why, error, least) {
  sums.blocks += 1;
  sums.bad += why === 0 ? 0 : 1;
  sums.unreadable += why & 1;
  sums.listed += (why >> 1) & 1;
  sums.changed += (why >> 2) & 1;
  sums.both += why === 6 ? 1 : 0;
  sums.error += error;
  sums.least += why === 0 || least === UNKNOWN ? error : least;
  sums.unknown += why !== 0 && least === UNKNOWN ? 1 : 0;
}

const many = (count) => count.toLocaleString("en");

// What the sums say, in short.
export function auditText({ blocks, bad, unreadable, error, least, unknown }, preset) {
  if (bad === 0) {
    return `found nothing to improve in any of the ${many(blocks)} blocks with ${preset}`;
  }
  const could = bad - unreadable;
  const told = unreadable > 0 ? [`${many(unreadable)} of ${many(blocks)} blocks are invalid`] : [];
  if (could > 0) {
    told.push(`${many(could)} of ${many(blocks)} blocks could be improved with ${preset}`);
  }
  if (unknown === 0) {
    told.push(`polishing would remove ${error === 0 ? 0 : ((100 * (error - least)) / error).toFixed(1)} % of the error`);
  }
  return told.join("; ");
}

// Why blocks could be improved, with the number of blocks; one block may have both causes.
export function causesText({ listed, changed, both }) {
  const told = [[listed, "a listed block is closer to the source"], [changed, "a change to one value is closer"]]
    .filter(([count]) => count > 0)
    .map(([count, cause]) => `${cause} (${many(count)})`);
  const overlap = both > 0 ? `; ${many(both)} of these have both causes` : "";
  return told.length > 0 ? `Why: ${told.join(", ")}${overlap}.` : "";
}
