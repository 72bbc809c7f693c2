// The panel of a block and the line of a texel: the texels under the pointer or selected, in the texture and in its source.
import { errorAt, gainOf, whyBad } from "./audits.js";
import { closeUps, fieldRows, makeUp } from "./facts.js";
import { channelSums } from "./measures.js";
import { percent } from "./numbers.js";
import { made, part, show, swatch, terms } from "./parts.js";
import { cut } from "./pictures.js";

// The texels of a block that lie in the image, in the texture and in its source.
function texelsOfBlock(proved, { texture, source, level, image }, block) {
  const { blockWidth, blockHeight } = texture;
  const [width, height] = texture.sidesAt(level);
  const area = { left: block.column * blockWidth, top: block.row * blockHeight };
  area.across = Math.min(blockWidth, width - area.left);
  area.down = Math.min(blockHeight, height - area.top);
  const [columns] = texture.gridAt(level);
  const k = block.row * columns + block.column;
  const bytes = texture.blocksAt(level, image).slice(16 * k, 16 * k + 16);
  const rows = { width: area.across, height: area.down, format: texture.format, first: 0, count: 1 };
  const { texels } = proved.show({ rows, blocks: bytes, texelCount: area.across * area.down });
  return { k, bytes, area, texels, others: source && cut(source.texelsAt(level, image), width, area), blockWidth };
}

// How far the block is from its source, and its share of the whole.
function errorRows(own, view) {
  const { texture, weights } = view.state;
  if (!own.others) {
    return [];
  }
  const { sums, largest } = channelSums(own.texels, own.others, { width: own.area.across, height: own.area.down }, texture.blockWidth, texture.blockHeight);
  const error = weights.reduce((sum, weight, c) => sum + weight * sums[c], 0);
  const measure = view.measure();
  const total = measure?.errors(weights).total;
  const share = total === undefined ? "" : `, ${percent(total === 0 ? 0 : error / total)} of all`;
  return [["error", `${error.toLocaleString("en")}${share}; largest difference ${largest[0]}`]];
}

function auditRows(own, { marks, bettered, level, image }) {
  if (!marks) {
    return [];
  }
  const judged = marks[level][image];
  const why = whyBad(judged, own.k);
  if (why === 0) {
    return [["audit", "found nothing to improve"]];
  }
  const reasons = [[1, "the block is invalid"], [2, "a candidate is closer to the source"], [4, "a change to one value is closer to the source"]];
  const told = reasons.filter(([bit]) => why & bit).map(([, text]) => text).join(", and ");
  const share = gainOf(judged, bettered?.[level][image], own.k);
  const by = share === null ? "" : `, by ${percent(share)} of its error ${errorAt(judged, own.k).toLocaleString("en")}`;
  return [["audit", `could be improved${by}: ${told}`]];
}

// Brings the panel up to a block, or away.
export function showBlock(page, block) {
  const { state } = page;
  show({ block: Boolean(state.texture && block) });
  if (!state.texture || !block) {
    return;
  }
  const own = texelsOfBlock(page.proved, state, block);
  const told = page.proved.block(state.texture.format, own.bytes);
  part("told").replaceChildren(...terms([["position", `column ${block.column}, row ${block.row}`], ...errorRows(own, page.view), ...auditRows(own, state), ...makeUp(told)]));
  part("close-up").replaceChildren(...closeUps(told, own));
  part("facts").replaceChildren(...terms(fieldRows(told, own.bytes)));
}

function texelAt({ texels, area }, [x, y]) {
  const at = 4 * ((y - area.top) * area.across + x - area.left);
  return Array.from(texels.subarray(at, at + 4));
}

function toldTexel(name, texel) {
  const own = made("span", `${name} `, "texel");
  own.append(swatch(texel), made("b", texel.join(" ")));
  return own;
}

const signed = (number) => (number > 0 ? `+${number}` : number < 0 ? `−${-number}` : "0");

// The line below the image: red, green, blue and alpha of a texel in the texture, in the source, and how far they are apart.
export function showTexel(page, block) {
  const { state } = page;
  if (!block || !page.view.subject) {
    part("texel").replaceChildren();
    return;
  }
  const [x, y] = block.texel;
  const told = [made("span", `${x}, ${y}`, "texel")];
  if (!state.texture) {
    const [width] = page.view.sides;
    told.push(toldTexel("picture", Array.from(cut(state.source.texelsAt(state.level, state.image), width, { left: x, top: y, across: 1, down: 1 }))));
  } else {
    const own = texelsOfBlock(page.proved, state, block);
    const texel = texelAt(own, block.texel);
    told.push(toldTexel("texture", texel));
    if (own.others) {
      const other = texelAt({ texels: own.others, area: own.area }, block.texel);
      const apart = made("span", "difference ", "texel");
      apart.append(made("b", texel.map((value, c) => signed(value - other[c])).join(" ")));
      told.push(toldTexel("source", other), apart);
    }
  }
  part("texel").replaceChildren(...told);
}
