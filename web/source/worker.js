// A worker: one instance of the module, and one call at a time.
import { channelSums } from "./measures.js";
import { ProvedModule } from "./module.js";
import { sceneTexels } from "./sample.js";

let proved = null;

function shown(rows, blocks) {
  return proved.show({ rows, blocks, texelCount: rows.width * rows.height }).texels;
}

// What a worker makes by itself, and of the module's answers.
const MADE = {
  scene() {
    return { texels: sceneTexels() };
  },
  encodeAndShow(call) {
    const made = proved.encode(call);
    return { ...made, texels: shown(call.rows, made.blocks) };
  },
  polishAndShow(call) {
    const made = proved.polish(call);
    return { ...made, texels: shown(call.rows, made.blocks) };
  },
  measure({ rows, blocks, others, blockWidth, blockHeight }) {
    return channelSums(shown(rows, blocks), others, rows, blockWidth, blockHeight);
  },
  // The errors that blocks have once they are polished.
  better(call) {
    const { blocks } = proved.polish(call);
    const { sums } = channelSums(shown(call.rows, blocks), call.texels, call.rows, call.blockWidth, call.blockHeight);
    const { weights } = call.options;
    return { errors: Uint32Array.from({ length: sums.length / 4 }, (_, k) => weights.reduce((sum, weight, c) => sum + weight * sums[4 * k + c], 0)) };
  },
};

function buffersOf(result) {
  return Object.values(result).filter(ArrayBuffer.isView).map((value) => value.buffer);
}

function answer({ name, call }) {
  return name in MADE ? MADE[name](call) : proved[name](call);
}

self.onmessage = async ({ data }) => {
  if (data.compiled) {
    proved = await ProvedModule.from(data.compiled);
    self.postMessage({ ready: true });
    return;
  }
  try {
    const result = answer(data);
    self.postMessage({ id: data.id, result }, buffersOf(result));
  } catch (cause) {
    self.postMessage({ id: data.id, cause: String(cause.message ?? cause) });
  }
};
