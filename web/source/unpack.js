// The module as it arrives: packed by gzip, or without changes if the server declared the packing and the browser unpacked it.

const GZIP = [0x1f, 0x8b];
const MODULE = [0x00, 0x61, 0x73, 0x6d];

export async function unpacked(bytes) {
  const begins = (signs) => signs.every((sign, k) => bytes[k] === sign);
  if (begins(MODULE)) {
    return bytes;
  }
  if (!begins(GZIP)) {
    throw new Error("the module is neither gzip data nor WebAssembly");
  }
  const stream = new Blob([bytes]).stream().pipeThrough(new DecompressionStream("gzip"));
  return new Uint8Array(await new Response(stream).arrayBuffer());
}
