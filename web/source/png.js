// Writes PNG files of eight bits a channel, red, green, blue and alpha, byte for byte: a canvas would multiply by alpha and lose bytes.

const PNG_SIGNATURE = [0x89, 0x50, 0x4e, 0x47, 0x0d, 0x0a, 0x1a, 0x0a];
const CRC_TABLE = Uint32Array.from({ length: 256 }, (_, byte) => {
  let own = byte;
  for (let bit = 0; bit < 8; bit++) {
    own = own & 1 ? 0xedb88320 ^ (own >>> 1) : own >>> 1;
  }
  return own;
});

function chunk(kind, data) {
  const bytes = new Uint8Array(12 + data.length);
  const view = new DataView(bytes.buffer);
  view.setUint32(0, data.length);
  bytes.set(new TextEncoder().encode(kind), 4);
  bytes.set(data, 8);
  const crc = bytes.subarray(4, 8 + data.length).reduce((sum, byte) => CRC_TABLE[(sum ^ byte) & 255] ^ (sum >>> 8), 0xffffffff);
  view.setUint32(8 + data.length, ~crc >>> 0);
  return bytes;
}

// Each row after its filter, 2: the difference of each byte from the one above.
function filtered(texels, width, height) {
  const row = 4 * width;
  const made = new Uint8Array((row + 1) * height);
  for (let y = 0; y < height; y++) {
    const to = (row + 1) * y + 1;
    made[to - 1] = 2;
    for (let k = 0; k < row; k++) {
      made[to + k] = texels[row * y + k] - (y > 0 ? texels[row * (y - 1) + k] : 0);
    }
  }
  return made;
}

async function deflated(bytes) {
  const stream = new Blob([bytes]).stream().pipeThrough(new CompressionStream("deflate"));
  return new Uint8Array(await new Response(stream).arrayBuffer());
}

export async function pngOf(texels, width, height) {
  const head = new Uint8Array(13);
  const view = new DataView(head.buffer);
  view.setUint32(0, width);
  view.setUint32(4, height);
  head.set([8, 6, 0, 0, 0], 8);
  const data = await deflated(filtered(texels, width, height));
  return new Blob([Uint8Array.from(PNG_SIGNATURE), chunk("IHDR", head), chunk("IDAT", data), chunk("IEND", new Uint8Array(0))], { type: "image/png" });
}
