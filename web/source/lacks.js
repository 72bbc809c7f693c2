// What a browser lacks for this page.

// A module that does nothing but have a memory with addresses of 64 bits.
const WIDE_MEMORY = Uint8Array.of(0x00, 0x61, 0x73, 0x6d, 0x01, 0x00, 0x00, 0x00, 0x05, 0x03, 0x01, 0x04, 0x01);

const WANTED = [
  ["WebAssembly", () => typeof WebAssembly === "object"],
  ["64-bit memory for WebAssembly (Chromium and Chrome 133 or later, Firefox 134 or later)", () => WebAssembly.validate(WIDE_MEMORY)],
  ["OffscreenCanvas", () => typeof OffscreenCanvas === "function"],
  ["gzip decompression (DecompressionStream)", () => typeof DecompressionStream === "function"],
  ["web workers", () => typeof Worker === "function"],
];

// The first thing that is lacking, or null.
export function lacking() {
  const found = WANTED.find(([, isThere]) => !isThere());
  return found ? found[0] : null;
}
