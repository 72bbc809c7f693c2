// Where the module and the workers come from: files beside the page. A service worker keeps them.
import { part } from "./parts.js";
import { unpacked } from "./unpack.js";

export class NoModule extends Error {}

export async function compile() {
  const answer = await fetch("page.wasm.gz");
  if (answer.status === 404) {
    throw new NoModule("page.wasm.gz is missing: run ./build page");
  }
  if (!answer.ok) {
    throw new Error(`the server returned ${answer.status} for page.wasm.gz`);
  }
  return WebAssembly.compile(await unpacked(new Uint8Array(await answer.arrayBuffer())));
}

export function makeWorker() {
  return new Worker(new URL("./worker.js", import.meta.url), { type: "module" });
}

function wireInstall() {
  window.addEventListener("beforeinstallprompt", (event) => {
    part("install").hidden = false;
    part("install").onclick = async () => {
      part("install").hidden = true;
      await event.prompt();
    };
  });
}

// Keeps the page for use without a network, if its service worker was built.
export function keepPage() {
  if (navigator.serviceWorker && location.protocol.startsWith("http")) {
    wireInstall();
    navigator.serviceWorker.register("offline.js").catch(() => {});
    navigator.serviceWorker.ready.then(() => (part("kept").hidden = false));
  }
}
