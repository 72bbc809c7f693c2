// The service worker: keeps the page's files, so that the page opens without a network. offline.js, which web/make_offline writes, has the digests of each file
// as FILES and of all as VERSION, and begins this script. The files of a version are kept together or not at all.
const NAME = `astc_page ${VERSION}`;
const PATIENCE = 3000;
const QUIET = 10_000;
let keptUntil = 0;

const addressOf = (name) => new URL(name, self.registration.scope).href;
const known = new Set(Object.keys(FILES).map(addressOf));

async function keep() {
  const cache = await caches.open(NAME);
  await Promise.all(Object.entries(FILES).map(async ([name, integrity]) => cache.put(addressOf(name), await fetch(addressOf(name), { cache: "no-cache", integrity }))));
}

async function dropOthers() {
  const others = (await caches.keys()).filter((name) => name.startsWith("astc_page ") && name !== NAME);
  await Promise.all(others.map((name) => caches.delete(name)));
  await self.clients.claim();
}

// An answer of the server, if there is one soon.
async function fresh(request) {
  const late = new Promise((_, fail) => setTimeout(fail, PATIENCE));
  const answer = await Promise.race([fetch(request), late]);
  if (!answer.ok) {
    throw new Error(answer.statusText);
  }
  return answer;
}

// A file as the server has it; without the server as it was kept, and then for a while all others too.
async function answer(request, address) {
  const kept = await (await caches.open(NAME)).match(address);
  if (!kept) {
    return fetch(request);
  }
  try {
    return performance.now() < keptUntil ? kept : await fresh(request);
  } catch {
    keptUntil = performance.now() + QUIET;
    return kept;
  }
}

self.addEventListener("install", (event) => event.waitUntil(keep().then(() => self.skipWaiting())));
self.addEventListener("activate", (event) => event.waitUntil(dropOthers()));
self.addEventListener("fetch", (event) => {
  const { origin, pathname } = new URL(event.request.url);
  const address = origin + pathname === self.registration.scope ? addressOf("index.html") : origin + pathname;
  if (event.request.method === "GET" && known.has(address)) {
    event.respondWith(answer(event.request, address));
  }
});
