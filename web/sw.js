// The service worker: keeps the page's own files, so that the page opens without a network. It keeps nothing of pads.
//
// /files.txt lists the files with their tags. All files of one list are one set, and a page gets all of them from one set: from
// the newest, if the server answers soon, and else from the one that was kept last.
const LIST = "/files.txt", SET = "page ", PATIENCE = 3000, MOST_SETS = 2;
const setOf = new Map(); // the set that a window got

self.addEventListener("install", (event) => {
  self.skipWaiting();
  event.waitUntil(newest());
});
self.addEventListener("fetch", (event) => {
  const { request } = event, { origin, pathname } = new URL(request.url);
  if (request.method !== "GET" || origin !== location.origin) return;
  if (request.mode === "navigate") event.respondWith(page(event));
  else if (pathname !== LIST) event.respondWith(file(event.clientId, pathname, request));
});

const keptSets = async () => (await caches.keys()).filter((name) => name.startsWith(SET));

async function isWhole(name) { return Boolean(await (await caches.open(name)).match(LIST)); }

// The last set that was kept whole, or null.
async function last() {
  for (const name of (await keptSets()).reverse()) if (await isWhole(name)) return name;
  return null;
}

async function page(event) {
  const late = new Promise((done) => { setTimeout(done, PATIENCE); });
  const name = (await Promise.race([newest().catch(() => null), late])) || (await last());
  if (event.resultingClientId) setOf.set(event.resultingClientId, name);
  return (name && (await (await caches.open(name)).match("/"))) || fetch(event.request);
}

async function file(client, path, request) {
  const name = setOf.get(client) ?? (await last());
  return (name && (await (await caches.open(name)).match(path))) || fetch(request);
}

// The set that the server has now. Files that an earlier set has with the same tag are taken from there.
async function newest() {
  const response = await fetch(LIST, { cache: "no-store" });
  if (!response.ok) throw new Error(`${LIST}: ${response.status}`);
  const list = await response.text(), name = SET + (await sumOf(list)), before = await last();
  if (before === name) return name;
  const set = await caches.open(name), old = before && (await caches.open(before));
  await Promise.all(list.trim().split("\n").map(async (line) => {
    const [tag, path] = line.split(" "), known = await old?.match(path);
    await set.put(path, known && tagOf(known) === tag ? known : await fetched(path, tag));
  }));
  await set.put(LIST, new Response(list));
  const names = await keptSets();
  for (const one of names.slice(0, -MOST_SETS)) await caches.delete(one);
  return name;
}

const tagOf = (response) => response.headers.get("etag")?.replace(/^W\//, "");

async function fetched(path, tag) {
  const response = await fetch(path, { cache: "no-cache" });
  if (!response.ok || tagOf(response) !== tag) throw new Error(`${path} is another one`);
  return response;
}

async function sumOf(text) {
  const sum = await crypto.subtle.digest("SHA-256", new TextEncoder().encode(text));
  return [...new Uint8Array(sum)].slice(0, 12).map((byte) => byte.toString(16).padStart(2, "0")).join("");
}
