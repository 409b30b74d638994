// What `fetch` gets of files beside the program.
const lines = globalThis.lines = [];
const place = (name) => new URL(`../parts/${name}`, import.meta.url);
const response = await fetch(place("data.json?some#part"));
const { ok, status, statusText, redirected, type, url, bodyUsed } = response;
lines.push(`${ok} ${status} ${statusText} ${redirected} ${type} ${url.slice(-20)} ${bodyUsed}`);
const { words } = await response.json();
lines.push(`${words} ${response.bodyUsed} ${response instanceof Response}`);
try { await response.text(); } catch (error) { lines.push(error.name); }
const text = await (await fetch(new Request(place("data.json")))).text();
const bytes = await (await fetch(`${place("data.json")}`)).arrayBuffer();
lines.push(`${text.length} ${text.endsWith("]}\n")} ${bytes.byteLength} ${bytes instanceof ArrayBuffer}`);
const { body } = await fetch(place("data.json"));
const { value } = await body.getReader().read();
lines.push(`${value instanceof Uint8Array} ${value.length}`);
const missing = await fetch(place("missing.json"));
lines.push(`${missing.ok} ${missing.status} ${missing.statusText} ${await missing.text()} ${missing.url.slice(-12)}`);
for (const given of [[], ["http://:"], ["x", { method: "TRACE" }], ["", { body: "" }]]) {
  let failed;
  try { failed = fetch(...given); } catch (error) { lines.push(`threw ${error.name}`); }
  await failed?.catch((error) => lines.push(`rejected ${error.name} ${error instanceof TypeError}`));
}
const aborted = new AbortController();
aborted.abort();
const aborting = new AbortController();
const failing = [aborted, aborting].map(({ signal }) => fetch(place("data.json"), { signal }));
aborting.abort("enough");
for (const each of failing) await each.catch((error) => lines.push(`${error.name ?? error}`));
const blob = URL.createObjectURL(new Blob(["in a blob"]));
lines.push(await (await fetch(blob)).text());
URL.revokeObjectURL(blob);
await fetch(blob).catch((error) => lines.push(`revoked ${error.name}`));
const order = [];
const fetched = fetch(place("data.json")).then(() => order.push("fetched"));
queueMicrotask(() => order.push("microtask"));
await fetched;
lines.push(`${order}`);
const worker = new Worker(place("fetches.mjs"), { type: "module" });
lines.push(await new Promise((done) => { worker.onmessage = ({ data }) => done(data); }), "end");
console.log(lines.join("\n"));
