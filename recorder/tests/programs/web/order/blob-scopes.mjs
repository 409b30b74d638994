// What the code of a `blob:` URL can load, in workers and in modules; which threads know such a URL.
const lines = globalThis.lines = [];
const urlOf = (code) => URL.createObjectURL(new Blob([code], { type: "text/javascript" }));
const nextOf = (worker) => new Promise((done) => { worker.onmessage = ({ data }) => done(data); });
const place = new URL("../parts/", import.meta.url).href;
const revoked = urlOf("0");
URL.revokeObjectURL(revoked);
const saying = `const results = []; const say = (act) => {
  try { act(); results.push("done"); } catch (error) { results.push(error.name + " " + (error instanceof Error)); }
};`;
for (const text of [
  `say(() => importScripts("library.js"))`, `say(() => new Worker("a.js"))`, `say(() => importScripts("${revoked}"))`,
  `say(() => importScripts("${place}library.js"))`, `results.push(location.protocol, location.search === "", name)`,
]) lines.push(await nextOf(new Worker(urlOf(`${saying} ${text}; postMessage(results.join());`), { name: "named" })));
const modules = ["export const a = 3;", "import './a.mjs'", "import 'bare'", "import 'blob:none'"].map(urlOf);
for (const specifier of [...modules, revoked]) {
  try { lines.push(`${(await import(specifier)).a}`); } catch (error) { lines.push(error.name); }
}
const nested = urlOf(`const worker = new Worker("${urlOf("onmessage = ({ data }) => postMessage(data + 1);")}");
  worker.onmessage = ({ data }) => postMessage(data + 1); worker.postMessage(1);`);
lines.push(`nested ${await nextOf(new Worker(nested))}`);
const maker = new Worker(urlOf(`onmessage = ({ data }) => {
    if (data === "make") postMessage(URL.createObjectURL(new Blob(["0"])));
    else { URL.revokeObjectURL(data); postMessage(data); }
  };`));
const importer = new Worker(urlOf(`onmessage = ({ data }) => {
    results.length = 0; say(() => importScripts(data)); postMessage(results.join());
  }; ${saying} postMessage("begun")`));
lines.push(await nextOf(importer));
const imported = (url) => {
  importer.postMessage(url);
  return nextOf(importer);
};
const made = () => {
  maker.postMessage("make");
  return nextOf(maker);
};
const one = await made();
lines.push(`of a worker ${await (await fetch(one)).text()} ${await imported(one)}`);
maker.postMessage(one);
await fetch(await nextOf(maker)).catch((error) => lines.push(error.name));
const other = await made();
lines.push(`while its worker lives ${await imported(other)}`);
maker.terminate();
await new Promise((done) => { setTimeout(done, 500); });
lines.push(`and behind its end ${await imported(other)}`);
const own = urlOf(`${saying}
  onmessage = () => { say(() => importScripts(location.href)); postMessage(results.join()); };`);
const alone = new Worker(own);
URL.revokeObjectURL(own);
alone.postMessage("");
lines.push(`its own ${await nextOf(alone)}`);
for (const wrong of [() => URL.createObjectURL({}), () => URL.createObjectURL(), () => URL.revokeObjectURL("blob:x")]) {
  try { lines.push(`${wrong()}`); } catch (error) { lines.push(error.name); }
}
lines.push("end");
console.log(lines.join("\n"));
