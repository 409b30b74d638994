// The worker of a page in which Python runs. Its half of urllib3's streams sleeps until there is something to read. A
// worker of its own fetches that. It is turned into JavaScript (fetch.py.js), since Python itself isn't here.

const BODY = "first second";

/** What Python sees of a class of JavaScript's. */
const seen = (it) => new Proxy(it, { get: (_, key) => (key === "new" ? (...given) => new it(...given) : it[key]) });
const isClass = (it) => typeof it === "function" && it.prototype !== undefined;
const js = new Proxy(self, {
  get: (_, key) => {
    if (key === "globalThis") return js;
    return isClass(self[key]) ? seen(self[key]) : self[key];
  },
});
Object.defineProperty(Uint8Array.prototype, "to_py", { configurable: true, value() { return this.slice(); } });

/** What Python's modules have. */
class Problem extends Error {}
class Base { close() {} }
class EmscriptenResponse { constructor(...[, , , body]) { this.body = body; } }
const [_TimeoutError, _StreamingError] = [Problem, Problem];
const __package__ = "";
let code;
const files = () => ({ joinpath: () => ({ read_text: () => code }) });
const [int, min, len, memoryview, json] = [Math.trunc, Math.min, (it) => it.length, (it) => it, { loads: JSON.parse }];
const [to_js, _obj_from_dict] = [(it) => it, (it) => it];

/** Waits again if it was woken too soon, as a right one would. */
function waited(words, at, value, milliseconds) {
  for (;;) {
    const how = Atomics.wait(words, at, value, milliseconds);
    if (how === "timed-out" || Atomics.load(words, at) !== value) return how;
  }
}

importScripts("fetch.py.js");

/** Gets the file, and looks whether all of it has come. */
async function got() {
  code = await (await fetch("emscripten_fetch_worker.js")).text();
  const fetcher = new _StreamingFetcher();
  await fetcher.js_worker_ready_promise;
  const { body } = fetcher.send({ url: "body.txt", headers: {}, method: "GET", timeout: 0 });
  const bytes = new Uint8Array(16);
  const read = [];
  for (let count = body.readinto(bytes); count > 0; count = body.readinto(bytes)) {
    read.push(...bytes.subarray(0, count));
  }
  const text = String.fromCharCode(...read);
  if (text !== BODY) throw new Error(`of the body ${JSON.stringify(text)} was read`);
  postMessage("done");
}
got();
