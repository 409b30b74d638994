// What the global objects of a page and of workers have.
const lines = globalThis.lines = [];
const NAMES = [
  "Worker", "MessageChannel", "MessagePort", "BroadcastChannel", "importScripts", "onerror", "close", "name",
  "location", "navigator", "crossOriginIsolated", "isSecureContext", "SharedArrayBuffer", "queueMicrotask",
  "structuredClone", "setTimeout", "clearInterval", "performance", "addEventListener", "window", "process", "require",
  "Buffer", "global", "setImmediate", "module", "exports", "__filename", "WorkerGlobalScope", "Window", "ErrorEvent",
  "fetch", "reportError", "SharedWorker", "Blob", "Response", "requestIdleCallback", "cancelIdleCallback",
  "LockManager", "Lock",
];
/** Four to a line. */
const inRows = (all) => all.flatMap((_, at) => (at % 4 === 0 ? [all.slice(at, at + 4).join(", ")] : []));
lines.push(...inRows(NAMES.map((name) => `${name} ${typeof globalThis[name]}`)));
lines.push(`${self === globalThis} ${self instanceof Window} ${self instanceof EventTarget} ${crossOriginIsolated}`);
lines.push(`${typeof navigator.locks.request} ${typeof navigator.locks.query} ${fetch.name} ${fetch.length}`);
lines.push(`${Object.prototype.toString.call(self)} ${Object.prototype.toString.call(navigator.locks)}`);
lines.push(`${typeof new MessageChannel().port1.on} ${typeof new BroadcastChannel("a").unref}`);
for (const type of ["module", "classic"]) {
  const worker = new Worker("../parts/scope.js?some#part", { type, name: `a ${type} worker` });
  worker.postMessage([...NAMES, "postMessage"]);
  const { types, others } = await new Promise((done) => { worker.onmessage = ({ data }) => done(data); });
  lines.push(...inRows(types), ...others);
}
for (const make of [() => new Worker("x", { type: "shared" }), () => new Worker("http://:"), () => Worker("x")]) {
  try { make(); } catch (error) { lines.push(`${error.name} ${error instanceof Error}`); }
}
lines.push("end");
console.log(lines.join("\n"));
