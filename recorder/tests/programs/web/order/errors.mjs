// What an error does that nobody catches: in a listener, in a timer, in a microtask, in a rejection, in a worker.
const lines = globalThis.lines = [];
const pause = () => new Promise((done) => { setTimeout(done, 100); });
addEventListener("error", (event) => {
  lines.push(`error ${event.message} ${event.error?.message} ${event.lineno}`);
  event.preventDefault();
});
self.onerror = (message, _file, line, _column, error) => {
  lines.push(`onerror ${message} ${line} ${error?.name}`);
  return true;
};
addEventListener("unhandledrejection", (event) => {
  lines.push(`rejection ${event.reason.message} ${event.promise instanceof Promise}`);
  event.preventDefault();
});
const { port1, port2 } = new MessageChannel();
port1.onmessage = () => { throw new Error("handler"); };
port1.addEventListener("message", () => lines.push("the next listener"));
port2.postMessage(0);
await pause();
setTimeout(() => { lines.push("timer"); throw new TypeError("timer"); });
await pause();
queueMicrotask(() => { throw new Error("microtask"); });
lines.push("behind the microtask");
await pause();
Promise.reject(new Error("rejected"));
const late = Promise.reject(new Error("handled late"));
await null;
late.catch(() => lines.push("caught"));
await pause();
const worker = new Worker("../parts/throws.mjs", { type: "module" });
const ended = new Promise((done) => {
  worker.onmessage = ({ data }) => {
    lines.push(`from the worker: ${data}`);
    if (/in a handler/.test(data)) done();
  };
});
worker.onerror = (event) => {
  lines.push(`worker ${event.message} ${event.lineno} ${event.error ?? "no error"} ${event instanceof ErrorEvent}`);
  setTimeout(() => worker.postMessage("more"));
};
await ended;
await new Promise((done) => {
  setTimeout(() => {
    queueMicrotask(() => lines.push("behind what is reported"));
    reportError(new Error("reported"));
    lines.push("reported");
    done();
  });
});
lines.push("end");
console.log(lines.join("\n"));
