// The order in which listeners of a message are called, with microtasks between them.
const { port1, port2 } = new MessageChannel();
const lines = globalThis.lines = [];
let ended;
const end = new Promise((done) => { ended = done; });
const note = (name) => (event) => {
  lines.push(`${name} ${event.data}`);
  queueMicrotask(() => lines.push(`microtask of ${name}`));
};
const first = note("first");
for (const how of [undefined, false, { once: true }]) port1.addEventListener("message", first, how);
const removed = note("removed");
port1.addEventListener("message", removed);
port1.removeEventListener("message", removed);
port1.onmessage = note("replaced");
port1.addEventListener("message", note("third"));
port1.onmessage = note("handler");
port1.addEventListener("message", note("once"), { once: true });
port1.addEventListener("message", { handleEvent: (event) => {
  lines.push(`object ${event.data} ${event.target === port1} ${event.ports.length} ${event instanceof MessageEvent}`);
  if (event.data === 1) return;
  event.stopImmediatePropagation();
  setTimeout(ended);
} });
port1.addEventListener("message", (event) => {
  lines.push(`last ${event.data} ${event.currentTarget === port1}`);
  setTimeout(() => port2.postMessage(2));
});
port1.addEventListener("message", null);
port2.postMessage(1);
await end;
lines.push("end");
console.log(lines.join("\n"));
