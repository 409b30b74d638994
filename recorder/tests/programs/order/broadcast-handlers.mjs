// The listeners of a BroadcastChannel get one event, in the order in which they were added; a handler is one of them.
process.on("uncaughtException", ({ message }) => console.log("uncaught", message));
// What was sent comes before the immediate, also if a timer is late.
const turns = () => new Promise((done) => setTimeout(() => setImmediate(done), 20));
const [from, to] = [new BroadcastChannel("name"), new BroadcastChannel("name")];
to.addEventListener("message", ({ data }) => console.log("first", data));
to.onmessage = ({ data }) => {
  console.log("handler", data);
  throw new Error("in the handler");
};
to.addEventListener("message", (event) => {
  console.log("second");
  event.stopImmediatePropagation();
});
to.addEventListener("message", () => console.log("never"));
console.log(from.onmessage, from.onmessageerror, typeof to.onmessage);
for (const act of [() => new BroadcastChannel(), () => from.postMessage()]) {
  try {
    act();
  } catch ({ name, code }) {
    console.log(name, code);
  }
}
from.postMessage(1);
await turns();
to.onmessage = null;
from.postMessage(2);
await turns();
from.close();
to.close();
