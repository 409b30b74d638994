// A worker that starts another one, relative to its own script. With the outer one the inner one ends.
const lines = globalThis.lines = [];
let heard = () => {};
const say = (line) => {
  lines.push(line);
  heard();
};
const until = async (count) => {
  while (lines.length < count) await new Promise((done) => { heard = done; });
};
const outer = new Worker("../parts/outer.mjs", { type: "module", name: "outer" });
const channel = new BroadcastChannel("alive");
channel.onmessage = ({ data }) => say(`alive: ${data}`);
outer.onmessage = ({ data }) => say(data);
outer.onerror = (event) => {
  event.preventDefault();
  say(`${event.message} ${event.lineno}`);
};
await until(1);
outer.postMessage("throw");
await until(2);
outer.postMessage("who");
await until(3);
outer.postMessage("close");
await new Promise((done) => { setTimeout(done, 500); });
channel.postMessage("who");
await new Promise((done) => { setTimeout(done, 500); });
lines.push("end");
console.log(lines.join("\n"));
