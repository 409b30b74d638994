// BroadcastChannels get messages in the order in which they were sent, whatever their names.
const lines = globalThis.lines = [];
const [a, b, c] = ["x", "y", "x"].map((name) => new BroadcastChannel(name));
[a, b, c].forEach((channel, at) => channel.addEventListener("message", ({ data, target }) => {
  lines.push(`${at} ${target.name} ${data}`);
}));
const [x, y] = ["x", "y"].map((name) => new BroadcastChannel(name));
x.postMessage(1);
y.postMessage(2);
x.postMessage(3);
c.close();
y.postMessage(4);
await new Promise((done) => { setTimeout(done, 200); });
try { c.postMessage(5); } catch (error) { lines.push(error.name); }
lines.push("end");
console.log(lines.join("\n"));
