// A port is started by `start` and by `onmessage`, and not by addEventListener.
const lines = globalThis.lines = [];
const [one, two] = [new MessageChannel(), new MessageChannel()];
one.port1.addEventListener("message", ({ data }) => lines.push(`one ${data}`));
two.port1.onmessage = ({ data }) => lines.push(`two ${data}`);
one.port2.postMessage("a");
two.port2.postMessage("b");
await new Promise((done) => { setTimeout(done, 100); });
lines.push("start");
one.port1.start();
one.port2.postMessage("c");
await new Promise((done) => { setTimeout(done, 100); });
two.port1.onmessage = null;
two.port2.postMessage("lost");
await new Promise((done) => { setTimeout(done, 100); });
two.port1.onmessage = ({ data }) => lines.push(`two again ${data}`);
await new Promise((done) => { setTimeout(done, 100); });
lines.push("end");
console.log(lines.join("\n"));
