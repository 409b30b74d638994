// A port that is closed: what was sent before still comes, and nothing is an event of it.
const lines = globalThis.lines = [];
const { port1, port2 } = new MessageChannel();
port1.onmessage = ({ data }) => lines.push(data);
for (const port of [port1, port2]) port.addEventListener("close", () => lines.push("close"));
lines.push(`${"onclose" in port1}`);
port2.postMessage("one");
port2.postMessage("two");
port2.close();
port2.close();
port2.postMessage("three");
await new Promise((done) => { setTimeout(done, 300); });
port1.postMessage("nobody");
lines.push("end");
console.log(lines.join("\n"));
