// Ports and buffers that go to a worker, with both forms of postMessage.
const lines = globalThis.lines = [];
const worker = new Worker("../parts/echo.mjs", { type: "module" });
const { port1, port2 } = new MessageChannel();
const bytes = new Uint8Array([1, 2, 3]);
worker.postMessage({ bytes, port: port2 }, [port2, bytes.buffer]);
lines.push(`${bytes.length}`);
const next = (target) => new Promise((done) => {
  target.onmessage = ({ data, ports, target: own }) => done(`${data} ${ports.length} ${own === target}`);
});
lines.push(await next(port1));
port1.postMessage("by the port");
lines.push(await next(port1));
const other = new MessageChannel();
worker.postMessage("a list", { transfer: [other.port1] });
lines.push(await next(worker));
try { worker.postMessage(() => {}); } catch (error) { lines.push(`${error.name} ${error instanceof DOMException}`); }
try { worker.postMessage(1, [other.port1]); } catch (error) { lines.push(error.name); }
lines.push("end");
console.log(lines.join("\n"));
