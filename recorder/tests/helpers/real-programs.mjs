// Programs whose threads get real answers: by sockets and child processes.

/** A server, and two requests of its own thread. */
const MODULES = 'import http from "node:http"; import assert from "assert"; import { once } from "node:events";';
export const ONE_THREAD = `${MODULES}
const server = http.createServer((asked, answer) => answer.end("hello " + asked.url)).listen(0, "127.0.0.1");
await once(server, "listening");
const address = "http://127.0.0.1:" + server.address().port;
assert.equal(await (await fetch(address + "/fetched")).text(), "hello /fetched");
const [answer] = await once(http.get(address + "/got"), "response");
assert.equal((await answer.setEncoding("utf8").toArray()).join(""), "hello /got");
server.closeAllConnections(); server.close();`;

/** A server in a thread, and two requests of another one. */
export const TWO_THREADS = {
  "main.mjs": `import { Worker } from "node:worker_threads"; import assert from "node:assert/strict";
const words = new Int32Array(new SharedArrayBuffer(8));
const worker = new Worker(new URL("worker.mjs", import.meta.url), { workerData: words });
const port = await new Promise((done) => worker.once("message", done));
const get = async (name) => (await fetch("http://127.0.0.1:" + port + "/" + name)).text();
assert.deepEqual(await Promise.all(["a", "b"].map(get)), ["hello /a", "hello /b"]);
assert.equal(Atomics.load(words, 0), 2);
process.exit(0);`,
  "worker.mjs": `import http from "node:http"; import { parentPort, workerData } from "node:worker_threads";
const server = http.createServer((asked, answer) => {
  Atomics.add(workerData, 0, 1);
  answer.end("hello " + asked.url);
}).listen(0, "127.0.0.1", () => parentPort.postMessage(server.address().port));`,
};

/** A server in a thread that exits or is ended by another one. */
export const CLOSED = {
  "main.mjs": `import { Worker } from "node:worker_threads"; import net from "node:net";
import { once } from "node:events";
for (const how of ["exit", "terminate"]) {
  const worker = new Worker(new URL("worker.mjs", import.meta.url));
  const [port] = await once(worker, "message");
  const socket = net.connect(port, "127.0.0.1");
  socket.on("data", () => (how === "exit" ? worker.postMessage(how) : worker.terminate()));
  await once(socket, "close");
}`, "worker.mjs": `import net from "node:net"; import { parentPort } from "node:worker_threads";
const server = net.createServer((socket) => socket.write("come in")).listen(0, "127.0.0.1", () => {
  parentPort.postMessage(server.address().port);
});
parentPort.on("message", () => process.exit(0));`,
};

/** Main looks four times whether the worker's process has ended: each number of times must be possible. */
export const RACE = {
  "main.mjs": `import { Worker } from "node:worker_threads";
const words = new Int32Array(new SharedArrayBuffer(8));
const worker = new Worker(new URL("worker.mjs", import.meta.url), { workerData: words });
await new Promise((done) => worker.once("message", done));
for (let at = 0; at < 4; at += 1) Atomics.add(words, 1, Atomics.load(words, 0));
await new Promise((done) => worker.once("exit", done));`,
  "worker.mjs": `import { exec } from "node:child_process";
import { parentPort, workerData } from "node:worker_threads";
exec("exit 0", () => Atomics.store(workerData, 0, 1));
parentPort.postMessage("begun");`,
};

/** A server to which nobody comes. */
export const LISTENS = `import net from "node:net"; import { once } from "node:events";
const server = net.createServer().listen(0, "127.0.0.1"); await once(server, "listening");`;
