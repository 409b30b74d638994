// Wrong: main reads the byte that a worker has written, without a message from it. Meanwhile it talks to another one.
import { MessageChannel, Worker } from "node:worker_threads";

const byte = new Uint8Array(new SharedArrayBuffer(1));
const { port1, port2 } = new MessageChannel();
const rules = { workerData: { byte, port: port2 }, transferList: [port2] };
const writer = new Worker(new URL("./writes.mjs", import.meta.url), rules);
const talker = new Worker(new URL("./talks-back.mjs", import.meta.url));
let left = 2_200;
talker.on("message", () => {
  left -= 1;
  if (left > 0) {
    talker.postMessage(left);
    return;
  }
  const found = byte[0];
  port1.close();
  process.exit(found > 1 ? 1 : 0);
});
talker.postMessage(left);
writer.unref();
