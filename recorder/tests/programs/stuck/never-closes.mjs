// Wrong: main listens at a port that nobody closes, so the program never ends.
import { MessageChannel, Worker } from "node:worker_threads";

const { port1, port2 } = new MessageChannel();
const code = `const { workerData: port } = require("node:worker_threads");
port.postMessage("hello");`;
new Worker(code, { eval: true, workerData: port2, transferList: [port2] });
new MessageChannel().port1.on("message", () => {});
port1.once("message", () => port1.close());
