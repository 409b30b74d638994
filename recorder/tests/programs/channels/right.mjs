// Right: main gives each of two workers one end of a channel; they talk, and one says the result.
import { once } from "node:events";
import { MessageChannel, Worker } from "node:worker_threads";

const { port1, port2 } = new MessageChannel();
const [left, right] = [1, 2].map(() => new Worker(new URL("./talks.mjs", import.meta.url)));
left.postMessage({ port: port1, begins: true }, [port1]);
right.postMessage({ port: port2, begins: false }, [port2]);
const [number] = await once(left, "message");
if (number !== 6) throw new Error(`the number is ${number}`);
