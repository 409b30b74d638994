// What keeps the program alive, and what doesn't: timers, immediates, ports and workers without a reference.
import { MessageChannel, Worker } from "node:worker_threads";

const timer = setTimeout(() => console.log("never"), 100_000).unref();
const immediate = setImmediate(() => {});
console.log(timer.hasRef(), immediate.hasRef(), immediate.unref().hasRef());
const { port1, port2 } = new MessageChannel();
console.log(port1.hasRef());
port1.on("message", () => console.log("never"));
console.log(port1.hasRef());
port1.unref();
port2.ref();
port2.unref();
new Worker("setInterval(() => {}, 1000)", { eval: true }).unref();
setInterval(() => console.log("never"), 100_000).unref();
const back = setTimeout(() => console.log("timer with a reference"), 5).unref().ref();
console.log(back.hasRef());
process.on("exit", (status) => console.log("exit", status));
