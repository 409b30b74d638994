// A warning is an event at the next tick, and a warning of too many listeners comes once.
import { EventEmitter } from "node:events";

process.on("warning", ({ name, message, code }) => console.log(name, message.slice(0, 40), code));
process.emitWarning("own", { type: "Own", code: "OWN1" });
process.nextTick(() => console.log("tick"));
const emitter = new EventEmitter();
for (let count = 0; count < 13; count += 1) emitter.on("go", () => {});
console.log("main");
