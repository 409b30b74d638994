// Listeners run at once and in order; an error event without a listener throws; rejections of listeners are captured.
import { EventEmitter } from "node:events";

const emitter = new EventEmitter({ captureRejections: true });
emitter.on("work", () => console.log("first"));
emitter.prependListener("work", () => console.log("prepended"));
emitter.once("work", async () => {
  console.log("async");
  throw new Error("rejected");
});
console.log(emitter.emit("work"), emitter.emit("nothing"));
try {
  emitter.emit("error", new Error("no listener"));
} catch ({ message }) {
  console.log("thrown", message);
}
emitter.on("error", ({ message }) => console.log("error", message));
process.nextTick(() => console.log("tick"));
console.log("main");
