// events.once: values, errors, an abort, and an event that is emitted in the same tick.
import { EventEmitter, once } from "node:events";

const emitter = new EventEmitter();
const both = Promise.all([once(emitter, "one"), once(emitter, "two")]);
emitter.emit("two", 2, "second");
emitter.emit("one", 1);
console.log(await both);
const failing = once(emitter, "never");
emitter.emit("error", new Error("an error"));
await failing.catch(({ message }) => console.log("caught", message));
const controller = new AbortController();
const aborted = once(emitter, "never", { signal: controller.signal });
controller.abort();
await aborted.catch(({ name }) => console.log(name));
console.log(emitter.listenerCount("never"), emitter.listenerCount("error"));
const target = new EventTarget();
setTimeout(() => target.dispatchEvent(new Event("go")), 1);
console.log((await once(target, "go"))[0].type);
