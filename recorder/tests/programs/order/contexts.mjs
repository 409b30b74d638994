// AsyncLocalStorage through promises, timers, immediates, ticks, emitters and messages.
import { AsyncLocalStorage, AsyncResource } from "node:async_hooks";
import { EventEmitter } from "node:events";
import { setTimeout as sleep } from "node:timers/promises";
import { MessageChannel } from "node:worker_threads";

const context = new AsyncLocalStorage();
const show = (name) => console.log(name, context.getStore());
const emitter = new EventEmitter();
context.run("a", () => emitter.on("go", () => show("emitter")));
context.run("b", () => {
  process.nextTick(() => show("tick"));
  queueMicrotask(() => show("microtask"));
});
context.run("c", () => emitter.emit("go"));
await context.run("d", async () => {
  await null;
  show("await");
  await sleep(1);
  show("sleep");
  context.exit(() => show("outside"));
  await new Promise((done) => { setImmediate(() => { show("immediate"); done(); }); });
  const interval = setInterval(() => { show("interval"); clearInterval(interval); }, 1);
  await sleep(20);
});
const resource = context.run("e", () => new AsyncResource("own"));
resource.runInAsyncScope(() => show("resource"));
const bound = context.run("f", () => AsyncLocalStorage.bind(() => show("bound")));
bound();
const { port1, port2 } = context.run("g", () => new MessageChannel());
context.run("h", () => port2.once("message", () => { show("message"); port2.close(); }));
context.run("i", () => port1.postMessage(1));
show("main");
