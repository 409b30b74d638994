// A port goes through another port with the messages that wait in it.
import { MessageChannel } from "node:worker_threads";

const outer = new MessageChannel();
const inner = new MessageChannel();
inner.port1.postMessage("before");
outer.port1.postMessage({ deep: [inner.port2] }, [inner.port2]);
inner.port1.postMessage("between");
outer.port2.once("message", ({ deep: [port] }) => {
  console.log("has the port", port !== inner.port2);
  port.on("message", (text) => {
    console.log("message", text);
    if (text === "behind") port.close();
  });
  inner.port1.postMessage("behind");
});
inner.port1.on("close", () => console.log("closed"));
inner.port1.ref();
