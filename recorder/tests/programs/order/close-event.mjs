// Closing a port closes the other one behind the messages that are under way; each port's events are in order.
import { MessageChannel } from "node:worker_threads";

const { port1, port2 } = new MessageChannel();
const events = [[], []];
port1.on("close", () => events[0].push("closed"));
port2.on("close", () => events[1].push("closed"));
port2.on("message", (text) => events[1].push(text));
port1.postMessage("first");
port1.postMessage("second");
port1.close(() => events[0].push("callback"));
port1.close();
port1.postMessage("never");
events[0].push("main");
process.on("exit", () => console.log(events));
