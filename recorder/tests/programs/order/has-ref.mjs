// Whether ports keep their thread alive: one that is being closed still does.
import { once } from "node:events";
import { MessageChannel } from "node:worker_threads";

const { port1, port2 } = new MessageChannel();
const show = (when) => console.log(when, port1.hasRef(), port2.hasRef());
show("new");
port1.on("message", () => {});
port2.ref();
show("kept alive");
port2.on("close", () => show("the second is closed"));
port1.on("close", () => show("the first is closed, too"));
port2.close();
show("one is being closed");
port2.unref();
show("it is let go");
port2.ref();
show("it is kept once more");
await once(port1, "close");
port1.ref();
port2.ref();
show("both are closed");
