// What is transferred is gone on this side; what can't be is refused, and nothing is gone then.
import { MessageChannel, receiveMessageOnPort } from "node:worker_threads";

const { port1, port2 } = new MessageChannel();
const attempt = (value, transfer) => {
  try {
    port1.postMessage(value, transfer);
    return receiveMessageOnPort(port2).message;
  } catch ({ name, code }) {
    return `${name} ${code}`;
  }
};
const buffer = new ArrayBuffer(8);
const bytes = new Uint8Array(buffer);
console.log(attempt({ buffer, f() {} }, [buffer]), buffer.byteLength);
console.log(attempt(buffer, [buffer, buffer]), buffer.byteLength);
console.log(attempt(bytes, [buffer]).length, buffer.byteLength, bytes.length);
console.log(attempt(1, [buffer]), attempt(1, [port1]), attempt(1, [{}]), attempt(1, [new SharedArrayBuffer(1)]));
const inner = new MessageChannel();
console.log(attempt(inner.port1), attempt(inner.port1, [inner.port1]).constructor.name);
console.log(attempt(1, [inner.port1]), structuredClone(new ArrayBuffer(3)).byteLength);
inner.port2.on("close", () => console.log("closed"));
inner.port2.close();
