// postMessage refuses wrong arguments, also if the port is closed. A closed port, too, takes away what is transferred.
import { MessageChannel, receiveMessageOnPort } from "node:worker_threads";

const { port1, port2 } = new MessageChannel();
const GIVEN = [
  [], [1, 5], [1, "text"], [1, {}], [1, { transfer: 5 }], [1, { transfer: [] }], [1, new Set()], [1, [{}]],
  [1, [port1]],
];
for (const given of GIVEN) {
  try {
    port1.postMessage(...given);
    console.log("sent");
  } catch ({ name, code }) {
    console.log(name, code);
  }
}
let received = 0;
while (receiveMessageOnPort(port2) !== undefined) received += 1;
console.log("received", received);
port1.close();
await new Promise((done) => setTimeout(done, 20));
try {
  port1.postMessage(() => {});
} catch ({ name }) {
  console.log(name);
}
const buffer = new ArrayBuffer(4);
port1.postMessage({ buffer, shared: new Uint8Array(new SharedArrayBuffer(4)) }, [buffer]);
console.log(buffer.byteLength);
