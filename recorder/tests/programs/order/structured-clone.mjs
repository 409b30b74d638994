// What a message keeps and loses, and what it refuses.
import { MessageChannel, receiveMessageOnPort } from "node:worker_threads";

const { port1, port2 } = new MessageChannel();
const sent = (value, transfer) => {
  try {
    port1.postMessage(value, transfer);
    return receiveMessageOnPort(port2).message;
  } catch (error) {
    return `${error.name} ${error.code}`;
  }
};
class Point { constructor() { this.x = 1; } get y() { return 2; } }
const circle = { name: "circle" };
circle.self = circle;
const back = sent(circle);
console.log(back !== circle, back.self === back, sent(new Point()), sent(new Point()) instanceof Point);
console.log(sent(new Map([[{ a: 1 }, new Set([1n])]])), sent(/x/gi), sent(new Date(5)), sent([, undefined, -0]));
console.log(sent(new RangeError("far")) instanceof RangeError, sent(Object("s")), sent(Object.create({ a: 1 })));
console.log(sent(() => {}), sent(Symbol("s")), sent({ f() {} }), sent(new WeakMap()), sent(Promise.resolve()));
console.log(sent({ get a() { throw new Error("getter"); } }), sent(Object.freeze([1])), sent(new Proxy({}, {})));
console.log(structuredClone({ a: [1] }), sent(Buffer.from("hi")) instanceof Buffer, sent(Buffer.from("hi")).length);
const shared = new Int32Array(new SharedArrayBuffer(8), 4);
const view = sent(shared);
view[0] = 9;
console.log(shared[0], view.byteOffset, view.buffer === shared.buffer);
