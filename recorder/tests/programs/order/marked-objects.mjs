// Objects that can't be cloned or transferred, since the program has marked them.
import threads, { MessageChannel, markAsUntransferable } from "node:worker_threads";

const { port1 } = new MessageChannel();
const by = (act) => {
  try {
    act();
    return "did";
  } catch (error) {
    return error.name;
  }
};

const bytes = new ArrayBuffer(8);
markAsUntransferable(bytes);
console.log(by(() => port1.postMessage(bytes)), by(() => port1.postMessage(bytes, [bytes])), bytes.byteLength);

// Only later versions have these.
const { isMarkedAsUntransferable, markAsUncloneable } = threads;
if (isMarkedAsUntransferable !== undefined) console.log(isMarkedAsUntransferable(bytes), isMarkedAsUntransferable({}));
if (markAsUncloneable !== undefined) {
  const shared = new Int32Array(new SharedArrayBuffer(4));
  const marked = { shared, inner: { get one() { return 1; } } };
  markAsUncloneable(marked);
  markAsUncloneable(1);
  console.log(by(() => port1.postMessage(marked)), by(() => structuredClone({ within: [marked] })));
  console.log(by(() => port1.postMessage({ ...marked })), by(() => port1.postMessage(bytes)));
}
port1.close();
