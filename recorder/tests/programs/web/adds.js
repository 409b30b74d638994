importScripts("lock.js");
let lock, words, port, left = 2;

onmessage = (event) => {
  if (typeof event.data === "number") return add(event.data);
  ({ words, port } = event.data);
  lock = new Lock(words);
};

function add(number) {
  lock.take();
  words[1] += number;
  lock.leave();
  left -= 1;
  if (left === 0) port.postMessage("done");
}
