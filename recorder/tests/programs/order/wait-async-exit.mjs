// A notified waitAsync is settled before the end, one that is notified in `beforeExit` never.
const words = new Int32Array(new SharedArrayBuffer(16));
const say = (text) => () => console.log(text);
Atomics.waitAsync(words, 0, 0).value.then(() => {
  console.log("settled");
  Atomics.waitAsync(words, 0, 0).value.then(say("settled again"));
  Atomics.notify(words, 0);
});
Atomics.waitAsync(words, 1, 0, 3_600_000).value.then(say("never"));
Atomics.notify(words, 0);
process.once("beforeExit", () => {
  console.log("before exit");
  Atomics.waitAsync(words, 2, 0).value.then(say("never"));
  Atomics.notify(words, 2);
});
process.on("exit", (code) => console.log("exit", code));
