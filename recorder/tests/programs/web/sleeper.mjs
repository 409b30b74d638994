self.addEventListener("message", ({ data: words }) => {
  self.postMessage("sleeps");
  Atomics.wait(words, 0, 0);
  self.postMessage(Atomics.load(words, 1));
});
