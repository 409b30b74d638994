onmessage = ({ data: words }) => {
  if (Atomics.load(words, 0) === 0) Atomics.wait(words, 1, 0);
  postMessage("awake");
};
