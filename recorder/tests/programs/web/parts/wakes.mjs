onmessage = ({ data: words }) => {
  Atomics.store(words, 0, 1);
  const woken = Atomics.notify(words, 0);
  setTimeout(() => postMessage(`woken: ${woken}`), 100);
};
