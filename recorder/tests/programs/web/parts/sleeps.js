onmessage = function ({ data }) {
  if (typeof data === "string") return postMessage(data);
  postMessage("sleeps");
  postMessage(Atomics.wait(data, 0, 0));
};
