postMessage("ready");
self.onmessage = ({ data }) => {
  postMessage(`got ${data}`);
  if (data !== "close") return;
  setTimeout(() => postMessage("a timer"), 0);
  close();
  postMessage("behind close");
  queueMicrotask(() => postMessage("a microtask"));
};
