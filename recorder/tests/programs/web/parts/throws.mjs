self.onmessage = ({ data }) => {
  postMessage(`got ${data}`);
  throw new RangeError("in a handler");
};
self.onerror = (message, file, line) => {
  postMessage(`onerror ${message} ${file.split("/").at(-1)} ${line}`);
  return line === 3;
};
throw new Error("at its top level");
