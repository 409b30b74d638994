onmessage = ({ data, ports }) => {
  if (typeof data === "string") return postMessage(`${data} ${ports.length}`, ports);
  data.port.onmessage = (event) => data.port.postMessage(event.data);
  data.port.postMessage(`${data.bytes} ${ports[0] === data.port}`);
};
