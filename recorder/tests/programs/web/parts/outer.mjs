const inner = new Worker("inner.mjs", { type: "module", name: `${name}/inner` });
inner.onmessage = ({ data }) => postMessage(`${data} by ${name}`);
onmessage = ({ data }) => (data === "close" ? close() : inner.postMessage(data));
