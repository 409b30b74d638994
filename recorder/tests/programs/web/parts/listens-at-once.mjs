await null;
addEventListener("message", ({ data }) => postMessage(data));
