await new Promise((done) => { setTimeout(done, 1_000); });
onmessage = ({ data }) => postMessage(data);
postMessage("ready");
