let factor;
new BroadcastChannel("factors").onmessage = ({ data }) => { factor = data; };
onmessage = ({ data }) => {
  if (factor === undefined) throw new Error("there is no factor");
  postMessage(data * factor);
};
postMessage("ready");
