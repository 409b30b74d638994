const channel = new BroadcastChannel("alive");
const answer = () => channel.postMessage(name);
channel.onmessage = answer;
onmessage = ({ data }) => {
  if (data === "throw") throw new Error("inner");
  answer();
};
postMessage(`started ${name}`);
