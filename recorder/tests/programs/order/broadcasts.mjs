// Broadcasts go to all other channels of a name, not to the sender's own and not to closed ones.
import { BroadcastChannel } from "node:worker_threads";

const [first, second, third, other] = ["news", "news", "news", "other"].map((name) => new BroadcastChannel(name));
first.onmessage = () => console.log("never");
other.onmessage = () => console.log("never");
let heard = 0;
for (const [name, channel] of [["second", second], ["third", third]]) {
  channel.onmessage = ({ type, data }) => {
    heard += 1;
    if (heard === 2) console.log("both have heard", type, data);
    if (heard === 2) for (const each of [first, second, other]) each.close();
    if (heard < 3 && name === "third") setTimeout(() => third.close(), 20);
  };
}
for (const target of [{}, [], 5, null]) {
  for (const act of [
    () => Reflect.get(BroadcastChannel.prototype, "name", target),
    ...["postMessage", "close", "ref", "unref"].map((name) => () => BroadcastChannel.prototype[name].call(target, 1)),
  ]) {
    try {
      console.log(act());
    } catch ({ name, code, message }) {
      console.log(name, code, message);
    }
  }
}
console.log(first.name, Object.keys(first));
first.postMessage({ text: "hello" });
try {
  first.postMessage(() => {});
} catch ({ name }) {
  console.log(name);
}
process.on("exit", () => {
  try {
    third.postMessage("late");
  } catch ({ name, message }) {
    console.log(name, message);
  }
});
