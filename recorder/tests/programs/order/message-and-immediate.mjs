// A message of the thread to itself comes before an immediate, if both are there when the event loop looks.
import { MessageChannel } from "node:worker_threads";

const { port1, port2 } = new MessageChannel();
port2.on("message", (text) => {
  console.log(text);
  if (text === "the last message") port1.close();
});

function both(where, then) {
  setImmediate(() => {
    console.log("an immediate of", where);
    then();
  });
  for (const which of ["first", "second"]) port1.postMessage(`the ${which} message of ${where}`);
}

const inOneRound = () => {
  setImmediate(() => port1.postMessage("the last message"));
  setImmediate(() => console.log("an immediate of the same round"));
};

setTimeout(both, 5, "a timer", () => both("an immediate", () => both("the next immediate", inOneRound)));
