// Right: all answers may take 200 ms, while an interval of 10 ms looks how far they are.
import { once } from "node:events";
import { Worker } from "node:worker_threads";

const worker = new Worker(new URL("./worker.mjs", import.meta.url));
let seen = 0;
let looks = 0;
const ticks = setInterval(() => {
  looks += seen;
}, 10);
const late = setTimeout(() => {
  throw new Error(`${seen} answers in 200 ms, in ${looks} looks`);
}, 200);
for (let number = 1; number <= 6; number += 1) {
  worker.postMessage(number);
  const [answer] = await once(worker, "message");
  if (answer !== number * 2) throw new Error(`the double of ${number} is ${answer}`);
  seen += 1;
}
clearTimeout(late);
clearInterval(ticks);
worker.unref();
