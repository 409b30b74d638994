// What a worker gets from its start: a copy of workerData, env, argv, names and numbers.
import { Worker, isMainThread, parentPort, threadId, workerData } from "node:worker_threads";
import { getEnvironmentData, setEnvironmentData } from "node:worker_threads";

if (isMainThread) {
  const data = { list: [1], map: new Map([["a", new Date(0)]]), shared: new SharedArrayBuffer(4) };
  setEnvironmentData("word", "set by main");
  setEnvironmentData("words", new Int32Array(data.shared));
  const options = { workerData: data, env: { OWN: "1" }, argv: ["x", 2] };
  const worker = new Worker(new URL(import.meta.url), options);
  data.list.push(2);
  process.env.OTHER = "never";
  worker.on("message", (line) => console.log(...line));
  worker.on("exit", () => console.log(new Int32Array(data.shared)[0], parentPort, threadId, workerData));
} else {
  const say = (...line) => parentPort.postMessage(line);
  say(workerData.list, workerData.map.get("a").getTime(), workerData.shared instanceof SharedArrayBuffer);
  say(threadId, Object.keys(process.env).join(), process.argv.slice(2), getEnvironmentData("word"), isMainThread);
  new Int32Array(workerData.shared)[0] = 5;
  const words = getEnvironmentData("words");
  say(words instanceof Int32Array, words.buffer === workerData.shared);
  words[0] += 1;
}
