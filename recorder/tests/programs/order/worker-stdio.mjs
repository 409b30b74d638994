// Standard streams of workers: what is written, what is read, and what comes before the end.
import { once } from "node:events";
import { text } from "node:stream/consumers";
import { Worker, isMainThread, parentPort, workerData } from "node:worker_threads";

const started = (options) => new Worker(new URL(import.meta.url), options);
const piped = { stdin: true, stdout: true, stderr: true };

async function asksAndAnswers() {
  const worker = started({ ...piped, workerData: "answers" });
  const [said, failed, ended] = [text(worker.stdout), text(worker.stderr), once(worker, "exit")];
  worker.stdin.write("one ");
  worker.stdin.end("two");
  console.log(await ended, JSON.stringify(await said), JSON.stringify(await failed));
}

async function endsByItself(how) {
  const worker = started({ stdout: true, workerData: how });
  const order = [];
  worker.stdout.setEncoding("utf8").on("data", (part) => order.push(part)).on("end", () => order.push("end"));
  worker.on("exit", (code) => order.push(code));
  worker.on("error", (error) => order.push(error.message));
  await Promise.all([once(worker.stdout, "close"), new Promise((done) => worker.on("exit", done))]);
  // If the worker ends its stream itself, that may come before its exit or behind it.
  console.log(how, JSON.stringify(how === "ends" ? order.slice(0, 1) : order));
}

async function noOneAsks() {
  const worker = started({ workerData: "says nothing" });
  console.log(worker.stdin, typeof worker.stdout.on, worker.stderr.readable);
  worker.stdout.on("end", () => console.log("an end that nobody has asked for"));
  await once(worker, "exit");
  const own = started({ workerData: "reads" });
  console.log(...await once(own, "message"));
}

async function inOneMore() {
  const worker = started({ stdout: true, workerData: "starts another" });
  console.log("of both:", JSON.stringify(await text(worker.stdout)));
}

const ROLES = {
  async answers() {
    const given = await text(process.stdin);
    console.log("has got %s", given);
    console.error("and complains");
    process.stdout.write("last");
  },
  exits() {
    process.stdout.write("before the exit");
    process.exit(3);
  },
  throws() {
    console.log("before the error");
    throw new Error("no");
  },
  listens() {
    process.on("exit", () => console.log("in a listener"));
  },
  ends() {
    process.stdout.end("its own end");
  },
  "says nothing"() {},
  async reads() {
    parentPort.postMessage(JSON.stringify(await text(process.stdin)));
  },
  async "starts another"() {
    console.log("first");
    await once(started({ workerData: "is another" }), "exit");
    console.log("last");
  },
  "is another"() {
    console.log("second");
  },
};

if (isMainThread) {
  await asksAndAnswers();
  for (const how of ["exits", "throws", "listens", "ends"]) await endsByItself(how);
  await noOneAsks();
  await inOneMore();
} else await ROLES[workerData]();
