// Exit codes of workers, one after the other.
import { once } from "node:events";
import { Worker } from "node:worker_threads";

const codes = [
  "process.exit(7)", "process.exitCode = 3", "process.exit()", "process.exitCode = 4; process.exit()",
  "process.on('exit', () => { process.exitCode = 6; })", "setTimeout(() => process.exit(8), 1)",
  "process.on('exit', () => process.exit(9)); process.exit(2)",
];
for (const code of codes) {
  const worker = new Worker(code, { eval: true });
  console.log(code, await once(worker, "exit"));
}
const never = new Worker(new URL("data:text/javascript,await new Promise(() => {});"));
console.log("unsettled", await once(never, "exit"));
console.log(process.exitCode);
