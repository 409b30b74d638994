// new Worker throws at once if an argument is wrong. If the file isn't there, the worker has an error.
import { mkdtempSync, rmSync, writeFileSync } from "node:fs";
import { tmpdir } from "node:os";
import { join } from "node:path";
import { Worker } from "node:worker_threads";

const folder = mkdtempSync(join(tmpdir(), "order-"));
writeFileSync(join(folder, "worker.js"), 'require("node:worker_threads").parentPort.postMessage("without its ending")');

const CODE = [
  [], [5], ["x.mjs"], [new URL("http://a/b")], ["file:///x"], ["data:text/javascript,1"],
  [new URL("data:text/javascript,1"), { eval: true }], ["", { eval: true, argv: 5 }], ["", { eval: true, env: 5 }],
  ["", { eval: true, execArgv: 5 }], ["", { eval: true, name: 5 }], ["", { eval: true, argv: null, env: null }],
  [join(folder, "none.mjs")], [join(folder, "worker")],
];
for (const given of CODE) {
  try {
    const worker = new Worker(...given);
    worker.on("message", (text) => console.log("message", text));
    worker.on("error", ({ code, requireStack }) => console.log("error", code, requireStack));
    await new Promise((done) => worker.on("exit", (status) => {
      console.log("exit", status);
      done();
    }));
  } catch ({ name, code }) {
    console.log(name, code);
  }
}
rmSync(folder, { recursive: true });
