// Whether a worker that the process of a job begins at once collects its garbage. It prints what `WATCHING` returns,
// and whether the worker's code finds the engine's own way to collect.

import { ownModules } from "../../lib/processes/own-modules.cjs";
import { begunThread } from "../../lib/processes/thread.mjs";
import { WATCHING } from "./watched-garbage.mjs";

const GARBAGE = new URL("../../lib/processes/garbage.mjs", import.meta.url);

const thread = begunThread(GARBAGE);
const code = `
  const { onceMore } = modules[${JSON.stringify(GARBAGE.href)}];
  const { port } = require("node:worker_threads").workerData;
  return { main: async () => port.postMessage([...await (${WATCHING})(onceMore), typeof gc]) };
`;
thread.post({ modules: [...ownModules(GARBAGE), { url: "file:///asks.mjs", code }] });
void thread.next().then(({ message }) => {
  console.log(...message);
  process.exit();
});
