// Runs the cases of a module in a watched realm, and posts what is wrong with each. The realm comes first.

import { parentPort, workerData } from "node:worker_threads";
import "./watched-realm.mjs";

const { cases } = await import(workerData.module);
const results = [];
for (const [name, problem] of Object.entries(cases())) {
  let found;
  try {
    found = problem();
  } catch (error) {
    found = `${error?.stack ?? error}`;
  }
  results.push({ name, problem: found });
}
parentPort.postMessage(results);
