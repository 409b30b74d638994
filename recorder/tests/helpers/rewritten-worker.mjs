// What the default functions of modules do as they are written, and as `--all` rewrites them.

import util from "node:util";
import { parentPort, workerData } from "node:worker_threads";
import { AgentModules } from "../../lib/every/learning/agent-modules.mjs";
import { NodePlatform } from "../../lib/every/learning/node-platform.mjs";
import { madePrelude } from "../../lib/every/learning/prelude-modules.mjs";
import { beginInstalled } from "../../lib/every/state/installed.mjs";
import { Runtime } from "../../lib/every/state/runtime.mjs";

const PLATFORM = new NodePlatform((what) => {
  throw new Error(what);
});

/** @param {unknown} thrown */
const textOf = (thrown) => (thrown instanceof Error ? `${thrown.name}: ${thrown.message}` : util.inspect(thrown));

/** @param {Record<string, any>} exported by a module @returns {string[]} what its function says, returns and throws */
function saidBy(exported) {
  /** @type {string[]} */
  const said = [];
  const say = (/** @type {unknown[]} */ ...values) => {
    said.push(...values.map((one) => util.inspect(one)));
    return values[0];
  };
  try {
    said.push(`returns ${util.inspect(exported.default(say))}`);
  } catch (thrown) {
    said.push(`throws ${textOf(thrown)}`);
  }
  return said;
}

/** @param {string} url @returns {Record<string, any>} what a rewritten module exports */
function rewrittenExports(url) {
  const runtime = new Runtime();
  runtime.installed = beginInstalled();
  madePrelude(PLATFORM, runtime);
  const graph = new AgentModules(PLATFORM);
  graph.take(url, true);
  return graph.made(runtime.calls).get(url) ?? {};
}

/** @param {string} url */
async function both(url) {
  try {
    return { rewritten: saidBy(rewrittenExports(url)), written: saidBy(await import(url)) };
  } catch (problem) {
    return { problem: textOf(problem) };
  }
}

parentPort?.postMessage(await Promise.all(workerData.urls.map(both)));
