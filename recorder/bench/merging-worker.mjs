// Learns modules with merged moments and without, in one thread, and reports what is left in both cases.

import { parentPort, workerData } from "node:worker_threads";
import { Asker } from "../lib/every/learning/asking.mjs";
import { loadCode } from "../lib/every/learning/learned-code.mjs";
import { Learned } from "../lib/every/learning/learned.mjs";
import { installRealm, installShown } from "../lib/every/learning/realm.mjs";
import { Kinds, blocksIn } from "../lib/every/search/result.mjs";

const { urls, flaw, limit, isUnmergedToo = true } = workerData;
const asker = new Asker();
const platform = installRealm(asker);
installShown();

/** @param {import("../lib/every/learning/learned-code.mjs").LearnedCode} code @param {boolean} isUnmerged */
function learned(code, isUnmerged) {
  const one = new Learned(code, asker, { args: [], place: {}, timeouts: "early", limit, isUnmerged });
  const search = one.search((found) => found);
  const kinds = new Kinds(search).find();
  return {
    isClosed: search.isClosed, states: search.count, acts: search.acts, nodes: one.learner.nodes.length,
    edges: one.learner.nodes.reduce((sum, { edges }) => sum + edges.size, 0),
    finals: [...kinds.finals.keys()].map((memory) => blocksIn(search.world, memory).join()).sort(),
    failed: [...kinds.failed.keys()].sort(), deadlocks: kinds.deadlock !== undefined,
    hidden: [...one.learner.hidden.keys()],
  };
}

/** @param {string} url */
function both(url) {
  try {
    const code = loadCode(url, asker, platform, flaw);
    const merged = learned(code, false);
    return isUnmergedToo ? { merged, unmerged: learned(code, true) } : { merged };
  } catch (problem) {
    asker.refused = undefined;
    const { constructor, message } = /** @type {Error} */ (problem);
    return { problem: `${constructor.name}: ${message}` };
  }
}

const results = [];
for (const url of urls) results.push(both(url));
parentPort?.postMessage(results);
