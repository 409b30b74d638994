// Runs a program several times in one thread with all parts together: graph, timers, twins, and the rest refused. Its
// loop is simple: a task, else an immediate, else a timer, else the clock goes on. Prints each run's lines as JSON.

import util from "node:util";
import { putAllSyncVersions } from "../../lib/program/sync/all-sync-versions.mjs";
import { ProgramModules } from "../../lib/program/modules/program-modules.mjs";
import { turnLater } from "../../lib/program/real/real-loop.mjs";
import { refuseRest } from "../../lib/program/node/node-api-policy.mjs";
import { Timers } from "../../lib/program/loop/timers.mjs";

const [url, runs] = process.argv.slice(2);
const { log } = console;
void [process.stdin, process.stdout, process.stderr];

let playing = false;
let now = 0;
/** @type {(() => void)[]} */
let tasks = [];
const isPlaying = () => playing;
/** @param {string} name */
const refuse = (name) => { throw new Error(`refused: ${name}`); };
const own = new Timers({ now: () => now });
const graph = new ProgramModules({ refuse: () => {} });
refuseRest({ refuse, isPlaying });
putAllSyncVersions({ isPlaying, later: (_, act) => tasks.push(act) });

/** @returns {boolean} whether there was anything to do */
function step() {
  if (tasks.length > 0) tasks.shift()?.();
  else if (own.immediates > 0) own.runImmediate();
  else if (!own.runTimer()) {
    if (own.deadline === Infinity) return false;
    now = own.deadline;
  }
  return true;
}

const all = [];
for (let run = 0; run < Number(runs); run += 1) {
  /** @type {string[]} */
  const lines = [];
  console.log = (...given) => lines.push(util.format(...given));
  graph.begin();
  own.clear();
  [now, tasks, playing] = [0, [], true];
  graph.enter(url).catch((error) => lines.push(`failed: ${error.stack}`));
  let steps = 0;
  for (let isOver = false; !isOver; steps += 1) {
    await new Promise((done) => void turnLater(() => {
      isOver = !step();
      turnLater(() => done(undefined));
    }));
  }
  playing = false;
  all.push({ lines, steps, now });
}
log(JSON.stringify(all));
