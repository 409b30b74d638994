// What a program's thread finds if the program is one for browsers. The first thread stands for a page; each other one
// is a dedicated worker.

import { apply } from "../../primordials.mjs";
import { member, showEngineTexts } from "../../agent/ordinary/patch.mjs";
import { KIND, channelClass } from "../ports/ports.mjs";
import { Blobs } from "./blobs.mjs";
import { WebEnds } from "./web-ends.mjs";
import { fetchOf } from "./fetch.mjs";
import { beginGlobals, installGlobals } from "./globals.mjs";
import { NativeFunctions } from "./native-texts.mjs";
import { WebModuleGraph } from "./web-graph.mjs";
import { WebPorts, eventOfMessage, serveWebPorts, webBroadcastClass } from "./web-ports.mjs";
import { serveWorkers, webWorkerClass } from "./worker-object.mjs";

const { TypeError: EngineTypeError } = globalThis;
const { wait: engineWait } = Atomics;

/** @typedef {import("./worker-object.mjs").WebStart} WebStart */
/** @typedef {{ ends: WebEnds, ports: WebPorts, blobs: Blobs, natives: NativeFunctions }} WebServices */
/** @typedef {import("../thread/thread-services.mjs").ThreadServices & WebServices} WebParts */

/** @param {number} agent @returns {typeof Atomics} the engine's own; in a page `wait` throws, as the engine's does */
function atomicsOf(agent) {
  if (agent !== 0) return Atomics;
  const own = Object.defineProperties({}, Object.getOwnPropertyDescriptors(Atomics));
  const wait = (/** @type {any[]} */ ...given) => {
    // The engine makes its checks first.
    apply(engineWait, undefined, given);
    throw new EngineTypeError("Atomics.wait cannot be called in this context");
  };
  return /** @type {any} */ (Object.assign(own, { wait }));
}

/** @param {WebParts} parts @param {WebModuleGraph} graph */
function install(parts, graph) {
  const { ports: { targets }, ends, later } = parts;
  const blobs = new Blobs(parts);
  Object.assign(ends, { targets, later });
  Object.assign(parts, { blobs });
  Object.assign(graph, { blobs });
  blobs.install();
  installGlobals(parts, targets, (url) => graph.script(url)());
  member(globalThis, "fetch", fetchOf(parts));
  serveWorkers(targets);
  const natives = new NativeFunctions();
  Object.assign(parts, { natives });
  showEngineTexts((fn) => natives.has(fn));
}

/**
 * Gives the thread's code what it is in a run.
 * @param {WebParts} parts
 * @param {WebStart} start
 * @param {any} parentPort null in the first thread
 */
function begin(parts, start, parentPort) {
  const { ports, ports: { targets }, moves, control, buffers, ends } = parts;
  ends.where = start.where;
  if (parentPort !== null) {
    ports.known(parentPort).taker = (envelope) => {
      if (envelope.kind === KIND.MESSAGE) targets.dispatch(globalThis, eventOfMessage(envelope));
    };
  }
  const casting = { ports, moves, control, buffers };
  const classes = {
    Worker: webWorkerClass({ ...parts, targets, base: start.url }), MessageChannel: channelClass(ports),
    BroadcastChannel: webBroadcastClass(casting, targets),
  };
  Object.values(classes).forEach((each) => parts.natives.add(each));
  beginGlobals(start, classes);
}

/**
 * Evaluates the thread's script or module. Its messages come from then on, also if it still awaits something.
 * @param {WebStart} start
 * @param {WebModuleGraph} graph
 * @param {WebParts} parts
 */
async function evaluated({ url, type, content }, graph, { ports, ends }) {
  const { parentPort } = ends;
  graph.first = { url, content };
  let hasBegun = false;
  const begun = () => {
    hasBegun = true;
    if (parentPort !== undefined) ports.start(parentPort);
  };
  try {
    if ((type ?? graph.typeOf(url)) === "module") return await graph.enter(url, begun);
    const run = graph.script(url);
    begun();
    run();
  } catch (thrown) {
    if (hasBegun || parentPort === undefined) throw thrown;
    ends.isNotLoaded(thrown);
  }
}

/** @type {import("../thread/thread-services.mjs").Surroundings} */
export const WEB = {
  Graph: WebModuleGraph,
  hasPhases: false,
  Ends: WebEnds,
  Ports: WebPorts,
  atomics: atomicsOf,
  serve: serveWebPorts,
  install,
  mainStart: ({ program }) => ({ url: program, name: "", where: "" }),
  begin,
  evaluated,
  clear: (/** @type {WebParts} */ { ports: { targets }, blobs }) => {
    targets.clear();
    blobs.clear();
  },
};
