// How a thread of a program starts another one. The new thread gets what it has to run and the ports that go with it,
// and joins the run.

import { SCRIPT_LIMITS } from "../../../script/limits.mjs";
import { toThread } from "../moves/moves.mjs";

/**
 * @typedef {object} StartContext what the start of a thread needs of the one that starts it
 * @property {import("../ports/ports.mjs").Ports} ports
 * @property {import("../moves/moves.mjs").Moves} moves
 * @property {import("../moves/control-channels.mjs").ControlChannels} control
 * @property {import("../moves/buffers.mjs").Buffers} buffers
 * @property {import("../moves/threads.mjs").Threads} threads
 * @property {import("../locks/locks.mjs").Locks} locks
 * @property {() => string} here where the program's code is
 * @property {(why: string) => never} refuse ends the run
 */

/**
 * @typedef {{ url: string, isCode?: boolean, where: string }} ThreadStart what a thread is to run, and where it was
 * started
 */
/** @typedef {{ start: ThreadStart, number: number, ports: any[], ids: number[] }} StartMessage */

/**
 * Starts a thread.
 * @param {StartContext} starting
 * @param {object} given what it is to run; where it was started is added to it
 * @param {any[]} transferList what it gets for good
 * @param {Function} called the function that the program's code has called
 * @returns {{ agent: number, port: any, where: string }} its number, the port to it, and where it was started
 */
export function startThread(starting, given, transferList, called) {
  const { ports, moves, control, buffers, threads, locks, here, refuse } = starting;
  const among = ports.among(transferList);
  const number = moves.send(called, toThread(moves.board.joined));
  const agent = moves.board.joined;
  if (agent === SCRIPT_LIMITS.agents) refuse(`started a Worker more than the ${agent} threads that a run can have`);
  control.needs(agent + 1);
  buffers.handTo(agent);
  locks.handTo(agent);
  const { port1, port2 } = ports.channel();
  const moved = among.concat(port2);
  const ids = moved.map((each) => ports.known(each).id);
  const where = here();
  const start = { ...given, where };
  control.hand(agent, { kind: "start", start, number, ports: moved, ids }, transferList.concat(port2));
  moved.forEach((each) => ports.leave(each));
  threads.start(agent);
  return { agent, port: port1, where };
}

/**
 * What a thread that another one has started was handed.
 * @param {Pick<StartContext, "control" | "ports" | "moves">} starting
 * @returns {{ start: ThreadStart, parentPort: any }}
 */
export function takenStart({ control, ports, moves }) {
  ports.context.table.begins(moves.agent);
  /** @type {StartMessage[]} */
  const handed = [];
  control.onItem("start", (item) => void handed.push(item));
  control.take();
  const { start, number, ports: moved, ids } = handed[0];
  moved.forEach((each, at) => ports.adopt(each, ids[at]));
  moves.receive(number);
  return { start, parentPort: moved[moved.length - 1] };
}

/** @param {string} url @returns {string} the last part of its path */
const fileName = (url) =>
  (/^(?:data|blob):/.test(url) ? `a ${url.slice(0, 5)} URL` : url.slice(url.lastIndexOf("/") + 1));

/** @param {ThreadStart} start @returns {string} what the thread is, for people */
export const threadName = ({ url, isCode }) => (isCode ? "evaluated code" : fileName(url));
