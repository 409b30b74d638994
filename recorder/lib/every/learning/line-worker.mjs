// The thread that finds the line of an agents' module at which its rewritten code is, by the frames of another thread.

import { basename } from "node:path";
import { fileURLToPath } from "node:url";
import { workerData } from "node:worker_threads";
import { AgentModules } from "./agent-modules.mjs";
import { Asker } from "./asking.mjs";
import { installRealm } from "./realm.mjs";

/** @typedef {import("../../processes/place-of-thread.mjs").StackFrame} StackFrame */

/** @typedef {{ module: string, frames: StackFrame[] }} LineWorkerData the agents' module; the innermost frame first */

/** Reports the line, if there is one. */
export function main() {
  const given = /** @type {LineWorkerData & { port: import("node:worker_threads").MessagePort }} */ (workerData);
  const { port } = given;
  try {
    port.postMessage({ line: lineIn(given) });
  } catch {
    port.postMessage({ line: undefined });
  }
  port.close();
}

/** @param {LineWorkerData} given @returns {string | undefined} the innermost file, line and column of the agents */
function lineIn({ module, frames }) {
  const graph = new AgentModules(installRealm(new Asker()));
  graph.take(module, true);
  const frame = frames.find(({ file }) => graph.texts.has(file));
  const text = frame && graph.texts.get(frame.file);
  if (frame === undefined || text === undefined) return undefined;
  const before = text.code.split("\n").slice(0, frame.line - 1);
  const position = before.reduce((sum, { length }) => sum + length + 1, 0) + frame.column - 1;
  return `${basename(fileURLToPath(frame.file))}:${text.lineOf(position)}`;
}
