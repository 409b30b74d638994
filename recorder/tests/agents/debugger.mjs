// A debugger, as a browser's tools are one: it is loaded before the recorder, attaches to each worker of the process,
// stops where agent 0 stores, says so, and goes on after a while.

import { Session } from "node:inspector";
import { basename } from "node:path";
import { isMainThread } from "node:worker_threads";
import { readFileSync } from "node:fs";
import { pathToFileURL } from "node:url";

const { STOP_IN = "", STOP_FOR = "0" } = process.env;

function attach() {
  const session = new Session();
  session.connect();
  const lineNumber = readFileSync(STOP_IN, "utf8").split("\n").findIndex((line) => line.includes("Atomics.store("));
  let number = 0;
  const send = (sessionId, method, params = {}) => {
    number += 1;
    const message = JSON.stringify({ id: number, method, params });
    session.post("NodeWorker.sendMessageToWorker", { sessionId, message });
  };
  session.on("NodeWorker.attachedToWorker", ({ params: { sessionId } }) => {
    send(sessionId, "Debugger.enable");
    send(sessionId, "Debugger.setBreakpointByUrl", { url: pathToFileURL(STOP_IN).href, lineNumber });
    send(sessionId, "Runtime.runIfWaitingForDebugger");
  });
  session.on("NodeWorker.receivedMessageFromWorker", ({ params: { sessionId, message } }) => {
    const { method, params } = JSON.parse(message);
    if (method !== "Debugger.paused") return;
    const [{ functionName, location }] = params.callFrames;
    setTimeout(() => {
      process.stderr.write(`stopped in ${basename(STOP_IN)} at line ${location.lineNumber + 1}, in ${functionName}\n`);
      send(sessionId, "Debugger.resume");
    }, Number(STOP_FOR));
  });
  session.post("NodeWorker.enable", { waitForDebuggerOnStart: true });
}

if (isMainThread) attach();
