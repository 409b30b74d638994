// Posts how functions look in a watched realm, which comes first.

import { parentPort } from "node:worker_threads";
import "./watched-realm.mjs";

const { looks } = await import("./looks.mjs");
parentPort.postMessage(looks());
