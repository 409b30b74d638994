// The worker asks for the directory when main has changed it.

import { process, program } from "./thread.mjs";

program.parentPort.once("message", () => {
  if (process.cwd() !== "/new") throw new Error(`process.cwd() is ${process.cwd()} after process.chdir("/new")`);
});
