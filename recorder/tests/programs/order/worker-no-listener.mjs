// The error of a worker without a listener is an uncaught exception of main. If main is late, node emits the worker's
// "exit" before that, so this program has no listener for it.
import { Worker } from "node:worker_threads";

process.on("exit", (status) => console.log("exit", status));
process.on("uncaughtExceptionMonitor", ({ name, message }, origin) => console.log("monitor", name, message, origin));
new Worker("throw new SyntaxError('in the worker')", { eval: true });
