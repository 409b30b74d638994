// A top-level await that never settles: exit code 13, and what the exit event gets.
process.on("beforeExit", (status) => console.log("beforeExit", status));
process.on("exit", (status) => console.log("exit", status, process.exitCode));
console.log("waits");
await new Promise(() => {});
console.log("never");
