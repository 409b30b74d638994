// process.exit calls the exit listeners and nothing else; another exit in a listener sets the code.
process.on("beforeExit", () => console.log("never"));
process.on("exit", (status) => {
  console.log("exit", status);
  process.exit(9);
});
process.nextTick(() => console.log("never"));
Promise.resolve().then(() => {
  console.log("promise");
  process.exit(6);
});
