// In a timer an immediate comes before a new timer, and a new timer of no time waits for the next turn.
setTimeout(() => {
  console.log("timer");
  setTimeout(() => console.log("timer of a timer"), 0);
  setImmediate(() => console.log("immediate of a timer"));
}, 1);
