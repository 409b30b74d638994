// An immediate that clears the one behind it, in the same turn.
let second;
setImmediate(() => {
  console.log("first");
  clearImmediate(second);
});
second = setImmediate(() => console.log("never"));
setImmediate(() => console.log("third"));
