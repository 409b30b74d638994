// What is no timer and no immediate can be cleared: nothing comes of it.
for (const clear of [clearImmediate, clearTimeout, clearInterval]) {
  for (const what of [{}, undefined, null]) clear(what);
}
setImmediate(() => console.log("an immediate"));
setImmediate(() => console.log("another one"));
setTimeout(() => console.log("a timer"), 5);
