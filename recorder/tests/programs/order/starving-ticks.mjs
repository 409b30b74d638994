// Ticks that set ticks run before any immediate, and microtasks that queue microtasks too.
let ticks = 0;
let microtasks = 0;
setImmediate(() => console.log("immediate", ticks, microtasks));
const tick = () => {
  ticks += 1;
  if (ticks < 500) process.nextTick(tick);
  else queueMicrotask(microtask);
};
const microtask = () => {
  microtasks += 1;
  if (microtasks < 500) queueMicrotask(microtask);
  else console.log("microtasks", ticks, microtasks);
};
process.nextTick(tick);
