// Timers have numbers as handles, and no receiver of their own.
const lines = globalThis.lines = [];
const first = setTimeout(function (...given) { lines.push(`${given} ${this === globalThis}`); }, 20, 1, 2);
const second = setTimeout(() => lines.push("never"), 10);
lines.push(`${typeof first} ${second > first} ${clearTimeout(second)}`);
let times = 0;
const interval = setInterval(() => {
  times += 1;
  lines.push(`interval ${times}`);
  queueMicrotask(() => lines.push(`microtask ${times}`));
  if (times === 2) clearInterval(interval);
}, 40);
clearTimeout(12345);
clearTimeout(undefined);
await new Promise((done) => { setTimeout(done, 300); });
lines.push("end");
console.log(lines.join("\n"));
