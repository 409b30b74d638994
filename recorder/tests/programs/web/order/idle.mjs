// What a page does when it is idle.
const lines = globalThis.lines = [];
const number = requestIdleCallback(() => lines.push("cancelled"));
cancelIdleCallback(number);
lines.push(typeof number);
await new Promise((done) => {
  requestIdleCallback((deadline) => {
    const left = deadline.timeRemaining();
    lines.push(`${Object.prototype.toString.call(deadline)} ${deadline.didTimeout} ${left >= 0 && left <= 50}`);
    requestIdleCallback(done, { timeout: 1_000 });
  });
  lines.push("first");
});
try { requestIdleCallback(5); } catch (error) { lines.push(error.name); }
lines.push("end");
console.log(lines.join("\n"));
