// Modules that await are waited for; the timers that run meanwhile print before main goes on.
console.log("begins");
setTimeout(() => console.log("timer 1"), 1);
process.nextTick(() => console.log("tick"));
await null;
console.log("after null");
await new Promise((done) => { setTimeout(done, 10); });
console.log("after 10 ms");
const text = `console.log("inner"); export default await Promise.resolve("value");`;
const { default: value } = await import(`data:text/javascript,${encodeURIComponent(text)}`);
console.log(value);
