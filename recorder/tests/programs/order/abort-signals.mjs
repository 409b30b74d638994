// AbortSignal.timeout and AbortSignal.any beside timers of the same and other times.
setTimeout(() => console.log("timer before"), 20);
const signal = AbortSignal.timeout(20);
const any = AbortSignal.any([signal, new AbortController().signal]);
signal.onabort = ({ type }) => console.log(type, signal.reason.name, signal.reason.code, any.aborted);
any.addEventListener("abort", () => console.log("any", any.reason === signal.reason));
setTimeout(() => console.log("timer behind"), 40);
try {
  AbortSignal.abort("why").throwIfAborted();
} catch (reason) {
  console.log(reason);
}
const controller = new AbortController();
controller.signal.addEventListener("abort", () => console.log("listener"), { once: true });
controller.abort();
controller.abort();
console.log(controller.signal.reason.name, signal.aborted);
