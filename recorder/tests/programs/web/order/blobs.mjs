// Workers of `blob:` URLs: of which types they may be, and what they run when the URL is revoked.
const lines = globalThis.lines = [];
const urlOf = (parts, type = "text/javascript") => URL.createObjectURL(new Blob(parts, { type }));
const nextOf = (worker) => new Promise((done) => {
  worker.onmessage = ({ data }) => done(data);
  worker.onerror = (event) => done(`${event.type} ${event instanceof ErrorEvent}`);
});
const library = urlOf(["var shared = 5; let own = 6;"]);
const text = "onmessage = ({ data }) => { importScripts(data); postMessage([shared, own]); };";
const code = new TextEncoder().encode(text);
for (const type of ["", "text/plain", "text/javascript"]) {
  const worker = new Worker(urlOf([code.subarray(0, 10), new Blob([code.subarray(10)])], type));
  worker.postMessage(library);
  lines.push(`classic ${type}: ${await nextOf(worker)}`);
}
for (const type of ["", "text/plain", "text/javascript", "Text/JavaScript;charset=utf-8"]) {
  const url = urlOf([`import "${urlOf(["self.inner = 7;"])}"; postMessage(inner + " é");`], type);
  lines.push(`module ${type}: ${await nextOf(new Worker(url, { type: "module" }))}`);
}
for (const type of ["classic", "module"]) {
  const url = urlOf(["postMessage('revoked');"]);
  const worker = new Worker(url, { type });
  URL.revokeObjectURL(url);
  lines.push(`${type} ${await nextOf(worker)}, then ${await nextOf(new Worker(url, { type }))}`);
}
const thrown = new Worker(urlOf(["\n  throw new Error('no');"]));
thrown.onerror = (event) => {
  event.preventDefault();
  lines.push(`${event.message} ${event.lineno} ${event.filename.slice(0, 5)}`, "end");
  console.log(lines.join("\n"));
};
