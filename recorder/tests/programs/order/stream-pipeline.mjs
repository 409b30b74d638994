// A pipeline of three streams: the order of chunks, of finish, end and close, and of the promise.
import { Readable, Transform, Writable } from "node:stream";
import { pipeline } from "node:stream/promises";

const source = Readable.from(["a", "b", "c"]);
const upper = new Transform({
  objectMode: true,
  highWaterMark: 1,
  transform(text, encoding, done) { done(null, text.toUpperCase()); },
  flush(done) { this.push("end"); done(); },
});
const sink = new Writable({
  objectMode: true,
  highWaterMark: 1,
  write(text, encoding, done) { console.log("write", text); setImmediate(done); },
  final(done) { console.log("final"); done(); },
});
for (const [name, stream] of Object.entries({ source, upper, sink })) {
  for (const event of ["end", "finish", "close", "pause", "drain"]) stream.on(event, () => console.log(name, event));
}
await pipeline(source, upper, sink);
console.log("done");
const failing = Readable.from((function* () { yield 1; throw new Error("in the source"); })());
await pipeline(failing, new Writable({ objectMode: true, write: (chunk, encoding, done) => done() }))
  .catch(({ message }) => console.log("caught", message));
