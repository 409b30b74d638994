// Streams as async iterators, destroyed by a break, and with the helpers of readable streams.
import { PassThrough, Readable } from "node:stream";
import { text } from "node:stream/consumers";

const numbers = Readable.from([1, 2, 3]);
numbers.on("close", () => console.log("closed", numbers.destroyed));
for await (const number of numbers) {
  console.log(number);
  if (number === 2) break;
}
const through = new PassThrough();
through.write("one ");
process.nextTick(() => through.end("two"));
console.log(await text(through));
const even = Readable.from([1, 2, 3, 4]).filter((number) => number % 2 === 0);
console.log(await even.map(async (number) => number * 10).toArray());
const web = new ReadableStream({
  start(controller) { for (const word of ["x", "y"]) controller.enqueue(word); controller.close(); },
});
for await (const word of web) console.log(word);
