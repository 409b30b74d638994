// It prints the sum of the numbers in its input, once that has ended.
import { pipeline } from "node:stream/promises";

await pipeline(process.stdin, async function* (parts) {
  let text = "";
  for await (const part of parts) text += part;
  yield `${text.trim().split(" ").reduce((sum, each) => sum + Number(each), 0)} `;
}, process.stdout, { end: false });
