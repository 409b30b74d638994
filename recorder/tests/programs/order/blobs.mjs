// What a Blob has, by each of its methods.
import { Blob as OwnBlob } from "node:buffer";
import { arrayBuffer } from "node:stream/consumers";

const blob = new Blob(["one ", new Uint8Array([116, 119, 111]), new Blob([" three"])], { type: "text/plain" });
console.log(OwnBlob === Blob, blob.size, blob.type);
console.log(await blob.text(), await blob.slice(4, 7).text(), `"${await new Blob([]).text()}"`);
console.log((await blob.arrayBuffer()).byteLength, new Uint8Array(await blob.slice(0, 1).arrayBuffer())[0]);
if (blob.bytes !== undefined) console.log((await blob.bytes()).length);
let all = "";
for await (const part of blob.stream()) all += `${new TextDecoder().decode(part)};`;
console.log(all);
const large = new Blob([new Uint8Array(150_000).fill(7)]);
const sizes = [];
for await (const part of large.stream()) sizes.push(part.length);
console.log(sizes.join(), (await arrayBuffer(large.stream())).byteLength);
const reader = large.stream().getReader({ mode: "byob" });
console.log((await reader.read(new Uint8Array(10))).value.length);
console.log((await large.arrayBuffer()).byteLength, (await large.text()).length);
console.log(await new Response(blob).text());
const order = [];
const done = blob.text().then(() => order.push("text"));
queueMicrotask(() => order.push("microtask"));
process.nextTick(() => order.push("tick"));
await done;
console.log(order.join());
if (blob.textStream !== undefined) for await (const part of blob.textStream()) console.log(part);
await Blob.prototype.text.call({}).catch(({ code }) => console.log(code));
