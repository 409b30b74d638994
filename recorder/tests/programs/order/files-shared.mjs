// Shared memory that asynchronous functions of files read and write.
import fs from "node:fs";
import { mkdtemp, open, readFile, rm, writeFile } from "node:fs/promises";
import { tmpdir } from "node:os";
import { join } from "node:path";
import { promisify } from "node:util";

const folder = await mkdtemp(join(tmpdir(), "order-"));
const file = join(folder, "a.txt");
const shared = (text) => {
  const bytes = new Uint8Array(new SharedArrayBuffer(4));
  bytes.set(Buffer.from(text));
  return bytes;
};
const textOf = (bytes) => String.fromCharCode(...bytes);

await writeFile(file, shared("file"));
const handle = await open(file, "r+");
const one = shared("");
console.log((await handle.read(one, 0, 4, 0)).buffer === one, textOf(one));
const two = shared("");
console.log((await handle.readv([two], 0)).bytesRead, textOf(two));
console.log((await handle.write(shared("more"), 0, 4, 0)).bytesWritten, await readFile(file, "utf8"));
await promisify(fs.write)(handle.fd, shared("last"), 0, 2, 0);
const three = shared("");
await promisify(fs.read)(handle.fd, three, 0, 4, 0);
console.log(textOf(three));
await handle.close();
await rm(folder, { recursive: true });
