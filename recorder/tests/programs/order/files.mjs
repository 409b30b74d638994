// Files by callbacks, promises and streams, each step behind the one before.
import { createReadStream, readFile, stat, statSync } from "node:fs";
import { access, mkdtemp, open, readdir, rm, writeFile } from "node:fs/promises";
import { tmpdir } from "node:os";
import { join } from "node:path";

const folder = await mkdtemp(join(tmpdir(), "order-"));
const file = join(folder, "a.txt");
await writeFile(file, "hello");
await new Promise((done) => {
  readFile(file, "utf8", (error, text) => {
    console.log("readFile", error, text);
    process.nextTick(() => console.log("tick"));
    queueMicrotask(() => console.log("microtask"));
    stat(join(folder, "none"), (missing) => {
      console.log("stat", missing.code);
      done();
    });
  });
  console.log("at once", statSync(file).size);
});
console.log(await readdir(folder), await access(join(folder, "none")).catch(({ code }) => code));
for await (const chunk of createReadStream(file, { encoding: "utf8", highWaterMark: 3 })) console.log("chunk", chunk);
const handle = await open(file);
console.log((await handle.read(Buffer.alloc(9), 0, 9, 1)).bytesRead);
await handle.close();
await rm(folder, { recursive: true });
