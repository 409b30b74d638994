// Folders that are opened: by callbacks, promises and iterators.
import fs from "node:fs";
import { opendir } from "node:fs/promises";
import { promisify } from "node:util";

const folder = new URL("./module-parts", import.meta.url);
const names = [];
for await (const entry of await opendir(folder)) names.push(`${entry.name} ${entry.isFile()}`);
console.log(names.sort().join());

const opened = await promisify(fs.opendir)(folder);
let count = 0;
while (await opened.read() !== null) count += 1;
console.log(count === names.length, opened.path.endsWith("module-parts"));
await opened.close();
await (async () => opened.read())().catch(({ code }) => console.log(code));

const other = fs.opendirSync(folder);
await new Promise((done) => {
  other.read((error, entry) => {
    console.log(error, typeof entry.name);
    other.close((problem) => {
      console.log(problem);
      done();
    });
  });
  console.log("behind");
});
fs.opendir(new URL("./nowhere", import.meta.url), ({ code }) => console.log(code));
await opendir(new URL("./nowhere", import.meta.url)).catch(({ code }) => console.log(code));
for await (const entry of fs.opendirSync(folder)) {
  console.log(typeof entry.name);
  break;
}
