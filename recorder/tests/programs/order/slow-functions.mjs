// zlib and crypto answer by callbacks, behind the ticks and microtasks of now.
import { pbkdf2, randomBytes, scryptSync, webcrypto } from "node:crypto";
import { promisify } from "node:util";
import { gunzipSync, gzip, inflate } from "node:zlib";

const packed = await promisify(gzip)("hello");
console.log(gunzipSync(packed).toString());
await new Promise((done) => {
  inflate(Buffer.from("no"), (error) => {
    console.log(error.code);
    done();
  });
  process.nextTick(() => console.log("tick"));
  queueMicrotask(() => console.log("microtask"));
});
const derived = [await promisify(pbkdf2)("a", "b", 1, 4, "sha256"), scryptSync("a", "b", 4)];
console.log(derived.map((bytes) => bytes.toString("hex")));
console.log((await promisify(randomBytes)(4)).length);
console.log(Buffer.from(await webcrypto.subtle.digest("SHA-256", Buffer.from("a"))).toString("hex").slice(0, 8));
