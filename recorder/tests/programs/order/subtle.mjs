// What `crypto.subtle` does without making keys by chance.
import { generateKeyPairSync } from "node:crypto";

const { subtle } = crypto;
const hex = (buffer) => Buffer.from(buffer).toString("hex").slice(0, 16);
const bytes = (text) => new TextEncoder().encode(text);
const tried = async (act) => {
  try {
    console.log(await act());
  } catch ({ name }) {
    console.log("fails:", name);
  }
};

const mac = await subtle.importKey("raw", bytes("a key"), { name: "HMAC", hash: "SHA-256" }, true, ["sign", "verify"]);
const signature = await subtle.sign("HMAC", mac, bytes("data"));
console.log(hex(signature), await subtle.verify("HMAC", mac, signature, bytes("data")));
console.log(await subtle.verify("HMAC", mac, signature, bytes("other")), mac instanceof CryptoKey, mac.type);
console.log((await subtle.exportKey("jwk", mac)).k, hex(await subtle.exportKey("raw", mac)));

const password = await subtle.importKey("raw", bytes("a password"), "PBKDF2", false, ["deriveBits", "deriveKey"]);
const how = { name: "PBKDF2", hash: "SHA-256", salt: bytes("salt"), iterations: 10 };
console.log(hex(await subtle.deriveBits(how, password, 128)));
const secret = await subtle.importKey("raw", bytes("secret"), "HKDF", false, ["deriveBits"]);
const expanding = { name: "HKDF", hash: "SHA-512", salt: bytes("s"), info: bytes("i") };
console.log(hex(await subtle.deriveBits(expanding, secret, 256)));

const key = await subtle.deriveKey(how, password, { name: "AES-GCM", length: 256 }, true, ["encrypt", "decrypt"]);
const iv = new Uint8Array(12);
const closed = await subtle.encrypt({ name: "AES-GCM", iv }, key, bytes("hello"));
console.log(hex(closed), new TextDecoder().decode(await subtle.decrypt({ name: "AES-GCM", iv }, key, closed)));
await tried(() => subtle.decrypt({ name: "AES-GCM", iv }, key, new Uint8Array(40)));
await tried(() => subtle.encrypt({ name: "AES-GCM", iv }, mac, bytes("hello")));
await tried(() => subtle.importKey("raw", bytes("short"), "AES-GCM", true, ["encrypt"]));
await tried(() => subtle.sign("HMAC", key, bytes("data")));
const { publicKey, privateKey } = generateKeyPairSync("ec", { namedCurve: "P-256" });
const der = { type: "spki", format: "der" };
const curve = { name: "ECDSA", namedCurve: "P-256" };
const open = await subtle.importKey("spki", publicKey.export(der), curve, true, ["verify"]);
const own = await subtle.importKey("jwk", privateKey.export({ format: "jwk" }), curve, true, ["sign"]);
const signed = await subtle.sign({ name: "ECDSA", hash: "SHA-256" }, own, bytes("data"));
console.log(signed.byteLength, await subtle.verify({ name: "ECDSA", hash: "SHA-256" }, open, signed, bytes("data")));
console.log((await subtle.exportKey("spki", open)).byteLength, (await subtle.exportKey("pkcs8", own)).byteLength > 100);
const agrees = { name: "ECDH", namedCurve: "P-256" };
const [one, other] = [await subtle.importKey("spki", publicKey.export(der), agrees, true, []),
  await subtle.importKey("pkcs8", privateKey.export({ type: "pkcs8", format: "der" }), agrees, true, ["deriveBits"])];
console.log((await subtle.deriveBits({ name: "ECDH", public: one }, other, 256)).byteLength);
const pair = generateKeyPairSync("rsa", { modulusLength: 1_024 });
const rsa = { name: "RSA-OAEP", hash: "SHA-256" };
const closes = await subtle.importKey("spki", pair.publicKey.export(der), rsa, true, ["encrypt"]);
const exported = pair.privateKey.export({ type: "pkcs8", format: "der" });
const opens = await subtle.importKey("pkcs8", exported, rsa, true, ["decrypt"]);
const locked = await subtle.encrypt("RSA-OAEP", closes, bytes("for you"));
console.log(locked.byteLength, new TextDecoder().decode(await subtle.decrypt("RSA-OAEP", opens, locked)));
const wrapped = await subtle.wrapKey("raw", mac, key, { name: "AES-GCM", iv }).catch(({ name }) => name);
console.log(wrapped);
const order = [];
const done = subtle.digest("SHA-256", bytes("a")).then(() => order.push("digest"));
process.nextTick(() => order.push("tick"));
await done;
console.log(order.join());
