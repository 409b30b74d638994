// Digests of `crypto.subtle`.
const { subtle } = crypto;
const hex = (buffer) => Buffer.from(buffer).toString("hex").slice(0, 16);
const bytes = new TextEncoder().encode("bytes");
for (const name of ["SHA-1", "SHA-256", "sha-384", "SHA-512"]) console.log(name, hex(await subtle.digest(name, bytes)));
console.log(hex(await subtle.digest({ name: "SHA-256" }, bytes.buffer)),
  hex(await subtle.digest("SHA-256", bytes.subarray(2))));
console.log((await subtle.digest("SHA-1", new DataView(bytes.buffer, 1))) instanceof ArrayBuffer);
for (const given of [["MD5", bytes], ["SHA-256", "text"], ["SHA-256"]]) {
  await subtle.digest(...given).then(() => console.log("did"), ({ name }) => console.log(name));
}
const changed = new Uint8Array([1]);
const digest = subtle.digest("SHA-256", changed);
changed[0] = 2;
console.log(hex(await digest));
