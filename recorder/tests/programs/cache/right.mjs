// Right: each key is asked for once, since it is kept for 300 s.
import { createCache } from "./cache.mjs";

const get = createCache(true);
for (const key of ["a", "b", "a", "b"]) {
  const { asked } = await get(key);
  if (asked !== (key === "a" ? 1 : 2)) throw new Error(`${key} was asked for as number ${asked}`);
}
await Promise.all([get("c"), get("c")]);
const { asked } = await get("c");
if (asked !== 3) throw new Error(`c was asked for as number ${asked}`);
