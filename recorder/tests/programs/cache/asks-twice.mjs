// Wrong: two that look for a key at once both ask for it, since it is kept only when the answer has come.
import { createCache } from "./cache.mjs";

const get = createCache(false);
await Promise.all([get("a"), get("a")]);
const { key, asked } = await get("b");
if (key !== "b" || asked !== 2) throw new Error(`the answer to b is number ${asked}, for ${key}`);
