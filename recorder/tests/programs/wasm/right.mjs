// Right: two workers count behind a mutex in WebAssembly.
import { locks } from "./locks.mjs";
import { count } from "./threads.mjs";

count(import.meta.url, () => locks(2), "countLocked");
