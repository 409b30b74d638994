// Wrong: two workers count in WebAssembly, without the mutex.
import { locks } from "./locks.mjs";
import { count } from "./threads.mjs";

count(import.meta.url, () => locks(2), "count");
