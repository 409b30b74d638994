// Wrong: both workers count under the lock in its shared mode.
import { count } from "./locks-threads.mjs";

await count("shared", "shared");
