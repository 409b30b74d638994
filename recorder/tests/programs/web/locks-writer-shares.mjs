// Wrong: the worker that writes the table asks for the lock in its shared mode.
import { use } from "./locks-users.mjs";

await use("shared");
