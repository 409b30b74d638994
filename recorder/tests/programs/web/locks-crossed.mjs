// Wrong: two workers ask for the same two locks in opposite orders.
import { ask } from "./locks-askers.mjs";

await ask(["a", "b"], ["b", "a"]);
