// It awaits, and imports the second one as main does.
import { second } from "./second.mjs";

console.log("first begins", second);
await new Promise((done) => { setTimeout(done, 5); });
console.log("first ends");
