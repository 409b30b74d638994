var counted = typeof counted === "undefined" ? 1 : "twice";
let own = "own";
importScripts("./library.js", "library-two.js");
postMessage([counted, own, typeof Lock, new Lock().name, LIMIT, helper(), pair.join(), typeof inner].join());
postMessage(`${self.helper === helper} ${this === self} ${typeof require} ${typeof module} ${[1] instanceof Array}`);
try { importScripts("missing.js"); } catch (error) { postMessage(error.name); }
try { importScripts("broken.js"); } catch (error) { postMessage(error.name); }
import("./module.mjs").then(({ word }) => {
  postMessage(word);
  postMessage("done");
});
