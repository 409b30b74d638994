// Node's loader thread: main resolves names by a user's hook in another thread, two of them while it sleeps, and two
// at once while it goes on.

import { nodeOf } from "./threads.mjs";

// Node 20 and node 24 have other names for the same.
const { HooksProxy, AsyncLoaderHookWorker = HooksProxy } = nodeOf({
  files: ["internal/modules/esm/hooks", "internal/modules/esm/shared_constants"],
  modules: {
    "internal/modules/esm/utils": { loaderWorkerId: "internal/modules/esm/worker" },
    "internal/modules/esm/initialize_import_meta": {},
    "internal/modules/esm/load": {},
  },
}).require("internal/modules/esm/hooks");

const proxy = new AsyncLoaderHookWorker();
const resolved = (name) => [name, "file:///main.mjs", {}];
const needsUrl = (name, { url }) => {
  if (url !== `file:///${name}.mjs`) throw new Error(`${name} was resolved to ${url}`);
};

for (const name of ["a", "b"]) needsUrl(name, proxy.makeSyncRequest("resolve", undefined, ...resolved(name)));
await Promise.all(["c", "d"].map(async (name) => {
  needsUrl(name, await proxy.makeAsyncRequest("resolve", undefined, ...resolved(name)));
}));
needsUrl("e", proxy.makeSyncRequest("resolve", undefined, ...resolved("e")));
