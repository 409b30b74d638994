onmessage = ({ data, ports, target }) => {
  const isScope = self instanceof DedicatedWorkerGlobalScope && self instanceof EventTarget;
  const { pathname, search, hash } = location;
  let imported = "did";
  try { importScripts(); } catch (error) { imported = error.name; }
  postMessage({ types: data.map((name) => `${name} ${typeof globalThis[name]}`), others: [
    `${isScope} ${pathname.split("/").at(-1)}${search}${hash} ${`${location}`.endsWith("/scope.js?some#part")}`,
    `${self.name} ${ports.length} ${target === self} ${imported} ${typeof navigator.hardwareConcurrency}`,
    Object.prototype.toString.call(self),
  ] });
};
