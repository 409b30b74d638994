// DevTools' extension for C++: its half in the page answers what its worker asks for, while the worker sleeps.

const VALUES = [10, 11, 12];
const valueOf = async (index) => ({ type: "i32", value: VALUES[index] });
const languageServices = {
  getWasmLocal: valueOf, getWasmGlobal: valueOf, getWasmOp: valueOf,
  getWasmLinearMemory: async (offset, length) => Uint8Array.from({ length }, (_, at) => offset + at).buffer,
};
window.chrome = { devtools: { languageServices } };
const { WorkerPlugin } = await import("./DevToolsPluginHost.js");

const plugin = await WorkerPlugin.create();
await plugin.addRawModule("id", "", { url: "http://site/main.wasm", code: new ArrayBuffer(8) });
const location = { rawModuleId: "id", codeOffset: 0 };
for (const expression of ["local", "global", "operand", "memory"]) {
  // Its backend finds the module that it was given, and then no value.
  if (await plugin.evaluate(expression, location, 1) !== null) throw new Error(`${expression} has a value`);
}
close();
