// The worker of DevTools' extension, with what stands in for its backend, a debugger in WebAssembly.

import "./DevToolsPluginWorkerMain.js";

const NOT_FOUND = 1;
const HEAP8 = new Uint8Array(16);
const removable = (it) => Object.assign(it, { delete() {} });
const list = () => removable({ size: () => 0 });

/** Reads what the page has, in more than one way. */
const READ = {
  local: (proxy) => [0, 1, 2].map((index) => proxy.getLocal(index).value - 10),
  global: (proxy) => [2, 0].map((index) => proxy.getGlobal(index).value - 10),
  operand: (proxy) => [proxy.getOperand(1).value - 10],
  memory: (proxy) => {
    proxy.readMemory(1, 0, 2);
    return [...HEAP8.subarray(0, 2)];
  },
};
const EXPECTED = { local: "0,1,2", global: "2,0", operand: "1", memory: "1,2" };

class DWARFSymbolsPlugin {
  AddRawModule() { return removable({ sources: list(), dwos: list() }); }
  EvaluateExpression(_, expression, proxy) {
    const got = READ[expression](proxy).join();
    if (got !== EXPECTED[expression]) throw new Error(`${expression}: ${got}`);
    return removable({ error: removable({ code: NOT_FOUND }) });
  }
}

const backend = {
  DWARFSymbolsPlugin, HEAP8, FS: { unlink() {}, createDataFile() {} },
  ErrorCode: { MODULE_NOT_FOUND_ERROR: NOT_FOUND },
  RawLocation: class { delete() {} },
};
globalThis.createSymbolsBackend = async () => backend;
