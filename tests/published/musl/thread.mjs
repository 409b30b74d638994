// What a thread has of musl's locks: a module's functions on the shared memory, with a stack of its own.

const STACK = 4096;

/** What the C code asks of the page. There is no page, whose thread mustn't sleep; the rest isn't called. */
const answerOf = (/** @type {string} */ name) => () => {
  if (name === "emscripten_main_browser_thread_id") return 0;
  throw new Error(`${name} isn't there`);
};

/**
 * @param {WebAssembly.Memory} memory
 * @param {WebAssembly.Module} module
 * @param {number} at the thread's number
 * @returns {any} its functions
 */
export function thread(memory, module, at) {
  const functions = WebAssembly.Module.imports(module).filter(({ kind }) => kind === "function");
  const env = Object.fromEntries(functions.map(({ name }) => [name, answerOf(name)]));
  const { exports } = new WebAssembly.Instance(module, { env: { ...env, memory } });
  const { begin, __stack_pointer: stack, __heap_base: base } = /** @type {any} */ (exports);
  stack.value = base.value + (at + 1) * STACK;
  begin(at);
  return exports;
}
