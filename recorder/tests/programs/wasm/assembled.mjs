// A small assembler of WebAssembly: modules that import or have a shared memory, from the bytes of their functions.

/** @param {number} value not negative @returns {number[]} */
export const leb = (value) => (value < 128 ? [value] : [(value % 128) | 128, ...leb(Math.floor(value / 128))]);

/** @param {number} value from -64 to 63, or not negative @returns {number[]} with a sign */
const signed = (value) => (value < 64 ? [value & 127] : [(value & 127) | 128, ...signed(value >> 7)]);

/** @param {string} text @returns {number[]} */
const name = (text) => [...leb(text.length), ...Buffer.from(text)];

/** @param {number[][]} items @returns {number[]} */
const list = (items) => [...leb(items.length), ...items.flat()];

/** @param {number} id @param {number[]} content @returns {number[]} */
const section = (id, content) => [id, ...leb(content.length), ...content];

/** @type {Record<string, number>} */
const TYPES = { i: 0x7f, l: 0x7e, f: 0x7d, d: 0x7c, v: 0x7b };
const BLOCK = 0x40;

/** Instructions, by what they do. */
export const code = {
  get: (/** @type {number} */ local) => [0x20, local],
  set: (/** @type {number} */ local) => [0x21, local],
  i32: (/** @type {number} */ value) => [0x41, ...signed(value)],
  i64: (/** @type {number} */ value) => [0x42, ...signed(value)],
  call: (/** @type {number} */ number) => [0x10, number],
  load: (/** @type {number} */ offset) => [0x28, 2, offset],
  store: (/** @type {number} */ offset) => [0x36, 2, offset],
  atomic: (/** @type {number} */ number, align = 2, offset = 0) => [0xfe, number, align, offset],
  loop: (/** @type {number[]} */ ...body) => [0x03, BLOCK, ...body, 0x0b],
  when: (/** @type {number[]} */ ...body) => [0x04, BLOCK, ...body, 0x0b],
  again: (/** @type {number} */ depth) => [0x0d, depth],
  add: [0x6a], or: [0x72], ne: [0x47], drop: [0x1a], grow: [0x40, 0], size: [0x3f, 0],
};

/** Atomic instructions. */
export const ATOMIC = Object.freeze({
  NOTIFY: 0x00, WAIT32: 0x01, WAIT64: 0x02, FENCE: 0x03, LOAD: 0x10, STORE: 0x17, ADD: 0x1e, SUB: 0x25, CMPXCHG: 0x48,
});

/**
 * @typedef {object} Made a function
 * @property {string} name
 * @property {string} type a letter for each parameter and, behind `>`, for each result
 * @property {number[]} body
 * @property {number} [locals] how many further variables of 32 bits it has
 */

/**
 * The bytes of a module.
 * @param {Made[]} functions all of which it exports
 * @param {{ pages?: [number, number], isOwn?: boolean, isShared?: boolean, start?: number, data?: string,
 * isDataMoved?: boolean }} [how] its memory is imported as `env.memory`, or its own, which it exports; the data goes to
 * byte 32, or to where the imported `env.at` says
 * @returns {Uint8Array}
 */
export function moduleOf(functions, how = {}) {
  const { pages = [1, 1], isOwn = false, isShared = true, start, data, isDataMoved = false } = how;
  const limits = [isShared ? 3 : 1, ...leb(pages[0]), ...leb(pages[1])];
  const types = functions.map(({ type }) => {
    const [given, answered] = type.split(">").map((letters) => list([...letters].map((letter) => [TYPES[letter]])));
    return [0x60, ...given, ...answered];
  });
  const imported = [
    ...(isOwn ? [] : [[...name("env"), ...name("memory"), 2, ...limits]]),
    ...(isDataMoved ? [[...name("env"), ...name("at"), 3, TYPES.i, 0]] : []),
  ];
  const at = isDataMoved ? [0x23, 0] : code.i32(32);
  const bodies = functions.map(({ body, locals = 0 }) => {
    const whole = [...(locals === 0 ? [0] : [1, locals, TYPES.i]), ...body, 0x0b];
    return [...leb(whole.length), ...whole];
  });
  const exported = functions.map((each, at) => [...name(each.name), 0, ...leb(at)]);
  const names = list(functions.map((each, at) => [...leb(at), ...name(each.name)]));
  return new Uint8Array([
    0x00, 0x61, 0x73, 0x6d, 0x01, 0x00, 0x00, 0x00,
    ...section(1, list(types)),
    ...section(2, list(imported)),
    ...section(3, list(functions.map((_, at) => leb(at)))),
    ...(isOwn ? section(5, list([limits])) : []),
    ...section(7, list([...exported, ...(isOwn ? [[...name("memory"), 2, 0]] : [])])),
    ...(start === undefined ? [] : section(8, leb(start))),
    ...section(10, list(bodies)),
    ...(data === undefined ? [] : section(11, list([[0, ...at, 0x0b, ...name(data)]]))),
    ...section(0, [...name("name"), 1, ...leb(names.length), ...names]),
  ]);
}
