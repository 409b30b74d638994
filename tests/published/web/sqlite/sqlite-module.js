// What the file system needs of SQLite's own module: its numbers, its memory, and a list of file systems.

const CODES = {
  ACCESS_EXISTS: 0, ACCESS_READWRITE: 1, ERROR: 1, IOERR: 10, IOERR_ACCESS: 3338, IOERR_CLOSE: 4106,
  IOERR_DELETE: 2570, IOERR_FSYNC: 1034, IOERR_LOCK: 3850, IOERR_READ: 266, IOERR_SHORT_READ: 522,
  IOERR_TRUNCATE: 1546, IOERR_UNLOCK: 2058, IOERR_WRITE: 778, LOCK_EXCLUSIVE: 4, LOCK_NONE: 0, LOCK_PENDING: 3,
  LOCK_RESERVED: 2, LOCK_SHARED: 1, MISUSE: 21, NOTFOUND: 12, OPEN_CREATE: 4, OPEN_DELETEONCLOSE: 8,
  OPEN_READONLY: 1, OPEN_READWRITE: 2, OPEN_MAIN_DB: 256, FCNTL_SYNC: 21, CANTOPEN: 14, BUSY: 5, LOCKED: 6,
};

/** @returns {any} SQLite's module, as far as the file system uses it */
function sqlite3Of() {
  const memory = new Uint8Array(65_536);
  const view = new DataView(memory.buffer);
  let top = 16;
  const scopedAlloc = (size) => {
    const at = top;
    top += (size + 7) & -8;
    return at;
  };
  const scopedAllocCString = (text) => {
    const at = scopedAlloc(4 * text.length + 1);
    new TextEncoder().encodeInto(`${text}\0`, memory.subarray(at));
    return at;
  };
  const setters = { i32: "setInt32", i64: "setBigInt64", double: "setFloat64" };
  const poke = (at, value, kind = "i8") =>
    view[setters[kind] ?? "setInt8"](at, kind === "i64" ? BigInt(value) : value, true);
  const peek = (at, kind) => view[kind === "i64" ? "getBigInt64" : "getInt32"](at, true);
  const cstrToJs = (at) => new TextDecoder().decode(memory.subarray(at, memory.indexOf(0, at)));
  const wasm = {
    heap8u: () => memory, scopedAlloc, scopedAllocCString, allocCString: scopedAllocCString,
    scopedAllocPush: () => top, scopedAllocPop: (before) => { top = before; },
    poke, peek, cstrToJs, isPtr: Number.isInteger,
    // Their names in 2022.
    setMemValue: poke, getMemValue: peek, cstringToJs: cstrToJs,
    installFunction: () => scopedAlloc(8),
  };
  class StructType {
    static structInfo = { sizeof: 64 };
    constructor(pointer = scopedAlloc(64)) { this.pointer = pointer; }
    memberSignature() { return "ipp"; }
    memberKey(name) { return `$${name}`; }
    addOnDispose() {}
    dispose() {}
  }
  let registered = 0;
  const capi = {
    ...Object.fromEntries(Object.entries(CODES).map(([name, value]) => [`SQLITE_${name}`, value])),
    sqlite3_vfs: class extends StructType {}, sqlite3_file: class extends StructType {},
    sqlite3_io_methods: class extends StructType {},
    sqlite3_uri_boolean: () => 0, sqlite3_vfs_find: (name) => (name === null ? 0 : registered),
    sqlite3_vfs_register: Object.assign((pointer) => { registered = pointer; return 0; }, { addReference() {} }),
  };
  return { wasm, capi, StructBinder: { StructType }, scriptInfo: { isWorker: true } };
}
