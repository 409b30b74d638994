// The browser's file system of a site, in memory. A worker has it by this script, and so do those that it starts.

class FileSystemHandle {}

class FileSystemFileHandle extends FileSystemHandle {
  #bytes = new ArrayBuffer(0, { maxByteLength: 2 ** 16 });

  async createSyncAccessHandle() {
    const bytes = this.#bytes;
    return {
      getSize: async () => bytes.byteLength, truncate: async (size) => bytes.resize(size),
      async flush() {}, async close() {},
      read: (view, { at }) => {
        const read = new Uint8Array(bytes).subarray(at, at + view.length);
        view.set(read);
        return read.length;
      },
      write: (view, { at }) => {
        if (at + view.length > bytes.byteLength) bytes.resize(at + view.length);
        new Uint8Array(bytes).set(view, at);
        return view.length;
      },
    };
  }
}

class FileSystemDirectoryHandle extends FileSystemHandle {
  entries = new Map();

  #entry(name, kind, { create = false } = {}) {
    if (!this.entries.has(name)) {
      if (!create) throw new DOMException(`there is no ${name}`, "NotFoundError");
      this.entries.set(name, new kind());
    }
    return this.entries.get(name);
  }

  getFileHandle = async (name, options) => this.#entry(name, FileSystemFileHandle, options);
  getDirectoryHandle = async (name, options) => this.#entry(name, FileSystemDirectoryHandle, options);

  async removeEntry(name, { recursive = false } = {}) {
    const entry = this.#entry(name);
    if (entry.entries?.size > 0 && !recursive) throw new DOMException(`${name} isn't empty`);
    this.entries.delete(name);
  }
}

const root = new FileSystemDirectoryHandle();
var navigator = { ...navigator, storage: { getDirectory: async () => root } };

/** A worker begins with this script, and then runs its own. */
var Worker = class extends Worker {
  constructor(url) {
    const { href, search } = new URL(url, location.href);
    super(`sqlite-files.js${search}#${href}`);
  }
};
if (location.hash !== "") importScripts(location.hash.slice(1));
