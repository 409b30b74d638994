// Modules of node that the recorder and its tests use, as node.d.ts has its globals.

declare module "node:assert" {
  interface Assert {
    AssertionError: Function;
    strict: Assert;
  }
  const assert: Assert;
  export default assert;
}

declare module "node:assert/strict" {
  interface StrictAssert {
    deepEqual(actual: unknown, expected: unknown, message?: string): void;
    equal(actual: unknown, expected: unknown, message?: string): void;
    fail(message: string): never;
    match(text: string, pattern: RegExp, message?: string): void;
    ok(value: unknown, message?: string): asserts value;
    throws(act: () => unknown, expected: RegExp | ((error: Error) => boolean), message?: string): void;
  }
  const assert: StrictAssert;
  export default assert;
}

declare module "node:async_hooks" {
  interface Hooks {
    init?(id: number, type: string, trigger: number, resource: object): void;
    before?(id: number): void;
  }
  export function createHook(hooks: Hooks): { enable(): void; disable(): void };
  export function executionAsyncResource(): object;
  export class AsyncLocalStorage<Store> {
    getStore(): Store | undefined;
    run<Result>(store: Store, act: () => Result): Result;
  }
  export class AsyncResource {
    static bind(act: Function, type: string): Function;
    constructor(type: string);
    runInAsyncScope(act: () => void): void;
  }
}

declare module "node:buffer" {
  const all: { Blob: Function; File?: Function };
  export default all;
}

declare module "node:crypto" {
  interface Hash {
    update(data: string | Uint8Array): this;
    digest(encoding: "base64" | "hex"): string;
  }
  interface WebCrypto {
    readonly subtle: object;
    getRandomValues<T extends ArrayBufferView>(view: T): T;
  }
  interface Crypto {
    readonly webcrypto: WebCrypto;
    readonly X509Certificate: Function;
    getRandomValues<T extends ArrayBufferView>(view: T): T;
    randomUUID(): string;
    randomBytes(bytes: number, done?: Function): Buffer;
    randomInt(least: number, most?: number, done?: Function): number;
    randomFillSync<T extends ArrayBufferView | ArrayBufferLike>(into: T, offset?: number, size?: number): T;
  }
  export function createHash(algorithm: string): Hash;
  export function randomBytes(bytes: number): Buffer;
  const crypto: Crypto;
  export default crypto;
}

declare module "node:fs" {
  interface Stats {
    uid: number;
    isDirectory(): boolean;
    isFile(): boolean;
  }
  export const constants: { readonly X_OK: number };
  export function createReadStream(path: string): NodeJS.Input;
  export function accessSync(path: string, mode: number): void;
  export function closeSync(file: number): void;
  export function existsSync(path: string | URL): boolean;
  export function lstatSync(path: string): Stats;
  export function mkdtempSync(prefix: string): string;
  export function readdirSync(path: string | URL): string[];
  export function mkdirSync(path: string, options?: { recursive: true; mode?: number }): void;
  export function openSync(path: string, flags?: string): number;
  export function readFileSync(file: string | URL | number, encoding: "base64" | "latin1" | "utf8"): string;
  export function readFileSync(file: string | URL | number): Buffer;
  export function readSync(file: number, bytes: Uint8Array): number;
  export function readlinkSync(path: string): string;
  export function realpathSync(path: string): string;
  export function renameSync(from: string, to: string): void;
  interface RmOptions {
    force?: boolean;
    recursive?: boolean;
    maxRetries?: number;
    retryDelay?: number;
  }
  export function rmSync(path: string, options?: RmOptions): void;
  export function statSync(path: string): Stats;
  export function statSync(path: string, options: { throwIfNoEntry: false }): Stats | undefined;
  export function writeFileSync(file: number | string, data: string | Uint8Array, options?: { mode: number }): void;
  export function writeSync(file: number, chunk: string | Uint8Array): number;
  const all: { promises: object; writeSync: typeof writeSync };
  export default all;
}

declare module "node:fs/promises" {
  export function readFile(file: URL): Promise<Buffer>;
}

declare module "node:http" {
  interface IncomingMessage {
    readonly url?: string;
  }
  interface ServerResponse {
    writeHead(status: number, headers: Record<string, string>): this;
    end(data?: string | Uint8Array): void;
  }
  interface Server {
    listen(port: number, host: string, done: () => void): this;
    address(): { port: number } | string | null;
    close(): void;
    closeAllConnections(): void;
  }
  export function createServer(serve: (request: IncomingMessage, response: ServerResponse) => void): Server;
}

declare module "node:net" {
  export interface Socket extends NodeJS.Readable, NodeJS.Writable {
    destroy(): void;
  }
  export function connect(port: number, host: string): Socket;
  const net: object;
  export default net;
}

declare module "node:module" {
  interface SourceEntry {
    originalSource?: string;
    originalLine?: number;
    originalColumn?: number;
  }
  export class SourceMap {
    constructor(payload: object);
    findEntry(line: number, column: number): SourceEntry;
  }
  export function createRequire(url: string): (name: string) => any;
  export function syncBuiltinESMExports(): void;
}

declare module "node:os" {
  export function availableParallelism(): number;
  export function cpus(): { times: { idle: number } }[];
  export function homedir(): string;
  export function tmpdir(): string;
  export const constants: { readonly signals: Record<NodeJS.Signals, number> };
}

declare module "node:path" {
  /** The functions for the paths of one kind of system. */
  export interface PlatformPath {
    dirname(path: string): string;
    isAbsolute(path: string): boolean;
    relative(from: string, to: string): string;
    resolve(...parts: string[]): string;
    readonly sep: string;
  }
  export const posix: PlatformPath;
  export const win32: PlatformPath;
  export function basename(path: string): string;
  export function dirname(path: string): string;
  export function extname(path: string): string;
  export function isAbsolute(path: string): boolean;
  export function relative(from: string, to: string): string;
  export function join(...parts: string[]): string;
  export function resolve(...parts: string[]): string;
  export const sep: string;
}

declare module "node:perf_hooks" {
  const all: { PerformanceMark: Function };
  export default all;
}

declare module "node:process" { export default process }

declare module "node:stream" {
  type Done = (error?: Error | null) => void;
  export class Writable {
    constructor(options: {
      decodeStrings?: boolean;
      write(chunk: string | Uint8Array, encoding: string, done: Done): void;
    });
  }
  const all: Record<"Writable" | "Duplex" | "Readable", { prototype: object }>;
  export default all;
}

declare module "node:string_decoder" {
  const all: { StringDecoder: { prototype: object } };
  export default all;
}

declare module "node:test" {
  interface TestContext {
    readonly signal: AbortSignal;
    after(act: () => unknown): void;
    diagnostic(message: string): void;
  }
  export function after(act: () => unknown): void;
  export function test(name: string, call: (context: TestContext) => unknown): Promise<void>;
  export function test(name: string, options: object, call: (context: TestContext) => Promise<void>): Promise<void>;
}

declare module "node:timers/promises" {
  export function setImmediate(): Promise<void>;
  export function setTimeout(
    milliseconds: number, value?: undefined, options?: { ref: boolean; signal: AbortSignal },
  ): Promise<void>;
}

declare module "node:url" {
  /** Whose paths are meant; the running system's if it isn't given. */
  interface System {
    windows?: boolean;
  }
  export function fileURLToPath(url: string | URL, system?: System): string;
  export function pathToFileURL(path: string, system?: System): URL;
}

declare module "node:util" {
  export function isDeepStrictEqual(one: unknown, other: unknown): boolean;
  interface Option {
    type: "string" | "boolean";
    multiple?: boolean;
    default?: string;
  }
  interface Words {
    args?: string[];
    options: Record<string, Option>;
    allowPositionals?: boolean;
    strict?: boolean;
    tokens?: boolean;
  }
  /** A word of a command line, by its index there. */
  type Token =
    | { kind: "option"; index: number; name: string; rawName: string; value?: string }
    | { kind: "positional"; index: number; name?: undefined; rawName?: undefined; value: string }
    | { kind: "option-terminator"; index: number; name?: undefined; rawName?: undefined; value?: undefined };
  interface Parsed {
    tokens: Token[];
    values: Record<string, any>;
    positionals: string[];
  }
  export function parseArgs(words: Words): Parsed;
  interface Promisify {
    (call: Function): Function;
    readonly custom: symbol;
  }
  const util: {
    format(...given: unknown[]): string;
    inspect(value: unknown, options?: object): string;
    promisify: Promisify;
    types: object;
  };
  export default util;
  /** Each says whether a value is of a kind. */
  export const types: Record<string, (value: unknown) => boolean>;
}

declare module "node:zlib" {
  export function deflateSync(bytes: Uint8Array, options: { level: number }): Buffer;
  export function gzipSync(bytes: Uint8Array): Buffer;
  export function inflateSync(bytes: Uint8Array): Buffer;
  const zlib: object;
  export default zlib;
}
