// What the recorder and its tests use of node, for `tests/types`: node's own types aren't on every machine. Nothing of
// this is in the package. It is less than node has, and never more.

interface ImportMeta {
  readonly url: string;
}

// Of a CommonJS module.
declare const __dirname: string;
declare const __filename: string;
declare const require: (name: string) => any;

declare namespace NodeJS {
  type Signals = "SIGHUP" | "SIGINT" | "SIGQUIT" | "SIGKILL" | "SIGPIPE" | "SIGTERM";

  /** A frame of a stack, as V8 shows it. */
  interface CallSite {
    getFileName(): string | null;
    getFunctionName(): string | null;
    getLineNumber(): number | null;
    getColumnNumber(): number | null;
    getMethodName(): string | null;
    getPosition(): number;
    getTypeName(): string | null;
    isConstructor(): boolean;
  }

  interface Listened {
    on(event: string, listener: (...given: any[]) => void): this;
    once(event: string, listener: (...given: any[]) => void): this;
    off(event: string, listener: (...given: any[]) => void): this;
  }

  interface Output extends Listened {
    readonly isTTY?: boolean;
    write(text: string | Uint8Array, done?: (error?: Error | null) => void): boolean;
  }

  interface Input extends AsyncIterable<Uint8Array> {}

  /** The ends of pipes and sockets. */
  interface Readable extends Listened {
    setEncoding(encoding: "utf8"): this;
  }
  interface Writable extends Listened {
    write(chunk: string | Uint8Array): boolean;
    end(chunk?: string | Uint8Array): void;
  }

  type Timer = { unref(): Timer; refresh(): Timer };

  interface HighResolutionTime {
    (before?: [number, number]): [number, number];
    bigint(): bigint;
  }

  interface Process extends Listened {
    readonly arch: string;
    readonly features: Record<string, unknown>;
    readonly platform: string;
    readonly allowedNodeEnvironmentFlags: ReadonlySet<string>;
    readonly argv: string[];
    readonly execPath: string;
    readonly execArgv: string[];
    readonly env: Record<string, string | undefined>;
    readonly pid: number;
    readonly version: string;
    readonly versions: Record<string, string>;
    readonly stderr: Output;
    readonly stdin: Input;
    readonly stdout: Output;
    exitCode?: number;
    exit(status?: number): never;
    hrtime: HighResolutionTime;
    uptime(): number;
    cwd(): string;
    kill(id: number, signal: Signals): true;
    /** Windows lacks it. */
    getuid?(): number;
    /** Only the process of a job, and others that were forked, have it. */
    send?(message: unknown, done?: () => void): boolean;
    readonly connected?: boolean;
    disconnect?(): void;
    nextTick(call: (...given: any[]) => void, ...given: unknown[]): void;
  }
}

declare interface ErrorConstructor {
  stackTraceLimit: number;
  prepareStackTrace?: (error: Error, frames: NodeJS.CallSite[]) => unknown;
  captureStackTrace(holder: object, from?: Function): void;
}

declare interface Error { readonly code?: string }

interface Array<T> {
  /** It is later than the standard of `tsconfig.json`. */
  findLastIndex(isWanted: (item: T, at: number) => unknown): number;
}

declare module "node:inspector" {
  export class Session {
    connect(): void;
    disconnect(): void;
    on(event: string, listener: (message: { params: any }) => void): this;
    post(method: string, params?: object, done?: (error: Error | null) => void): void;
  }
  const inspector: { url(): string | undefined };
  export default inspector;
}

declare class Buffer extends Uint8Array {
  static alloc(bytes: number): Buffer;
  static byteLength(text: string): number;
  static concat(parts: Uint8Array[], bytes?: number): Buffer;
  static from(memory: ArrayBufferLike, offset?: number, length?: number): Buffer;
  static from(bytes: Uint8Array | number[]): Buffer;
  static from(data: string | Uint8Array): Buffer;
  static from(text: string, encoding?: string): Buffer;
  equals(other: Uint8Array): boolean;
  indexOf(value: number | string, from?: number): number;
  readUInt32BE(at: number): number;
  readUIntBE(at: number, bytes: number): number;
  slice(from?: number, to?: number): Buffer;
  subarray(from?: number, to?: number): Buffer;
  toString(encoding?: string, from?: number, to?: number): string;
  write(text: string, encoding?: string): number;
  write(text: string, at: number): number;
  writeUInt32BE(value: number, at?: number): number;
}

interface URL {
  readonly href: string;
  readonly pathname: string;
  readonly search: string;
}

declare var URL: { readonly prototype: URL; new (url: string, base?: string | URL): URL };

declare class TextEncoder {
  encode(text: string): Uint8Array;
  encodeInto(text: string, into: Uint8Array): { read: number; written: number };
}

declare class TextDecoder {
  constructor(encoding?: string, options?: { fatal: boolean; ignoreBOM: boolean });
  decode(bytes?: ArrayBufferView): string;
}

interface AbortSignal {
  readonly aborted: boolean;
  readonly reason: any;
  onabort: (() => void) | null;
  addEventListener(event: "abort", listener: () => void): void;
  removeEventListener(event: "abort", listener: () => void): void;
}

declare var AbortSignal: {
  readonly prototype: AbortSignal;
  new (): AbortSignal;
  abort(reason?: unknown): AbortSignal;
  any(signals: AbortSignal[]): AbortSignal;
  timeout(milliseconds: number): AbortSignal;
};

declare class AbortController {
  readonly signal: AbortSignal;
  abort(reason?: unknown): void;
}

declare const process: NodeJS.Process;
declare const performance: { now(): number; readonly timeOrigin: number };
declare const console: Record<"log" | "error", (...given: unknown[]) => void> & { Console: Function };
declare const MessagePort: Function;
declare namespace WebAssembly {
  class Memory {
    readonly buffer: ArrayBuffer | SharedArrayBuffer;
  }
  class Module {
    constructor(bytes: Uint8Array);
    static exports(module: Module): { name: string }[];
  }
  class Instance {
    constructor(module: Module, imports: object);
    readonly exports: any;
  }
}
declare function setTimeout(call: (...given: any[]) => void, milliseconds: number, ...given: unknown[]): NodeJS.Timer;
declare function clearTimeout(timer: NodeJS.Timer | undefined): void;
declare function clearInterval(timer: NodeJS.Timer): void;
declare function setInterval(call: () => void, milliseconds: number): NodeJS.Timer;
declare function queueMicrotask(call: () => void): void;
declare function structuredClone<T>(value: T, options?: { transfer?: unknown[] }): T;
