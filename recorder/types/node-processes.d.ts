// What the recorder and its tests use of node for child processes, as `node.d.ts` has the rest.

declare module "node:child_process" {
  interface Child extends NodeJS.Listened {
    readonly pid?: number;
    readonly connected: boolean;
    /** The streams; null if there is no pipe to this process. */
    readonly stdin: NodeJS.Writable | null;
    readonly stdout: NodeJS.Readable | null;
    readonly stderr: NodeJS.Readable | null;
    readonly stdio: (NodeJS.Readable | NodeJS.Writable | null)[];
    kill(signal?: NodeJS.Signals): boolean;
    send(message: unknown, done?: (error: Error | null) => void): boolean;
  }
  interface PipedChild extends Child {
    readonly stdin: NodeJS.Writable;
    readonly stdout: NodeJS.Readable;
    readonly stderr: NodeJS.Readable;
  }
  export interface StartOptions {
    cwd?: string;
    env?: Record<string, string | undefined>;
    timeout?: number;
  }
  interface ExecOptions extends StartOptions {
    maxBuffer?: number;
  }
  interface PipedOptions extends StartOptions {
    stdio: "pipe";
    signal?: AbortSignal;
  }
  /** None, this process's own one, or a pipe to this process. */
  export type Stream = "ignore" | "inherit" | "pipe";
  interface SpawnOptions extends StartOptions {
    stdio: Stream | Stream[];
  }
  interface ForkOptions {
    stdio: string[];
    execArgv: string[];
    env?: Record<string, string | undefined>;
    serialization: "advanced" | "json";
    detached?: boolean;
    windowsHide: boolean;
  }
  export interface SyncOptions extends ExecOptions {
    input?: string;
    encoding: "utf8";
    stdio?: string[];
  }
  interface BytesOptions {
    encoding?: undefined;
    input?: string | Uint8Array;
    maxBuffer?: number;
  }
  interface SyncEnd<Output = string> {
    error?: Error;
    status: number | null;
    signal: NodeJS.Signals | null;
    stdout: Output;
    stderr: Output;
  }
  export type ChildProcess = Child;
  export function execFile(
    program: string, words: string[], options: ExecOptions,
    done: (error: Error | null, stdout: string, stderr: string) => void,
  ): PipedChild;
  export function fork(program: string, options: ForkOptions | { serialization: "advanced" }): Child;
  export function fork(program: string, words: string[], options: ForkOptions): Child;
  export function spawn(program: string, words: string[], options?: PipedOptions): PipedChild;
  export function spawn(program: string, words: string[], options: SpawnOptions): Child;
  export function execFileSync(program: string, words: string[], options: object): unknown;
  export function spawnSync(program: string, words: string[], options: SyncOptions): SyncEnd;
  export function spawnSync(program: string, words: string[], options?: BytesOptions): SyncEnd<Buffer>;
  const all: object;
  export default all;
}
