// What the recorder uses of node for threads and for code that is evaluated, as `node.d.ts` has the rest.

declare module "node:v8" {
  interface PromiseHooks {
    onBefore(hook: (promise: Promise<unknown>) => void): () => void;
    onInit(hook: (promise: Promise<unknown>, parent: Promise<unknown> | undefined) => void): void;
    onSettled(hook: (promise: Promise<unknown>) => void): void;
  }
  export const promiseHooks: PromiseHooks;
  export function setFlagsFromString(flags: string): void;
  export function serialize(value: unknown): Uint8Array;
  const all: { Serializer: { prototype: object }; Deserializer: Function; DefaultDeserializer: Function };
  export default all;
}

declare module "node:vm" {
  interface CompileOptions {
    filename: string;
    lineOffset?: number;
  }
  export function compileFunction(code: string, names: string[], options: CompileOptions): Function;
  export class Script {
    constructor(code: string, options?: { filename: string });
    runInThisContext(): any;
    runInContext(context: object): any;
  }
  export function createContext(...given: unknown[]): object;
  export function isContext(given: object): boolean;
  const vm: { Script: typeof Script; createContext: typeof createContext; isContext: typeof isContext };
  export default vm;
}

declare module "node:worker_threads" {
  export function getEnvironmentData(key: string): unknown;
  export function setEnvironmentData(key: string, value: unknown): void;
  interface Port extends NodeJS.Listened {
    postMessage(message: unknown): void;
    ref(): void;
    unref(): void;
  }
  export interface MessagePort extends Port {}
  export class MessagePort {
    close(): void;
  }
  export class MessageChannel {
    readonly port1: MessagePort;
    readonly port2: MessagePort;
  }
  interface WorkerOptions {
    workerData?: unknown;
    transferList?: MessagePort[];
    stdout?: boolean;
    stderr?: boolean;
    execArgv?: string[];
    resourceLimits?: { maxYoungGenerationSizeMb?: number };
  }
  export interface Worker extends Port {}
  export class Worker {
    constructor(file: URL, options: WorkerOptions);
    readonly threadId: number;
    terminate(): Promise<number>;
  }
  export const isMainThread: boolean;
  export const parentPort: MessagePort | null;
  export const workerData: any;
  export function receiveMessageOnPort(port: MessagePort): { message: any } | undefined;
  type Class = "MessagePort" | "MessageChannel" | "BroadcastChannel" | "Worker";
  const threads: Record<Class, Function> & {
    parentPort: MessagePort | null;
    workerData: any;
    receiveMessageOnPort(port: MessagePort): { message: any } | undefined;
  };
  export default threads;
}
