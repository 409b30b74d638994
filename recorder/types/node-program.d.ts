// What whole programs need of node, as `node.d.ts` has the rest. The recorder puts functions of its own in place of
// these, so it takes them as they are, with whatever they have.

declare module "node:timers" {
  const all: any;
  export default all;
}

declare module "node:timers/promises" {
  const all: any;
  export default all;
}

declare class DOMException extends Error {
  constructor(message?: string, name?: string);
}

declare module "node:events" {
  export const EventEmitter: any;
  export function once(target: NodeJS.Listened, event: string): Promise<any[]>;
  export function getEventListeners(target: any, type: string): Function[];
}

declare module "node:readline" {
  const all: any;
  export default all;
}

declare class Event {
  constructor(type: string);
}
declare class MessageEvent extends Event {
  constructor(type: string, given: { data: unknown });
}
declare class EventTarget {
  dispatchEvent(event: Event): boolean;
}
