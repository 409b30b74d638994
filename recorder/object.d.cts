// The types of `sabsim/object`: what a module of an object exports.

import type { AgentRun } from "./recorder.cjs";

/** What a method of a `Model` returns if it has to wait there. The state must be as before. */
export const blocked: unique symbol;

/** A call to try: its argument, or an array of all its arguments. */
export type OperationArguments = unknown;

/** An operation whose calls need more than arguments. */
export interface Operation<Tried = any> {
  /** The calls to try; one without arguments if it is empty, or isn't given. */
  args?: OperationArguments[];
  /** What is called in place of the object's method. */
  run?: (object: Tried, ...args: any[]) => unknown;
  /**
   * The operations of which an agent must have ended one before each time that it begins this one: without a throw, and
   * without the result `false`.
   */
  after?: string | string[];
  /** The only agents that make it. */
  agents?: number[];
  /** A result that is always right, if the operation has no effect then. */
  mayFail?: unknown;
}

/** Of each method the calls that agents try. */
export type Operations<Tried = any> = { [method: string]: OperationArguments[] | Operation<Tried> };

/** What an agent is given to make the object. */
export type ObjectMaker<Tried = any> = (given: Omit<AgentRun, "again" | "choose">) => Tried;
