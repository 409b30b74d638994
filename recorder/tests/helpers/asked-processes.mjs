// Several processes of one program, each of which is asked for one thing at a time.

import { fork } from "node:child_process";
import { pathOf } from "./programs.mjs";

/** @typedef {{ fault?: string } & Record<string, unknown>} Answer with a fault if the process can't do what is asked */

/** One of them. */
class Asked {
  #child;
  /** @type {(answer: Answer) => void} */
  #resolve = () => {};

  /** @param {string} program */
  constructor(program) {
    this.#child = fork(pathOf(program), { serialization: "advanced" });
    this.#child.on("message", (answer) => this.#resolve(answer));
    this.#child.on("exit", (status, signal) => this.#resolve({ fault: `its process ended: ${signal ?? status}` }));
  }

  /** @param {unknown} question @returns {Promise<Answer>} */
  ask(question) {
    return new Promise((resolve) => {
      this.#resolve = resolve;
      this.#child.send(question);
    });
  }

  end() {
    this.#child.kill();
  }
}

export class AskedProcesses {
  #all;
  #free;
  /** @type {((process: Asked) => void)[]} who waits for a process */
  #waiting = [];

  /**
   * @param {string} program its path in this repository; it sends a message for each that it gets, and a `fault` if it
   *   can't
   * @param {number} count how many processes
   */
  constructor(program, count) {
    this.#all = Array.from({ length: count }, () => new Asked(program));
    this.#free = [...this.#all];
  }

  /**
   * Asks a process, as soon as one is free.
   * @param {unknown} question
   * @returns {Promise<any>} the answer; fails with the fault if the process names one
   */
  async ask(question) {
    const process = this.#free.pop() ?? await this.#nextFree();
    const { fault, ...answer } = await process.ask(question);
    const next = this.#waiting.shift() ?? ((free) => this.#free.push(free));
    next(process);
    if (fault) throw new Error(fault);
    return answer;
  }

  /** @returns {Promise<Asked>} */
  #nextFree() {
    return new Promise((resolve) => this.#waiting.push(resolve));
  }

  /** Ends the processes. */
  end() {
    for (const process of this.#all) process.end();
  }
}
