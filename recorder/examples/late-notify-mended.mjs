// Calls from one thread to another: the caller hands over a job, sleeps until it is done, and takes the answer. Many
// programs make synchronous calls of workers so. The caller looks again after each wait.

const JOB = 0;
const DONE = 1;
const ANSWER = 2;

export class Calls {
  /** @param {Int32Array} words three words of shared memory that nothing else uses */
  constructor(words) {
    this.words = words;
  }

  /**
   * Lets the other thread do a job.
   * @param {number} job the next one, counted from 1
   * @returns {number} its answer
   */
  call(job) {
    Atomics.store(this.words, JOB, job);
    Atomics.notify(this.words, JOB, 1);
    while (Atomics.load(this.words, DONE) !== job) Atomics.wait(this.words, DONE, job - 1);
    return Atomics.load(this.words, ANSWER);
  }

  /**
   * Does one job.
   * @param {number} job the next one, counted from 1
   * @param {(job: number) => number} answer
   */
  serve(job, answer) {
    while (Atomics.load(this.words, JOB) !== job) Atomics.wait(this.words, JOB, job - 1);
    Atomics.store(this.words, ANSWER, answer(job));
    Atomics.store(this.words, DONE, job);
    // The caller may have seen the answer already, and wait for the next one.
    Atomics.notify(this.words, DONE, 1);
  }
}
