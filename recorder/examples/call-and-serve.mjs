// What two agents do with calls: one calls, and the other serves.

/** @param {number} job */
const answerTo = (job) => 10 * job;

/**
 * @param {{ call(job: number): number, serve(job: number, answer: (job: number) => number): void }} calls
 * @param {number} agent
 * @param {number} jobs how many there are
 */
export function callAndServe(calls, agent, jobs) {
  for (let job = 1; job <= jobs; job += 1) {
    if (agent === 1) {
      calls.serve(job, answerTo);
      continue;
    }
    const answer = calls.call(job);
    if (answer !== answerTo(job)) throw new Error(`the answer to job ${job} is ${answer}, and not ${answerTo(job)}`);
  }
}
