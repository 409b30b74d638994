// What agents do under a mutex: they count. A load and a store of their own would lose counts if two agents were inside
// at once. Here the store is a compareExchange, so that it shows.

/**
 * @param {{ lock(): void, unlock(): void }} mutex
 * @param {Int32Array} counter one word of shared memory
 * @param {number} rounds how often this agent counts
 */
export function countTogether(mutex, counter, rounds) {
  for (let round = 0; round < rounds; round += 1) {
    mutex.lock();
    const seen = Atomics.load(counter, 0);
    const replaced = Atomics.compareExchange(counter, 0, seen, seen + 1);
    if (replaced !== seen) throw new Error(`two agents hold the mutex: the counter went from ${seen} to ${replaced}`);
    mutex.unlock();
  }
}
