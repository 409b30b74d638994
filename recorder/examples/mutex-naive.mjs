// A mutex as people write it who know condition variables: an agent that finds it locked sleeps until the bell is rung,
// and `unlock` rings the bell.
//
// It loses wake-ups. Between an agent's failed compareExchange and its wait the mutex may be unlocked, and the bell is
// rung while nobody sleeps. Nothing in BELL shows it afterwards, since it is always 0: the agent lies down and may
// sleep for ever. A wait has to be on a word that the unlock changes, as in mutex-three-state.mjs.

const FREE = 0;
const LOCKED = 1;

// Words.
const STATE = 0;
const BELL = 1;

export class NaiveMutex {
  /** @param {Int32Array} words two words of shared memory that nothing else uses, zero at first */
  constructor(words) {
    this.words = words;
  }

  lock() {
    while (Atomics.compareExchange(this.words, STATE, FREE, LOCKED) !== FREE) {
      Atomics.wait(this.words, BELL, 0);
    }
  }

  unlock() {
    Atomics.store(this.words, STATE, FREE);
    Atomics.notify(this.words, BELL, 1);
  }
}
