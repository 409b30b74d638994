// The current directory, which the system keeps for all threads of a process: here a word of shared memory.

const DIRECTORIES = ["/old", "/new"];

/**
 * @param {Int32Array} word
 * @returns {{ cwd(): string, chdir(path: string): void }} the two system calls
 */
export const systemOf = (word) => ({
  cwd: () => DIRECTORIES[Atomics.load(word, 0)],
  chdir: (path) => {
    Atomics.store(word, 0, DIRECTORIES.indexOf(path));
  },
});
