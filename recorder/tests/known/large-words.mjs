// Right: the sequence is of 64 bits, and waited for; each number comes back as its negative.

export const setup = { agents: 2, buffers: [8, 16] };

function reach(sequence, wanted) {
  while (Atomics.load(sequence, 0) < wanted) Atomics.wait(sequence, 0, wanted - 1n);
}

function goOn(sequence) {
  Atomics.add(sequence, 0, 1n);
  Atomics.notify(sequence, 0, 1);
}

export default function agent({ buffers, agent }) {
  const sequence = new BigInt64Array(buffers[0]);
  const numbers = new BigInt64Array(buffers[1]);
  if (agent === 0) {
    numbers.set([2n ** 62n, 5n]);
    goOn(sequence);
    reach(sequence, 2n);
    if (numbers.join() !== `${-(2n ** 62n)},-5`) throw new Error(`read ${numbers}`);
  } else {
    reach(sequence, 1n);
    for (const [at, number] of numbers.entries()) numbers[at] = -number;
    goOn(sequence);
  }
}

export const known = { endings: ["finished"] };
