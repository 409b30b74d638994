// Wrong: unlocking a ticket lock wakes one waiter of all, who need not be the one whose ticket is served next.

export const setup = { agents: 3, buffers: [8] };

const TICKET = 0;
const SERVED = 1;

export default function agent({ buffers }) {
  const words = new Int32Array(buffers[0]);
  for (let time = 0; time < 2; time += 1) {
    const ticket = Atomics.add(words, TICKET, 1);
    for (let served = Atomics.load(words, SERVED); served !== ticket; served = Atomics.load(words, SERVED)) {
      Atomics.wait(words, SERVED, served);
    }
    Atomics.add(words, SERVED, 1);
    Atomics.notify(words, SERVED, 1);
  }
}
