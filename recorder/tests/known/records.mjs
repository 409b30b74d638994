// Right: records of mixed sizes at odd places, written and read by DataView, one after the other behind an index.

export const setup = { agents: 2, buffers: [4, 34] };

const RECORD = 17;
const NAMES = [0x0102, 0xfffe];

function write(view, at, name) {
  view.setUint16(at, name);
  view.setInt8(at + 2, -1);
  view.setFloat32(at + 3, 1.5, true);
  view.setFloat64(at + 7, name / 8);
  view.setInt16(at + 15, -name >> 1, true);
}

function read(view, at) {
  const small = [view.getUint16(at), view.getInt8(at + 2), view.getInt16(at + 15, true)];
  return [...small, view.getFloat32(at + 3, true), view.getFloat64(at + 7)];
}

export default function agent({ buffers, agent }) {
  const count = new Int32Array(buffers[0]);
  const view = new DataView(buffers[1]);
  for (const [at, name] of NAMES.entries()) {
    if (agent === 0) {
      write(view, at * RECORD, name);
      Atomics.add(count, 0, 1);
      Atomics.notify(count, 0);
    } else {
      while (Atomics.load(count, 0) <= at) Atomics.wait(count, 0, at);
      const found = read(view, at * RECORD).join();
      if (found !== [name, -1, -name >> 1, 1.5, name / 8].join()) throw new Error(`record ${at} has ${found}`);
    }
  }
}

export const known = { endings: ["finished"] };
