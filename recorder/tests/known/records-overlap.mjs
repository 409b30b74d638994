// Wrong: a record has six bytes, but they lie five apart. The first one's last byte is the second one's first. An
// agent that writes both records loses nothing.

export const setup = { agents: 2, buffers: [4, 11] };

export default function agent({ buffers, agent }) {
  const next = new Int32Array(buffers[0]);
  const view = new DataView(buffers[1]);
  for (let record = Atomics.add(next, 0, 1); record < 2; record = Atomics.add(next, 0, 1)) {
    view.setUint16(record * 5, agent);
    view.setUint32(record * 5 + 2, 7);
  }
}

export const known = { endings: ["finished", "race"], races: [["setUint16\\(record", "setUint32\\(record"]] };
