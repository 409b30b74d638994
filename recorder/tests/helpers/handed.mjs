// A script by hand: agent 0 waits for a word that agent 1 changes, and agent 1 notifies. Between their calls are stores
// that stand for ordinary writes, and what `init` left comes first.

const WORD = { name: "w", kind: "Int32", block: 0, offset: 0, length: 1 };
const BYTES = ["ordinary_b", "init_b"].map((name) => ({ name, kind: "Uint8", block: 0, offset: 0, length: 8 }));

export const HANDED = Object.freeze({
  blocks: [8],
  views: [WORD, ...BYTES],
  agents: [
    { block: true, calls: [["wait", "w", 0, 0, 9], ["store", "ordinary_b", 4, 1], ["load", "w", 0]] },
    { block: true, calls: [["store", "w", 0, 1], ["store", "ordinary_b", 5, 2], ["notify", "w", 0]] },
    { block: true, calls: [["store", "init_b", 6, 3]] },
  ],
  schedule: [2, 2, 2, 0, 0, 1, 1, 1, 1, 1, 1, 1, 1, 1, 0, 0, 0, 0, 0, 0, 0, 0],
});
