// The operations of a run as a table: a column for each agent, and a row for each operation, or for its beginning and
// its end if other things happen in between.

/** @typedef {import("./history.mjs").HistoryEvent} HistoryEvent */
/** @typedef {import("./object-calls.mjs").ObjectCall} ObjectCall */

/** What stands beside other agents' rows while an operation goes on. */
const GOES_ON = "..";

/** @typedef {{ agent: number, text: string, isOpen: boolean }} TableCell whether its operation goes on */

/** @param {HistoryEvent} event @returns {string} where its last act is, if that is known */
const lineText = ({ line }) => (line === undefined ? "" : `, at ${line}`);

/**
 * @param {ObjectCall[]} calls
 * @param {HistoryEvent[]} events
 * @returns {TableCell[]} what each row says, in their order
 */
function cellsOf(calls, events) {
  /** @type {TableCell[]} */
  const cells = [];
  for (let at = 0; at < events.length; at += 1) {
    const event = events[at];
    const { agent, call, outcome } = event;
    const next = events[at + 1];
    if (call === undefined) {
      cells.push({ agent, text: `${GOES_ON} ${outcome}${lineText(event)}`, isOpen: false });
    } else if (next?.agent === agent && next.outcome !== undefined) {
      cells.push({ agent, text: `${calls[call].text} ${next.outcome}${lineText(next)}`, isOpen: false });
      at += 1;
    } else cells.push({ agent, text: `${calls[call].text}${lineText(event)}`, isOpen: true });
  }
  return cells;
}

/**
 * @param {ObjectCall[]} calls
 * @param {HistoryEvent[]} events
 * @returns {string[]} the lines of the table
 */
export function historyTable(calls, events) {
  const agents = [...new Set(events.map(({ agent }) => agent))].sort((one, other) => one - other);
  const cells = cellsOf(calls, events);
  const titles = agents.map((agent) => `agent ${agent}`);
  const widths = agents.map((agent, at) =>
    Math.max(titles[at].length, ...cells.filter((cell) => cell.agent === agent).map(({ text }) => text.length)));
  /** @param {string[]} row */
  const line = (row) => row.map((text, at) => text.padEnd(widths[at])).join("  ").trimEnd();
  /** @type {Set<number>} */
  const open = new Set();
  const rows = cells.map(({ agent, isOpen, text }) => {
    if (isOpen) open.add(agent);
    else open.delete(agent);
    return agents.map((each) => (each === agent ? text : open.has(each) ? GOES_ON : ""));
  });
  return [titles, ...rows].map(line);
}
