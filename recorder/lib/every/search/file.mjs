// Files of automata (docs/FORMATS.md): written of what was learned, and read back.

import { CALL_NUMBERS, CALLS, SCRIPT_KINDS, SIZES, isBigKind } from "../../../script/kinds.mjs";
import { hexOf, rawAt, rawOf } from "./raw-elements.mjs";
import { DONE, DOES, NOT_EQUAL, OK, TIMED_OUT, actsOf, isCall, isChoice, isMark, nodeOf } from "./nodes.mjs";
import { AutomatonViews, nodeAnswerText, callData } from "./node-texts.mjs";

/** @typedef {import("./nodes.mjs").Node} Node */
/** @typedef {import("./nodes.mjs").Answer} Answer */
/** @typedef {import("./world.mjs").Program} Program */

/**
 * @typedef {object} FileData what a file has
 * @property {number[]} blocks
 * @property {string[]} [initial]
 * @property {import("./node-texts.mjs").ViewData[]} views
 * @property {{ name: string, nodes: any[] }[]} automata
 * @property {{ automaton: string, block: boolean }[]} agents
 */

const ALIGNMENT = 8;

/**
 * @param {number[]} lengths of blocks
 * @returns {{ bases: number[], length: number }} where each begins, and their end
 */
export function basesOf(lengths) {
  /** @type {number[]} */
  const bases = [];
  let length = 0;
  for (const each of lengths) {
    bases.push(length);
    length += Math.ceil(each / ALIGNMENT) * ALIGNMENT;
  }
  return { bases, length };
}

/** The nodes in use, each at its position in its automaton. */
export class Positions {
  /**
   * @param {{ agents: { root: Node }[] }} program
   * @param {boolean} [hasMarks] whether marks are among them: no file has any
   */
  constructor({ agents }, hasMarks = false) {
    /** @type {Node[]} the first node of each automaton, by their positions in the file */
    this.roots = [...new Set(agents.map(({ root }) => root))];
    const used = this.roots.map((root) => reachable(root, hasMarks));
    /** @type {Node[][]} */
    this.nodes = used;
    /** @type {Map<Node, [number, number]>} */
    this.places = new Map(used.flatMap((nodes, automaton) =>
      nodes.map((node, at) => /** @type {[Node, [number, number]]} */ ([node, [automaton, at]]))));
  }

  /** @param {Node} node @returns {[number, number]} its automaton and its position there */
  of(node) {
    return /** @type {[number, number]} */ (this.places.get(node));
  }
}

/** @param {Node} node @returns {Node} the first one from it on that is no mark */
function pastMarks(node) {
  let next = node;
  while (isMark(next)) next = /** @type {Node} */ (next.edges.get(DONE));
  return next;
}

/**
 * @param {Node} root
 * @param {boolean} hasMarks
 * @returns {Node[]} the nodes that edges lead to from it: itself first, then by their numbers
 */
function reachable(root, hasMarks) {
  const seen = new Set([root]);
  for (const node of seen) for (const next of node.edges.values()) seen.add(hasMarks ? next : pastMarks(next));
  seen.delete(root);
  return [root, ...[...seen].sort((one, other) => one.id - other.id)];
}

/**
 * A file of some agents.
 * @param {Program} program
 * @param {Positions} positions
 * @returns {FileData}
 */
export function fileOf(program, positions) {
  const { lengths, bases, initial, agents } = program;
  const views = new AutomatonViews();
  const automata = positions.nodes.map((nodes, automaton) =>
    ({ name: `automaton_${automaton}`, nodes: nodes.map((node) => nodeData(node, views, positions)) }));
  return {
    blocks: lengths,
    initial: lengths.map((length, block) => hexOf(initial, bases[block], bases[block] + length)),
    views: [...views.all.values()],
    automata,
    agents: agents.map(({ canBlock, root }) =>
      ({ automaton: automata[positions.roots.indexOf(root)].name, block: canBlock })),
  };
}

/** @param {Node} node @param {AutomatonViews} views @param {Positions} positions */
function nodeData(node, views, positions) {
  if (node.does === DOES.FINISHED) return { finished: true };
  if (node.does === DOES.THREW) return { threw: node.text };
  const edges = [...node.edges].map(([answer, next]) =>
    [nodeAnswerText(node, answer), positions.of(pastMarks(next))[1]]);
  if (isCall(node)) return { call: callData(node, views), edges };
  if (isChoice(node)) return { choose: actsOf(node), edges };
  const { block, byte, size, written, isAlone } = node;
  const isRead = written === undefined;
  const range = isRead ? { read: [block, byte, size] } : { write: [block, byte, hexOf(written, 0, size)] };
  return { ...range, ...(isAlone ? { alone: true } : {}), edges };
}

/**
 * The agents of a file that nobody has to refuse: it was written by `fileOf`, or is right for other reasons.
 * @param {FileData} data
 * @returns {Program & { positions: Positions }}
 */
export function programOf({ blocks: lengths, initial, views, automata, agents }) {
  const { bases, length } = basesOf(lengths);
  const bytes = new Uint8Array(length);
  initial?.forEach((text, block) => bytes.set(Buffer.from(text, "hex"), bases[block]));
  /** @type {Node[]} */
  const nodes = [];
  const byName = new Map(views.map((view) => [view.name, view]));
  const lists = automata.map((automaton, at) => automaton.nodes.map((each) => {
    const read = readNode(each, byName, bases, lengths);
    const node = nodeOf({ id: nodes.length, automaton: at, does: DOES.FINISHED, ...read });
    nodes.push(node);
    return node;
  }));
  automata.forEach((automaton, at) => automaton.nodes.forEach(({ edges = [] }, position) => {
    const node = lists[at][position];
    for (const [text, next] of edges) node.edges.set(answerOf(node, text), lists[at][next]);
  }));
  const names = automata.map(({ name }) => name);
  const program = {
    lengths, bases, initial: bytes, nodes, mayLack: true, learn: () => undefined,
    agents: agents.map(({ automaton, block }) => ({ canBlock: block, root: lists[names.indexOf(automaton)][0] })),
  };
  /** @type {Map<Node, [number, number]>} */
  const places = new Map();
  lists.forEach((list, at) => list.forEach((node, position) => places.set(node, [at, position])));
  return { ...program, positions: Object.assign(new Positions(program), { places, nodes: lists }) };
}

/**
 * @param {any} data
 * @param {Map<string, import("./node-texts.mjs").ViewData>} views
 * @param {number[]} bases
 * @param {number[]} lengths
 */
function readNode(data, views, bases, lengths) {
  if (data.finished) return {};
  if (data.threw !== undefined) return { does: DOES.THREW, text: data.threw };
  if (data.call !== undefined) return readCall(data.call, views, bases, lengths);
  if (data.choose !== undefined) return { does: DOES.CHOOSE, limit: data.choose };
  const [block, byte, last] = data.read ?? data.write;
  const written = data.write === undefined ? undefined : Uint8Array.from(Buffer.from(last, "hex"));
  return {
    does: written === undefined ? DOES.READ : DOES.WRITE, block, byte, at: bases[block] + byte, written,
    size: written === undefined ? last : written.length, isAlone: data.alone === true,
  };
}

/**
 * @param {any[]} call
 * @param {Map<string, import("./node-texts.mjs").ViewData>} views
 * @param {number[]} bases
 * @param {number[]} lengths
 */
function readCall([name, view, index, ...rest], views, bases, lengths) {
  const { kind: kindName, block, offset, length } =
    /** @type {import("./node-texts.mjs").ViewData} */ (views.get(view));
  const kind = SCRIPT_KINDS.indexOf(kindName);
  const size = SIZES[kind];
  const does = CALL_NUMBERS[name];
  const values = rest.map((value) => (typeof value === "string" ? BigInt(value) : value));
  const operands = values.slice(0, CALLS[does].operands);
  const byte = offset + index * size;
  const elements = length ?? Math.floor((lengths[block] - offset) / size);
  const isWithin = index >= 0 && index < elements;
  const error = errorOf(does, kindName, operands, isBigKind(kind), isWithin);
  return {
    does, kind, block, byte, size, at: bases[block] + byte, operands, limit: values[CALLS[does].operands], error,
    raw: error === undefined ? operands.map((value) => rawOf(size, value)) : [],
    outside: error === undefined ? undefined : { offset, length: elements, index },
  };
}

/**
 * @param {number} does
 * @param {string} kind
 * @param {(number | bigint)[]} operands
 * @param {boolean} isBig
 * @param {boolean} isWithin
 */
function errorOf(does, kind, operands, isBig, isWithin) {
  const waits = does === DOES.WAIT || does === DOES.NOTIFY;
  if (/^Float|Clamped$/.test(kind) || (waits && kind !== "Int32" && kind !== "BigInt64")) return "TypeError";
  if (!isWithin) return "RangeError";
  return operands.some((value) => (typeof value === "bigint") !== isBig) ? "TypeError" : undefined;
}

const WORDS = new Map([["ok", OK], ["not-equal", NOT_EQUAL], ["timed-out", TIMED_OUT]]);

/** @param {Node} node @param {string} text of its answer @returns {Answer} */
function answerOf(node, text) {
  if (node.does === DOES.WRITE) return DONE;
  if (node.does === DOES.READ) {
    const { size } = node;
    if (size !== 1 && size !== 2 && size !== 4) return text;
    return /** @type {number} */ (rawAt(Uint8Array.from(Buffer.from(text, "hex")), 0, size));
  }
  if (/Error$/.test(text)) return text;
  if (node.does === DOES.WAIT) return /** @type {number} */ (WORDS.get(text));
  if (node.does === DOES.NOTIFY || isChoice(node)) return Number(text);
  if (node.does === DOES.STORE) return DONE;
  return rawOf(node.size, text.endsWith("n") ? BigInt(text.slice(0, -1)) : Number(text));
}

