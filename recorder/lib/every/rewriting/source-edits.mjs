// Edits of a text, and where places of the new text are in the old one.

/**
 * @typedef {{ at: number, removed: number, text: string, side: number, order: number, stands?: number }} SourceEdit
 * what is put at a place; `stands`: for which other place of the old text the new one stands
 */

const AFTER = 0;
const BEFORE = 1;
const INSTEAD = 2;

/** @param {SourceEdit} one @param {SourceEdit} other */
const inOrder = (one, other) => one.at - other.at || one.side - other.side || one.order - other.order;

export class Edits {
  /** @param {string} source */
  constructor(source) {
    this.source = source;
    /** @type {SourceEdit[]} */
    this.all = [];
  }

  /** @param {number} at @param {string} text that goes before what begins there; outside of what is put there later */
  before(at, text) {
    const edit = { at, removed: 0, text, side: BEFORE, order: this.all.length };
    this.all.push(edit);
    return edit;
  }

  /** @param {number} at @param {string} text that goes after what ends there; outside of what is put there later */
  after(at, text) {
    this.all.push({ at, removed: 0, text, side: AFTER, order: -this.all.length });
  }

  /**
   * @param {number} at
   * @param {number} removed how much of the text goes
   * @param {string} text that comes instead
   * @param {number} [stands] the place of the old text for which it stands
   */
  replace(at, removed, text, stands) {
    this.all.push({ at, removed, text, side: INSTEAD, order: this.all.length, stands });
  }

  /** @returns {{ code: string, original: (place: number) => number }} `original` says where a place was before */
  made() {
    const sorted = [...this.all].sort(inOrder);
    let code = "";
    let from = 0;
    /** @type {{ begins: number, ends: number, at: number, behind: number }[]} */
    const places = [];
    for (const { at, removed, text, stands = at } of sorted) {
      code += this.source.slice(from, at);
      places.push({ begins: code.length, ends: code.length + text.length, at: stands, behind: at + removed });
      code += text;
      from = at + removed;
    }
    code += this.source.slice(from);
    return { code, original: (place) => originalOf(places, place) };
  }
}

/** @param {{ begins: number, ends: number, at: number, behind: number }[]} places @param {number} place */
function originalOf(places, place) {
  let low = 0;
  let high = places.length;
  while (low < high) {
    const middle = (low + high) >> 1;
    if (places[middle].begins <= place) low = middle + 1;
    else high = middle;
  }
  const last = places[low - 1];
  if (last === undefined) return place;
  return place < last.ends ? last.at : place - last.ends + last.behind;
}
