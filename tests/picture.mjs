// Judges pictures of `sabsim replay --format svg` for `tests/pictures`: where words are in them, and what a program
// drew from them. It isn't proved, and needs only node.
//
// usage: node tests/picture.mjs layout SVG            no word overlaps another or a bar, or leaves the picture
//        node tests/picture.mjs light|dark SVG PNG    what was drawn can be seen, on such a background
//
// It prints what it finds, and ends with status 1 if there is something.

import { readFileSync } from "node:fs";
import { inflateSync } from "node:zlib";

/** @typedef {{left: number, top: number, right: number, bottom: number}} Box in pixels; right and bottom are outside */
/** @typedef {{width: number, height: number, at: (x: number, y: number) => number[]}} Image red, green and blue */

// The room that a character takes, by its class, as the pictures have it; and a line of text above and below its base.
const CHAR_WIDTH = 8;
const NUMBER_WIDTH = 48 / 7;
const ABOVE = 11;
const BELOW = 4;

// A word has this contrast to what is behind it at least, and a bar this one (as Web Content Accessibility Guidelines
// 2.1 measure contrast; thin strokes are drawn paler than their colour).
const WORD_CONTRAST = 3;
const BAR_CONTRAST = 1.15;

const unescaped = (text) =>
  text
    .replace(/&#(\d+);/g, (_, code) => String.fromCodePoint(Number(code)))
    .replace(/&lt;/g, "<")
    .replace(/&gt;/g, ">")
    .replace(/&quot;/g, '"')
    .replace(/&amp;/g, "&");

/** The words of a picture, each with its box. */
function wordsOf(svg) {
  const labels = svg.matchAll(/<text class="(\w+)" x="(\d+)" y="(\d+)">(.*?)<\/text>/g);
  return [...labels].map(([, kind, x, y, escaped]) => {
    const text = unescaped(escaped);
    const width = Math.ceil(text.length * (kind === "row" ? NUMBER_WIDTH : CHAR_WIDTH));
    const left = Number(x) - (kind === "row" ? width : 0);
    return { text, box: { left, top: y - ABOVE, right: left + width, bottom: Number(y) + BELOW } };
  });
}

/** The bars of a picture, and what the legend has of them. */
function barsOf(svg) {
  const bars = svg.matchAll(/<rect class="(?:call|wait)[ a-z]*" x="(\d+)" y="(\d+)" width="(\d+)" height="(\d+)"/g);
  return [...bars].map((match) => {
    const [x, y, width, height] = match.slice(1).map(Number);
    return { left: x, top: y, right: x + width, bottom: y + height };
  });
}

const sizeOf = (svg) => svg.match(/^<svg [^>]*width="(\d+)" height="(\d+)"/).slice(1).map(Number);

const overlap = (a, b) => a.left < b.right && b.left < a.right && a.top < b.bottom && b.top < a.bottom;

/** Which words overlap another word or a bar, or leave the picture. */
function layoutFindings(svg) {
  const [width, height] = sizeOf(svg);
  const words = wordsOf(svg);
  const bars = barsOf(svg);
  if (words.length === 0) return ["it has no words"];
  return words.flatMap(({ text, box }, at) => [
    ...(box.left < 0 || box.right > width || box.bottom > height ? [`${text}: leaves the picture`] : []),
    ...words.slice(at + 1).filter((other) => overlap(box, other.box)).map((other) => `${text}: overlaps ${other.text}`),
    ...bars.filter((bar) => overlap(box, bar)).map(() => `${text}: overlaps a bar`),
  ]);
}

// ---- what was drawn

// How a line of a PNG file is made again from what is kept of it (Portable Network Graphics, section 9).
const PREDICTIONS = [
  () => 0,
  (left) => left,
  (left, up) => up,
  (left, up) => (left + up) >> 1,
  (left, up, corner) => {
    const [a, b, c] = [up - corner, left - corner, left + up - 2 * corner].map(Math.abs);
    return a <= b && a <= c ? left : b <= c ? up : corner;
  },
];

/** The bytes of a PNG file's chunks of a type, one after the other. */
function chunksOf(file, type) {
  const found = [];
  for (let at = 8; at < file.length; at += 12 + file.readUInt32BE(at)) {
    const end = at + 8 + file.readUInt32BE(at);
    if (file.toString("latin1", at + 4, at + 8) === type) found.push(file.subarray(at + 8, end));
  }
  return Buffer.concat(found);
}

/**
 * The image of a PNG file, over white where it has gaps.
 * @returns {Image}
 */
function readPng(file) {
  const head = chunksOf(file, "IHDR");
  const [width, height] = [head.readUInt32BE(0), head.readUInt32BE(4)];
  const channels = { 2: 3, 6: 4 }[head[9]];
  if (head[8] !== 8 || channels === undefined || head[12] !== 0) throw new Error("a PNG file of another kind");
  const bytes = inflateSync(chunksOf(file, "IDAT"));
  const stride = width * channels;
  const pixels = Buffer.alloc(stride * height);
  for (let y = 0; y < height; y += 1) {
    const predicted = PREDICTIONS[bytes[y * (stride + 1)]];
    for (let x = 0; x < stride; x += 1) {
      const left = x < channels ? 0 : pixels[y * stride + x - channels];
      const up = y === 0 ? 0 : pixels[(y - 1) * stride + x];
      const corner = x < channels || y === 0 ? 0 : pixels[(y - 1) * stride + x - channels];
      pixels[y * stride + x] = bytes[y * (stride + 1) + 1 + x] + predicted(left, up, corner);
    }
  }
  const at = (x, y) => {
    const start = y * stride + x * channels;
    const cover = channels === 4 ? pixels[start + 3] / 255 : 1;
    return [0, 1, 2].map((channel) => pixels[start + channel] * cover + 255 * (1 - cover));
  };
  return { width, height, at };
}

/** The relative luminance of a colour, from 0 to 1. */
function luminance(colour) {
  const [red, green, blue] = colour.map((c) => (c <= 10 ? c / 255 / 12.92 : ((c / 255 + 0.055) / 1.055) ** 2.4));
  return 0.2126 * red + 0.7152 * green + 0.0722 * blue;
}

const contrast = (a, b) => (Math.max(a, b) + 0.05) / (Math.min(a, b) + 0.05);

/** The greatest contrast in a box to the luminance that most of it has. */
function contrastIn(image, { left, top, right, bottom }) {
  const counts = new Map();
  for (let y = top; y < bottom; y += 1) {
    for (let x = left; x < right; x += 1) {
      const light = luminance(image.at(x, y));
      counts.set(light, (counts.get(light) ?? 0) + 1);
    }
  }
  const [behind] = [...counts].reduce((most, next) => (next[1] > most[1] ? next : most));
  return Math.max(...[...counts.keys()].map((light) => contrast(light, behind)));
}

/** What can't be seen of a picture as it was drawn, or is on another background. */
function drawnFindings(svg, image, isDark) {
  const [width, height] = sizeOf(svg);
  if (image.width !== width || image.height !== height) return [`it is ${image.width} by ${image.height}`];
  const paper = luminance(image.at(width - 1, height - 1));
  if (isDark ? paper > 0.1 : paper < 0.9) return [`its background has the luminance ${paper.toFixed(2)}`];
  const words = wordsOf(svg).filter(({ box }) => contrastIn(image, box) < WORD_CONTRAST);
  const bars = barsOf(svg).filter(({ left, top, right, bottom }) => {
    const middle = luminance(image.at((left + right) >> 1, (top + bottom) >> 1));
    return contrast(middle, paper) < BAR_CONTRAST;
  });
  return [
    ...words.map(({ text }) => `${text}: doesn't stand out from its background`),
    ...bars.map(({ left, top }) => `the bar at ${left},${top}: doesn't stand out from its background`),
  ];
}

function findings([what, svgPath, pngPath]) {
  const svg = readFileSync(svgPath, "utf8");
  if (what === "layout") return layoutFindings(svg);
  return drawnFindings(svg, readPng(readFileSync(pngPath)), what === "dark");
}

const found = findings(process.argv.slice(2));
for (const finding of found.slice(0, 10)) console.log(`    ${finding}`);
process.exitCode = found.length === 0 ? 0 : 1;
