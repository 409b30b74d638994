// Draws the pictures of recorder/README.md: the page of the ring that frees its slots first, at each of the two
// accesses that race. It needs a browser, and keeps the run in a folder `found` for a while, which mustn't be there
// before. The simulator's module checks the run, or the program that SABSIM names.
//
// usage: node recorder/tests/helpers/page-pictures.mjs

import { spawnSync } from "node:child_process";
import { mkdirSync, readdirSync, rmSync, writeFileSync } from "node:fs";
import { join, resolve } from "node:path";
import { fileURLToPath, pathToFileURL } from "node:url";
import { deflateSync, inflateSync } from "node:zlib";
import { Browser } from "./browser.mjs";
import { RECORD } from "./common.mjs";

const PICTURES = fileURLToPath(new URL("../../pictures/", import.meta.url));
const RING = fileURLToPath(new URL("../../examples/ring-frees-first.agents.mjs", import.meta.url));
const WINDOW = { width: 1120, height: 900 };

// The page shows the command that makes its run again, with this folder.
const ROOM = "found";
const MOST_COLOURS = 256;

/**
 * The check sum of a part of a PNG file.
 * @param {Buffer} bytes
 */
function crc(bytes) {
  let sum = 0xffffffff;
  for (const byte of bytes) {
    sum ^= byte;
    for (let bit = 0; bit < 8; bit += 1) sum = (sum >>> 1) ^ (sum & 1 ? 0xedb88320 : 0);
  }
  return (sum ^ 0xffffffff) >>> 0;
}

/**
 * The parts of a PNG file.
 * @param {Buffer} png
 */
function* partsOf(png) {
  for (let at = 8; at < png.length;) {
    const length = png.readUInt32BE(at);
    yield { name: png.toString("latin1", at + 4, at + 8), data: png.subarray(at + 8, at + 8 + length) };
    at += length + 12;
  }
}

/**
 * How a filter of PNG predicts each byte: by the one to its left, the one above it, and the one above that.
 * @type {((left: number, up: number, corner: number) => number)[]}
 */
const PREDICTIONS = [
  () => 0, (left) => left, (_, up) => up, (left, up) => (left + up) >> 1,
  (left, up, corner) => {
    const far = [up - corner, left - corner, left + up - 2 * corner].map(Math.abs);
    if (far[0] <= far[1] && far[0] <= far[2]) return left;
    return far[1] <= far[2] ? up : corner;
  },
];

/**
 * The colours of a picture of three or four bytes a point, row by row.
 * @param {Buffer} png
 */
function coloursOf(png) {
  const parts = [...partsOf(png)];
  const [{ data: head }] = parts;
  const [width, height, each] = [head.readUInt32BE(0), head.readUInt32BE(4), head[9] === 6 ? 4 : 3];
  const raw = inflateSync(Buffer.concat(parts.filter(({ name }) => name === "IDAT").map(({ data }) => data)));
  const stride = width * each;
  const lines = Buffer.alloc(stride * (height + 1));
  for (let y = 0; y < height; y += 1) {
    const predict = PREDICTIONS[raw[y * (stride + 1)]];
    for (let x = 0; x < stride; x += 1) {
      const at = (y + 1) * stride + x;
      const [left, corner] = x < each ? [0, 0] : [lines[at - each], lines[at - stride - each]];
      lines[at] = raw[y * (stride + 1) + 1 + x] + predict(left, lines[at - stride], corner);
    }
  }
  const points = Array.from({ length: width * height }, (_, at) => lines.readUIntBE(stride + at * each, 3));
  return { width, height, points };
}

/**
 * How far two colours are from each other.
 * @param {number} one
 * @param {number} other
 */
const distance = (one, other) =>
  [16, 8, 0].reduce((sum, bit) => sum + (((one >> bit) & 255) - ((other >> bit) & 255)) ** 2, 0);

/**
 * The position of the nearest colour.
 * @param {number[]} palette
 * @param {number} colour
 */
const nearest = (palette, colour) => palette.reduce((best, each, at) => {
  return distance(each, colour) < distance(palette[best], colour) ? at : best;
}, 0);

/**
 * A PNG file of its parts.
 * @param {Buffer} mark that it begins with
 * @param {[string, Buffer][]} parts
 */
const pngOf = (mark, parts) => Buffer.concat([mark, ...parts.map(([name, data]) => {
  const named = Buffer.concat([Buffer.from(name), data]);
  const [length, sum] = [Buffer.alloc(4), Buffer.alloc(4)];
  length.writeUInt32BE(data.length);
  sum.writeUInt32BE(crc(named));
  return Buffer.concat([length, named, sum]);
})]);

/**
 * A picture with few colours, which takes a third of the bytes: each goes by the nearest of the most frequent.
 * @param {Buffer} png
 */
function withFewColours(png) {
  const { width, height, points } = coloursOf(png);
  /** @type {Map<number, number>} */
  const counts = new Map();
  for (const point of points) counts.set(point, (counts.get(point) ?? 0) + 1);
  const frequent = [...counts].sort(([, one], [, other]) => other - one).slice(0, MOST_COLOURS);
  const palette = frequent.map(([colour]) => colour);
  const numbers = new Map([...counts.keys()].map((colour) => [colour, nearest(palette, colour)]));
  const lines = Buffer.alloc((width + 1) * height);
  points.forEach((point, at) => {
    lines[Math.floor(at / width) * (width + 1) + 1 + (at % width)] = numbers.get(point) ?? 0;
  });
  const head = Buffer.alloc(13);
  head.writeUInt32BE(width, 0);
  head.writeUInt32BE(height, 4);
  head.set([8, 3, 0, 0, 0], 8);
  const colours = Buffer.from(palette.flatMap((colour) => [colour >> 16, (colour >> 8) & 255, colour & 255]));
  const points8 = deflateSync(lines, { level: 9 });
  return pngOf(png.subarray(0, 8), [
    ["IHDR", head], ["PLTE", colours], ["IDAT", points8], ["IEND", Buffer.alloc(0)],
  ]);
}

mkdirSync(ROOM);
const browser = new Browser();
try {
  const words = [RECORD, RING, "--seeds", "1..200", "--out", ROOM];
  process.stdout.write(spawnSync(process.execPath, words, { encoding: "utf8" }).stdout);
  const name = readdirSync(ROOM).find((each) => each.endsWith(".html")) ?? "none.html";
  const page = await browser.open(pathToFileURL(resolve(ROOM, name)).href, WINDOW);
  mkdirSync(PICTURES, { recursive: true });
  writeFileSync(join(PICTURES, "race-write.png"), withFewColours(await page.picture()));
  await page.press("f");
  writeFileSync(join(PICTURES, "race-read.png"), withFewColours(await page.picture()));
} finally {
  await browser.close();
  rmSync(ROOM, { recursive: true, force: true });
}
