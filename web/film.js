// Pictures and films as PNG files: each pixel is one of sixteen colours.

import { PALETTE } from './palette.js';

const SIGNATURE = [0x89, 0x50, 0x4e, 0x47, 0x0d, 0x0a, 0x1a, 0x0a];
const DEPTH = 4;
const INDEXED = 3;
const STORED_BYTES = 65535;

/**
 * @typedef {ArrayLike<number>} Bytes
 * @typedef {{x: number, y: number, wide: number, high: number}} Box some pixels of a picture
 * @typedef {typeof CompressionStream | null} Stream null to do without, as if the browser has none
 */

const STREAM = globalThis.CompressionStream ?? null;

/** The CRC-32 of each byte, the table that `crcOf` looks up. */
function crcTable() {
  return Uint32Array.from({ length: 256 }, (_, n) => {
    for (let bit = 0; bit < 8; bit++) {
      n = n & 1 ? 0xedb88320 ^ n >>> 1 : n >>> 1;
    }
    return n;
  });
}

/** @type {Uint32Array|undefined} */
let crcs;

/**
 * The CRC-32 of bytes, as a chunk of PNG ends with.
 * @param {Uint8Array} bytes
 */
function crcOf(bytes) {
  crcs ??= crcTable();
  let crc = 0xffffffff;
  for (const byte of bytes) {
    crc = crcs[(crc ^ byte) & 255] ^ crc >>> 8;
  }
  return ~crc >>> 0;
}

/**
 * The Adler-32 of bytes, as a stream of zlib ends with.
 * @param {Uint8Array} bytes
 */
function adlerOf(bytes) {
  let low = 1;
  let high = 0;
  for (const byte of bytes) {
    low = (low + byte) % 65521;
    high = (high + low) % 65521;
  }
  return (high << 16 | low) >>> 0;
}

/**
 * A number as four bytes, the highest first.
 * @param {number} n
 */
const number32 = n => [n >>> 24, n >>> 16 & 255, n >>> 8 & 255, n & 255];
/**
 * A number as two bytes, the highest first.
 * @param {number} n
 */
const number16 = n => [n >>> 8 & 255, n & 255];

/**
 * Joins parts to one array of bytes.
 * @param {Bytes[]} parts
 */
function join(parts) {
  const bytes = new Uint8Array(parts.reduce((sum, part) => sum + part.length, 0));
  let at = 0;
  for (const part of parts) {
    bytes.set(part, at);
    at += part.length;
  }
  return bytes;
}

/**
 * A chunk of a PNG file: its size, its type, its data and its CRC.
 * @param {string} type
 * @param {Bytes} data
 */
function chunk(type, data) {
  const body = join([[...type].map(letter => letter.charCodeAt(0)), data]);
  return join([number32(data.length), body, number32(crcOf(body))]);
}

/**
 * Packs bytes as zlib data without making them fewer, for browsers that can't deflate.
 * @param {Uint8Array} bytes
 * @returns {Uint8Array}
 */
export function stored(bytes) {
  /** @type {Bytes[]} */
  const parts = [[0x78, 0x01]];
  for (let at = 0; at === 0 || at < bytes.length; at += STORED_BYTES) {
    const block = bytes.subarray(at, at + STORED_BYTES);
    const isLast = at + STORED_BYTES >= bytes.length;
    const size = block.length;
    parts.push([isLast ? 1 : 0, size & 255, size >> 8, ~size & 255, ~size >> 8 & 255], block);
  }
  return join([...parts, number32(adlerOf(bytes))]);
}

/**
 * Packs bytes as zlib data, by `stored` if there is no `Stream`.
 * @param {Uint8Array} bytes
 * @param {Stream} [Stream]
 * @returns {Promise<Uint8Array>}
 */
export async function deflated(bytes, Stream = STREAM) {
  if (!Stream) {
    return stored(bytes);
  }
  const stream = new Blob([bytes]).stream().pipeThrough(new Stream('deflate'));
  return new Uint8Array(await new Response(stream).arrayBuffer());
}

/**
 * The rows of a box of pixels as a PNG file has them before they are packed: two pixels a byte, and a filter 0 before each row.
 * Each pixel is `scale` wide and high.
 * @type {(pixels: Uint8Array, width: number, box: Box, scale: number) => Uint8Array}
 */
function filteredRows(pixels, width, { x, y, wide, high }, scale) {
  const stride = 1 + Math.ceil(wide * scale / 2);
  const bytes = new Uint8Array(stride * high * scale);
  for (let row = 0; row < high; row++) {
    const start = row * scale * stride;
    for (let column = 0; column < wide * scale; column++) {
      const colour = pixels[(y + row) * width + x + Math.floor(column / scale)];
      bytes[start + 1 + (column >> 1)] |= column & 1 ? colour : colour << 4;
    }
    for (let again = 1; again < scale; again++) {
      bytes.copyWithin(start + again * stride, start, start + stride);
    }
  }
  return bytes;
}

/**
 * The beginning of a PNG file: its signature, its size and its palette.
 * @param {number} width
 * @param {number} height
 * @returns {Bytes[]}
 */
function heading(width, height) {
  const lights = PALETTE.flat();
  return [SIGNATURE, chunk('IHDR', [...number32(width), ...number32(height), DEPTH, INDEXED, 0, 0, 0]), chunk('PLTE', lights)];
}

/**
 * A picture as a PNG file.
 * @param {Uint8Array} pixels colours 0 to 15, row by row
 * @param {number} width
 * @param {number} height
 * @param {{scale?: number, Stream?: Stream}} how pixels of the file for each pixel, 1 to 16
 * @returns {Promise<Uint8Array>}
 */
export async function picture(pixels, width, height, { scale = 1, Stream = STREAM } = {}) {
  const data = await deflated(filteredRows(pixels, width, { x: 0, y: 0, wide: width, high: height }, scale), Stream);
  return join([...heading(width * scale, height * scale), chunk('IDAT', data), chunk('IEND', [])]);
}

/**
 * The smallest box with all pixels that changed, or one pixel if none did.
 * @type {(last: Uint8Array, pixels: Uint8Array, width: number, height: number) => Box}
 */
function changedBox(last, pixels, width, height) {
  let [left, top, right, bottom] = [width, height, -1, -1];
  for (let i = 0; i < pixels.length; i++) {
    if (last[i] !== pixels[i]) {
      const x = i % width;
      const y = (i - x) / width;
      left = Math.min(left, x);
      right = Math.max(right, x);
      top = Math.min(top, y);
      bottom = y;
    }
  }
  return right < 0 ? { x: 0, y: 0, wide: 1, high: 1 }
    : { x: left, y: top, wide: right - left + 1, high: bottom - top + 1 };
}

/** A film as an animated PNG file. */
export class Film {
  /** @type {Uint8Array|null} */
  #last = null;
  /** @type {{box: Box, delay: number[], data: Promise<Uint8Array>}[]} */
  #frames = [];

  /**
   * @param {number} width cells, not pixels of the file
   * @param {number} height
   * @param {{scale?: number, rate?: number, Stream?: Stream}} how rate: frames a second, 1 to 1,000
   */
  constructor(width, height, { scale = 1, rate = 12, Stream = STREAM } = {}) {
    this.width = width;
    this.height = height;
    this.scale = scale;
    this.rate = rate;
    this.Stream = Stream;
  }

  /** @returns {number} the frames that were added */
  get length() {
    return this.#frames.length;
  }

  /**
   * Adds a frame.
   * @param {Uint8Array} pixels colours 0 to 15, row by row
   * @param {number} [pause] hundredths of a second for which it stays longer
   */
  add(pixels, pause = 0) {
    const { width, height, scale } = this;
    const box = this.#last === null ? { x: 0, y: 0, wide: width, high: height }
      : changedBox(this.#last, pixels, width, height);
    this.#last = pixels.slice();
    const delay = pause === 0 ? [1, this.rate] : [Math.round(100 / this.rate) + pause, 100];
    this.#frames.push({ box, delay, data: deflated(filteredRows(pixels, width, box, scale), this.Stream) });
  }

  /**
   * The file of all frames that were added. It plays again and again.
   * @returns {Promise<Uint8Array>}
   */
  async bytes() {
    const { width, height, scale } = this;
    const chunks = heading(width * scale, height * scale);
    chunks.push(chunk('acTL', [...number32(this.#frames.length), ...number32(0)]));
    let sequence = 0;
    for (const [i, { box, delay, data }] of this.#frames.entries()) {
      const sizes = [box.wide, box.high, box.x, box.y].flatMap(n => number32(n * scale));
      chunks.push(chunk('fcTL', [...number32(sequence++), ...sizes, ...delay.flatMap(number16), 0, 0]));
      const bytes = await data;
      chunks.push(i === 0 ? chunk('IDAT', bytes) : chunk('fdAT', join([number32(sequence++), bytes])));
    }
    return join([...chunks, chunk('IEND', [])]);
  }
}
