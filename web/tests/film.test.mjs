// Pictures and films are read back, bit by bit.

import assert from 'node:assert/strict';
import { test } from 'node:test';
import { inflateSync } from 'node:zlib';
import { Film, deflated, picture, stored } from '../film.js';
import { PALETTE } from '../palette.js';
import { randomFrom } from '../shapes.js';
import { readPng } from './png_reader.mjs';

/**
 * Random pixels.
 * @type {(count: number, seed: number) => Uint8Array}
 */
const noise = (count, seed) => {
  const next = randomFrom(seed);
  return Uint8Array.from({ length: count }, () => Math.floor(16 * next()));
};

/**
 * The rows of pixels, each pixel enlarged.
 * @type {(pixels: Uint8Array, width: number, scale?: number) => number[][]}
 */
const rowsOf = (pixels, width, scale = 1) => {
  const height = pixels.length / width;
  return Array.from({ length: height * scale }, (_, y) => Array.from({ length: width * scale }, (_, x) =>
    pixels[Math.floor(y / scale) * width + Math.floor(x / scale)]));
};

test('packed bytes are what they were, with a stream and without one', async () => {
  for (const length of [0, 1, 65535, 65536, 140000]) {
    const bytes = noise(length, length);
    assert.deepEqual(new Uint8Array(inflateSync(stored(bytes))), bytes);
    assert.deepEqual(new Uint8Array(inflateSync(await deflated(bytes))), bytes);
    assert.deepEqual(await deflated(bytes, null), stored(bytes));
  }
  const zeros = new Uint8Array(100000);
  assert.ok((await deflated(zeros)).length < 1000);
  assert.deepEqual(stored(zeros).length, 100000 + 2 + 2 * 5 + 4);
});

test('a picture has the palette and each pixel, at each scale and of odd widths', async () => {
  for (const [width, height, scale] of [[128, 128, 1], [7, 3, 1], [5, 4, 3], [1, 1, 16]]) {
    const pixels = noise(width * height, width);
    for (const Stream of [globalThis.CompressionStream, null]) {
      const read = readPng(await picture(pixels, width, height, { scale, Stream }));
      assert.deepEqual(read.palette, PALETTE.flat());
      assert.deepEqual(read.frames, [rowsOf(pixels, width, scale)]);
      assert.deepEqual([read.width, read.height], [width * scale, height * scale]);
    }
  }
});

test('a film has each frame, whatever changes between them', async () => {
  for (const [width, height, scale] of [[64, 32, 1], [9, 5, 4]]) {
    const film = new Film(width, height, { scale, rate: 12 });
    const pixels = noise(width * height, 3);
    /** @type {number[][][]} */
    const wanted = [];
    /** @param {number[]} indices */
    const change = (...indices) => {
      indices.forEach(i => { pixels[i] ^= 5; });
      film.add(pixels, wanted.length === 2 ? 60 : 0);
      wanted.push(rowsOf(pixels, width, scale));
    };
    change();
    change(0);
    change(width * height - 1);
    change();
    change(3 * width + 2, 2 * width + 8, 4 * width + 5);
    change(...pixels.keys());
    const read = readPng(await film.bytes());
    assert.equal(film.length, 6);
    assert.deepEqual(read.frames, wanted);
    assert.deepEqual(read.delays, [1 / 12, 1 / 12, 0.68, 1 / 12, 1 / 12, 1 / 12]);
  }
});
