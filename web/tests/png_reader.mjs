// A small reader of PNG files and animated ones, for tests: it looks at every checksum and every number.

import assert from 'node:assert/strict';
import { inflateSync } from 'node:zlib';

/**
 * The CRC-32 of bytes, bit by bit.
 * @param {Uint8Array} bytes
 */
function crcOf(bytes) {
  let crc = 0xffffffff;
  for (const byte of bytes) {
    crc ^= byte;
    for (let bit = 0; bit < 8; bit++) {
      crc = crc & 1 ? crc >>> 1 ^ 0xedb88320 : crc >>> 1;
    }
  }
  return (crc ^ 0xffffffff) >>> 0;
}

/**
 * The chunks of a PNG file. Fails if a CRC is wrong.
 * @param {Uint8Array} file
 */
function chunksOf(file) {
  const bytes = Buffer.from(file);
  assert.equal(bytes.subarray(0, 8).toString('latin1'), '\x89PNG\r\n\x1a\n');
  const chunks = [];
  for (let at = 8; at < bytes.length;) {
    const length = bytes.readUInt32BE(at);
    const body = bytes.subarray(at + 4, at + 8 + length);
    assert.equal(bytes.readUInt32BE(at + 8 + length), crcOf(body));
    chunks.push({ type: body.subarray(0, 4).toString('latin1'), data: body.subarray(4) });
    at += 12 + length;
  }
  assert.equal(chunks.at(-1)?.type, 'IEND');
  return chunks;
}

/**
 * The colours of a box, from packed rows of four bits a pixel.
 * @type {(data: Uint8Array, width: number, height: number) => number[][]}
 */
function coloursOf(data, width, height) {
  const raw = inflateSync(data);
  const stride = 1 + Math.ceil(width / 2);
  assert.equal(raw.length, stride * height);
  return Array.from({ length: height }, (_, y) => {
    assert.equal(raw[y * stride], 0, 'the filter');
    return Array.from({ length: width }, (_, x) => raw[y * stride + 1 + (x >> 1)] >> (x & 1 ? 0 : 4) & 15);
  });
}

/**
 * The frames of a file, each as rows of colours, its palette, and the frames' delays in seconds.
 * @param {Uint8Array} file
 */
export function readPng(file) {
  const chunks = chunksOf(file);
  const [{ type, data: header }] = chunks;
  assert.equal(type, 'IHDR');
  const [width, height] = [header.readUInt32BE(0), header.readUInt32BE(4)];
  assert.deepEqual([...header.subarray(8)], [4, 3, 0, 0, 0]);
  const palette = chunks.find(chunk => chunk.type === 'PLTE')?.data ?? [];
  const animation = chunks.find(chunk => chunk.type === 'acTL');
  const canvas = Array.from({ length: height }, () => Array(width).fill(0));
  const frames = [];
  const delays = [];
  let box = { x: 0, y: 0, width, height };
  let sequence = 0;
  for (const chunk of chunks) {
    const { data } = chunk;
    if (chunk.type === 'fcTL') {
      assert.equal(data.readUInt32BE(0), sequence++);
      const [w, h, x, y] = [4, 8, 12, 16].map(at => data.readUInt32BE(at));
      assert.ok(w > 0 && h > 0 && x + w <= width && y + h <= height);
      box = { width: w, height: h, x, y };
      delays.push(data.readUInt16BE(20) / data.readUInt16BE(22));
      assert.deepEqual([data[24], data[25]], [0, 0]);
    } else if (chunk.type === 'IDAT' || chunk.type === 'fdAT') {
      if (chunk.type === 'fdAT') {
        assert.equal(data.readUInt32BE(0), sequence++);
      } else {
        assert.deepEqual(box, { x: 0, y: 0, width, height });
      }
      const rows = coloursOf(chunk.type === 'fdAT' ? data.subarray(4) : data, box.width, box.height);
      rows.forEach((row, y) => row.forEach((colour, x) => { canvas[box.y + y][box.x + x] = colour; }));
      frames.push(canvas.map(row => [...row]));
    }
  }
  if (animation !== undefined) {
    assert.equal(animation.data.readUInt32BE(0), frames.length);
    assert.equal(animation.data.readUInt32BE(4), 0);
  }
  return { width, height, palette: [...palette], frames, delays };
}
