// Cells, colours, points of tools and lines, by values worked by hand.

import assert from 'node:assert/strict';
import { test } from 'node:test';
import * as lines from '../lines.js';
import { PALETTE, brightness, coloursShown, lights, paint } from '../palette.js';
import { Planes } from '../planes.js';
import * as shapes from '../shapes.js';
import { inRepository } from './repository.mjs';

const { commandOf, lineOf } = lines;

test('the palette is that of the pictures', () => {
  const found = /PALETTE = \(\s*"([0-9a-f ]+)"/.exec(inRepository('tests/oracle/palette.py'));
  const spelled = PALETTE.map(light => light.map(part => part.toString(16).padStart(2, '0')).join(''));
  assert.deepEqual(spelled, found?.[1].split(' '));
});

test('pixels have the lights of their states, of the planes that are shown', () => {
  const colours = [0, 1, 2, 3, 4, 5, 6, 7, 8, 9, 10, 11, 12, 13, 14, 15].reverse();
  assert.deepEqual(coloursShown(colours, 5), [15, 14, 15, 14, 11, 10, 11, 10, 15, 14, 15, 14, 11, 10, 11, 10]);
  const pixels = new Uint32Array(3);
  paint(new Uint8Array([15, 14, 13]), lights(colours), pixels);
  assert.deepEqual([...new Uint8Array(pixels.buffer)], [0, 0, 0, 255, 0xff, 0xd2, 0x3f, 255, 0x3f, 0xa7, 0xff, 255]);
  assert.equal(brightness(0), 0);
  assert.ok(Math.abs(brightness(15) - 1) < 1e-9);
});

test('column 0 is the highest bit of the first digit, and plane p counts 2 to the power of p', () => {
  const planes = new Planes(128);
  planes.setRow(0, 5, '8'.padEnd(31, '0') + '1');
  planes.setRow(3, 5, 'C1'.padEnd(32, '0'));
  planes.setRow(1, 127, '4'.padEnd(32, '0'));
  assert.deepEqual([0, 1, 7, 127].map(x => planes.get(x, 5)), [9, 8, 8, 1]);
  assert.equal(planes.get(1, 127), 2);
  assert.equal(planes.get(129, -1), 2);
  assert.equal(planes.rowOf(3, 5), 'c1'.padEnd(32, '0'));
  planes.setRow(3, 5, '0'.repeat(32));
  assert.deepEqual([0, 1, 7, 127].map(x => planes.get(x, 5)), [1, 0, 0, 1]);
  assert.equal(planes.cells.reduce((sum, state) => sum + state, 0), 4);
});

test('planes that are read and written are the same, bit by bit', () => {
  const next = shapes.randomFrom(7);
  const planes = new Planes(128);
  const rows = [0, 1, 2, 3].map(() => Array.from({ length: 128 }, () =>
    Array.from({ length: 32 }, () => Math.floor(16 * next()).toString(16)).join('')));
  rows.forEach((plane, p) => planes.setPlane(p, plane));
  for (let y = 0; y < 128; y++) {
    for (let x = 0; x < 128; x++) {
      const state = rows.reduce((sum, plane, p) => sum + ((parseInt(plane[y][x >> 2], 16) >> (3 - x % 4) & 1) << p), 0);
      assert.equal(planes.get(x, y), state);
    }
  }
  assert.deepEqual([0, 1, 2, 3].map(p => rows[p].map((_, y) => planes.rowOf(p, y))), rows);
});

test('rows that differ are named with the bits of the first one', () => {
  const planes = new Planes(128);
  const other = planes.clone();
  planes.put(4, 7, 5);
  other.put(0, 9, 2);
  assert.deepEqual(planes.rowsThatDiffer(other), [
    { plane: 0, row: 7, bits: '08'.padEnd(32, '0') }, { plane: 2, row: 7, bits: '08'.padEnd(32, '0') },
    { plane: 1, row: 9, bits: '0'.repeat(32) },
  ]);
  assert.equal(planes.isBlank(1), true);
  assert.equal(planes.isBlank(2), false);
  const third = new Planes(128);
  third.put(60, 60, 1);
  third.put(0, 9, 7);
  [planes, other].forEach(both => both.put(20, 20, 4));
  third.takeChanges(other, planes);
  assert.deepEqual([third.get(4, 7), third.get(0, 9), third.get(60, 60), third.get(20, 20)], [5, 0, 1, 0]);
});

test('a plane of side 256 is read in less than two milliseconds', () => {
  const planes = new Planes(256);
  const reply = JSON.stringify({ ok: 'plane', rows: Array(256).fill('0123456789abcdef'.repeat(4)) });
  const times = [];
  for (let i = 0; i < 60; i++) {
    const begin = performance.now();
    planes.setPlane(i % 4, lines.doneOf(reply).rows ?? []);
    times.push(performance.now() - begin);
  }
  times.sort((one, other) => one - other);
  assert.ok(times[30] < 2, `${times[30]} ms`);
});

test('lines are those of the manual', () => {
  assert.equal(lineOf(lines.seat(3)), '{"seat":3}');
  assert.equal(lineOf(lines.set(0, 5, '80')), '{"do":"set","plane":0,"row":5,"bits":"80"}');
  assert.equal(lineOf(lines.clear(2)), '{"do":"clear","plane":2}');
  assert.equal(lineOf(lines.row(1, 2)), '{"do":"row","plane":1,"row":2}');
  assert.equal(lineOf(lines.plane(3)), '{"do":"plane","plane":3}');
  assert.equal(lineOf(lines.side(512)), '{"do":"side","side":512}');
  assert.equal(lineOf(lines.run(10)), '{"do":"run","n":10}');
  assert.equal(lineOf(lines.back(0)), '{"do":"back","n":0}');
  assert.equal(lineOf(lines.save()), '{"do":"save"}');
  assert.equal(lineOf(lines.count(2)), '{"do":"count","mask":2}');
  assert.equal(lineOf(lines.drop('P')), '{"do":"drop","name":"P"}');
  assert.equal(lineOf(lines.map([1, 0])), '{"do":"map","colours":[1,0]}');
  const rule = { text: ': R 1 >PLN0 ;', name: 'R', half: 'A', hood: 'N/VONN', minor: '&/HV', more: 1 };
  assert.equal(lineOf(lines.rule(rule)),
    '{"do":"rule","name":"R","half":"A","hood":"N/VONN","minor":"&/HV","text":": R 1 >PLN0 ;"}');
  assert.equal(lineOf(lines.cycle([{ phase: 2, b: '-', a: 'P', grid: 'ODD' }])),
    '{"do":"cycle","entries":[{"a":"P","b":"-","grid":"ODD","phase":2}]}');
  assert.equal(lines.loadLineOf('{"machine":{"x":"\\u0001"},"ok":"save"}'), '{"do":"load","machine":{"x":"\\u0001"}}');
});

test('a text goes out as it came, and a command as it was when it was made', () => {
  for (const line of ['{ "n" : 3.0, "do" : "run" }', '{"do":"load","machine":{"x":"\\u0001"}}', 'no', 'null', '3', '{"do":"a","do":"b"}']) {
    assert.equal(lineOf(commandOf(line)), line);
  }
  assert.deepEqual(commandOf('{"do":"load","machine":{}}'), { do: 'load' }, 'a load is not read');
  assert.deepEqual(commandOf('{ "n" : 3.0, "do" : "run" }'), lines.run(3));
  const run = commandOf('{ "do" : "run", "n" : 3 }');
  assert.ok(lines.isSteps(run));
  assert.equal(lineOf({ ...run, n: 4 }), '{"do":"run","n":4}');
  const colours = [1, 2];
  const entries = [{ a: 'P', b: '-', grid: 'ODD', phase: 2 }];
  const made = [lines.map(colours), lines.cycle(entries)];
  colours.push(3);
  entries[0].phase = 0;
  entries.pop();
  assert.deepEqual(made.map(lineOf), ['{"do":"map","colours":[1,2]}',
    '{"do":"cycle","entries":[{"a":"P","b":"-","grid":"ODD","phase":2}]}']);
});

test('commands that change a machine are distinguished from the others', () => {
  const zero = [lines.run(0), lines.back(0), lines.save(), lines.row(0, 0), lines.plane(0), lines.count(1),
    ...['{"do":"rules"}', '{"do":"colours","row":0}', 'no', 'null', '{"seat":1}'].map(commandOf)];
  const changing = [lines.run(1), lines.back(1), lines.set(0, 0, '0'), lines.clear(0), lines.side(128), lines.map([]),
    lines.rule({ name: '', half: '', hood: '', minor: '', text: '' }), lines.drop('P'), lines.cycle([]), lines.blank(128),
    ...['{ "n" : 3, "do" : "run" }', '{"do":"load","machine":{}}'].map(commandOf)];
  assert.deepEqual(zero.filter(lines.changes), []);
  assert.deepEqual(changing.filter(command => !lines.changes(command)), []);
  assert.throws(() => lines.doneOf('{"address":3,"fault":40}'), { number: 40, answer: { address: 3, fault: 40 } });
});

/** @param {shapes.Point[]} points */
const text = points => points.map(point => point.join()).sort();

test('lines, boxes and strokes', () => {
  assert.deepEqual(shapes.line([0, 0], [4, 2]), [[0, 0], [1, 0], [2, 1], [3, 1], [4, 2]]);
  assert.deepEqual(shapes.line([2, 1], [2, -1]), [[2, 1], [2, 0], [2, -1]]);
  assert.deepEqual(shapes.line([5, 5], [5, 5]), [[5, 5]]);
  for (const [x, y] of [[9, 4], [-9, 4], [4, -9], [-3, -3]]) {
    const points = shapes.line([0, 0], [x, y]);
    assert.deepEqual(points.at(-1), [x, y]);
    assert.equal(points.length, Math.max(Math.abs(x), Math.abs(y)) + 1);
  }
  assert.deepEqual(text(shapes.box([3, 3], [1, 2])), text([[1, 2], [2, 2], [3, 2], [1, 3], [2, 3], [3, 3]]));
  assert.equal(shapes.box([0, 0], [4, 3]).length, 14);
  assert.equal(shapes.box([0, 0], [4, 3], true).length, 20);
  assert.deepEqual(shapes.box([7, 7], [7, 9]), [[7, 7], [7, 8], [7, 9]]);
  assert.deepEqual(shapes.stroke([[0, 0], [2, 0], [0, 0]]), [[0, 0], [1, 0], [2, 0]]);
  assert.equal(shapes.stroke([[5, 5]], 3).length, 9);
  assert.ok(text(shapes.stroke([[5, 5]], 3)).includes('4,4'));
});

test('a fill goes over the seams, and not over a diagonal', () => {
  const planes = new Planes(128);
  // A frame round the corner of the torus, from (126, 126) to (1, 1), and a wall at column 64 that has a gap.
  for (const [x, y] of shapes.box([126, 126], [129, 129])) {
    planes.put(x, y, 3);
  }
  assert.deepEqual(text(shapes.fill(planes, [0, 0])), text([[0, 0], [127, 0], [0, 127], [127, 127]]));
  assert.equal(shapes.fill(planes, [126, 126]).length, 12);
  assert.equal(shapes.fill(planes, [50, 50]).length, 128 * 128 - 16);
  planes.put(10, 10, 1);
  planes.put(11, 11, 1);
  assert.deepEqual(shapes.fill(planes, [10, 10]), [[10, 10]]);
});

test('random points are those of their seed, and as many as the density says', () => {
  const points = shapes.random([0, 0], [99, 99], 0.3, 5);
  assert.deepEqual(points, shapes.random([0, 0], [99, 99], 0.3, 5));
  assert.notDeepEqual(points, shapes.random([0, 0], [99, 99], 0.3, 6));
  assert.ok(points.length > 2800 && points.length < 3200, `${points.length}`);
  assert.equal(shapes.random([0, 0], [9, 9], 1, 1).length, 100);
  assert.equal(shapes.random([0, 0], [9, 9], 0, 1).length, 0);
});

test('pieces are cut over the seams, turned, mirrored and placed', () => {
  const planes = new Planes(128);
  [[127, 127, 1], [0, 127, 2], [1, 127, 3], [127, 0, 4]].forEach(([x, y, state]) => planes.put(x, y, state));
  const piece = shapes.cut(planes, { x: 127, y: 127, width: 3, height: 2 });
  assert.deepEqual([...piece.cells], [1, 2, 3, 4, 0, 0]);
  const turned = shapes.turned(piece);
  assert.deepEqual([turned.width, turned.height, ...turned.cells], [2, 3, 4, 1, 0, 2, 0, 3]);
  assert.deepEqual([...shapes.mirrored(piece).cells], [3, 2, 1, 0, 0, 4]);
  assert.deepEqual([...shapes.turned(shapes.turned(shapes.turned(turned))).cells], [...piece.cells]);
  const other = new Planes(128);
  other.put(0, 1, 9);
  shapes.place(other, piece, [-1, 0], true);
  assert.deepEqual([[127, 0], [0, 0], [1, 0], [127, 1], [0, 1]].map(([x, y]) => other.get(x, y)), [1, 2, 3, 4, 9]);
  shapes.place(other, piece, [-1, 0]);
  assert.equal(other.get(0, 1), 0);
});
