// Parts of the page without a browser: elements that are missing, keys, and a piece that floats while other things happen.

import assert from 'node:assert/strict';
import { beforeEach, test } from 'node:test';
import { Controls } from '../controls.js';
import { at, element } from '../dom.js';
import { joinKeys } from '../keys.js';
import { Machine } from '../machine.js';
import { Piece } from '../piece.js';
import { Screen } from '../screen.js';
import { Tools } from '../tools.js';
import { Torus } from '../torus.js';
import './detailed_event.mjs';
import { FakeNet } from './fake_net.mjs';
import { openPage } from './fake_page.mjs';

const CELL = { width: 1, height: 1, cells: Uint8Array.of(5) };

beforeEach(openPage);

/** What draws on a blank machine. */
async function drawing() {
  const net = new FakeNet();
  const machine = new Machine({ urlOf: number => net.urlOf(number), WebSocketClass: net.WebSocket });
  await machine.start();
  const torus = new Torus(element('torus', HTMLCanvasElement), element('cells', HTMLCanvasElement));
  const screen = new Screen(machine, torus);
  const time = new Controls(machine, error => assert.fail(`${error}`), () => {});
  /** @type {Piece} */
  const piece = new Piece(machine, screen, time, () => tools);
  /** @type {Tools} */
  const tools = new Tools(machine, screen, piece, time);
  return { machine, screen, time, piece, tools };
}

test('an element that is missing, or of another type, is named', () => {
  assert.equal(element('dial', HTMLInputElement).max, '1');
  assert.throws(() => at('nothing'), { message: 'the page has no element nothing' });
  assert.throws(() => element('torus', HTMLInputElement), { message: 'the element torus is no HTMLInputElement' });
});

test('a key counts also if no element has it', () => {
  /** @type {string[]} */
  const pressed = [];
  joinKeys({ pencil: () => pressed.push('pencil'), each: ({ key }) => pressed.push(key) });
  for (const key of ['P', '7', 'q']) {
    document.dispatchEvent(Object.assign(new Event('keydown'), { key }));
  }
  assert.deepEqual(pressed, ['pencil', '7']);
});

test('a piece is put down that floated before the machine had the last stroke', async () => {
  const { machine, screen, time, piece, tools } = await drawing();
  tools.start([3, 3]);
  const stroke = tools.end();
  await piece.paste(CELL);
  assert.ok(piece.floating && piece.frame);
  const { x, y } = piece.frame;
  await stroke;
  assert.equal(screen.draft, null, 'the stroke has taken its draft away');
  await piece.put();
  assert.deepEqual([machine.planes.get(x, y), machine.planes.get(3, 3)], [5, 1]);
  assert.equal(time.held, 0);
  machine.stop();
});

test('a drag that goes on after its piece was put down, or given up, moves nothing', async () => {
  const { machine, time, piece } = await drawing();
  for (const { end, state } of [{ end: () => piece.erase(), state: 0 }, { end: () => piece.put(), state: 5 }]) {
    await piece.paste(CELL);
    assert.ok(piece.frame);
    const { x, y } = piece.frame;
    piece.start([x, y]);
    piece.move([x + 1, y]);
    await end();
    const { frame } = piece;
    piece.move([x + 9, y + 9]);
    assert.deepEqual(piece.frame, frame);
    assert.deepEqual([machine.planes.get(x + 1, y), machine.planes.get(x + 9, y + 9)], [state, 0]);
    assert.equal(time.held, 0);
  }
  machine.stop();
});
