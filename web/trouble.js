// What went wrong, in words: the connection, the seat, a refused command, and a rule that can't be undone.

import { announce, at, capital, contextOf, first, make, makeButton, note, say, setText, spelled } from './dom.js';
import { sentenceOf } from './explain.js';
import { FAULTS } from './faults.js';
import { Fault } from './lines.js';
import { lights } from './palette.js';

/** @typedef {import('./explain.js').Block} Block */

/**
 * Shows the state of the connection and of the seat.
 * @param {import('./machine.js').Machine} machine
 * @param {string} text what the machine says of it
 */
export function tellState(machine, text) {
  const { state, seat, host } = machine;
  const place = at('state');
  place.dataset.state = state;
  at('torus').dataset.state = state;
  setText(at('seat'), host > 0 ? seat : '-');
  first(at('state'), '.seat').hidden = host === 0;
  setText(at('state-says'), text);
  place.title = text;
  if (state === 'lost' || state === 'full') {
    showTrouble(state, [say('strong', text)]);
  } else if (state === 'ready') {
    at('trouble').hidden ||= at('trouble').dataset.kind !== 'fault';
    if (host > 0) {
      note(text);
    }
  }
}

/**
 * Shows some trouble over the torus.
 * @param {string} kind
 * @param {(Node|string)[]} parts
 * @param {number|string} [fault]
 */
function showTrouble(kind, parts, fault = '') {
  const place = at('trouble');
  const close = makeButton({ className: 'close', textContent: '✕', ariaLabel: 'Close' }, hideTrouble);
  place.replaceChildren(...parts, close);
  Object.assign(place.dataset, { kind, fault });
  place.hidden = false;
}

/** Takes the trouble away that is shown. */
export function hideTrouble() {
  at('trouble').hidden = true;
  at('trouble').dataset.kind = '';
}

/**
 * What an error says.
 * @param {unknown} error
 */
export const messageOf = error => error instanceof Error ? error.message : String(error);

/**
 * Shows why something wasn't done.
 * @param {unknown} error
 * @param {import('./machine.js').Machine} machine
 */
export function showError(error, machine) {
  if (error instanceof Fault) {
    const { title } = sentenceOf(error.answer, FAULTS);
    const head = say('strong', `${capital(title)}.`);
    showTrouble('fault', [head, ...reasonOf(error.answer, machine)], error.answer.fault);
    announce(at('trouble').textContent ?? '');
  } else {
    showTrouble('fault', [say('strong', 'That was not done.'), messageOf(error)]);
  }
}

/**
 * Why a command was refused, and the two blocks that meet if they are the cause.
 * @param {import('./lines.js').Refusal} answer
 * @param {import('./machine.js').Machine} machine
 * @returns {Node[]}
 */
export function reasonOf(answer, { rules, entries, colours }) {
  const { happened, todo, blocks, meeting } = sentenceOf(answer, FAULTS, { rules, entries });
  const pictures = blocks ? [picturesOf(blocks, meeting, lights(colours))] : [];
  return [make('p', {}, ...spelled(happened)), ...pictures, make('p', {}, ...spelled(todo))];
}

/**
 * An element with pictures of the two blocks that become one, and of the one that they become if `meeting` is there.
 * `table` has the pixel of each state, as `lights` makes it.
 * @param {Block[]} blocks
 * @param {Block|undefined} meeting
 * @param {Uint32Array} table
 */
function picturesOf([one, other], meeting, table) {
  /** @type {(block: Block, text: string) => HTMLElement} */
  const draw = (block, text) => make('figure', {}, pictureOf(block.cells.flat(), table), text);
  const end = meeting ? ['→', draw(meeting, 'one block')] : [];
  return make('div', { className: 'blocks' }, draw(one, 'one state'), 'and', draw(other, 'another'), ...end);
}

/**
 * A canvas with a block of two by two cells, a pixel each.
 * @param {number[]} states of the four cells, row by row
 * @param {Uint32Array} table
 */
function pictureOf(states, table) {
  const canvas = make('canvas', { width: 2, height: 2, ariaLabel: `cells ${states.join(', ')}` });
  canvas.setAttribute('role', 'img');
  const image = new ImageData(2, 2);
  new Uint32Array(image.data.buffer).set(states.map(state => table[state]));
  contextOf(canvas).putImageData(image, 0, 0);
  return canvas;
}
