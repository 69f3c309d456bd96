// The cycle: up to sixteen entries as a list that can be dragged, and moved by keys.

import { all, announce, at, element, make, makeButton, makeSelect, spelled } from './dom.js';
import { sentenceOf } from './explain.js';
import { FAULTS } from './faults.js';
import { Fault, IDLE } from './lines.js';

const MOST = 16;
const GRIP = 'Drag, or press the up and down arrows';

/**
 * @typedef {import('./lines.js').Entry} Entry
 * @typedef {'a'|'b'|'grid'|'phase'} Part of an entry
 */

/** The panel of the cycle. */
export class Cycle {
  /**
   * @param {import('./machine.js').Machine} machine
   * @param {import('./controls.js').Controls} time
   */
  constructor(machine, time) {
    this.machine = machine;
    this.time = time;
    /** @type {number|null} the entry that is dragged */
    this.dragged = null;
    at('cycle-add').addEventListener('click', () => {
      const { entries } = this.machine;
      this.set([...entries, { ...entries[entries.length - 1] ?? IDLE[0] }]);
    });
  }

  /** @returns {HTMLElement[]} the entries as they are listed */
  get items() {
    return all(at('cycle'), 'li');
  }

  /** Lists the entries anew. */
  update() {
    const { entries } = this.machine;
    at('cycle').replaceChildren(...entries.map((entry, index) => this.makeEntry(entry, index)));
    element('cycle-add', HTMLButtonElement).disabled = entries.length >= MOST;
    this.tellPosition();
  }

  /** Shows which entry does the next step. */
  tellPosition() {
    this.items.forEach((item, index) => {
      const isNext = index === this.machine.position;
      item.classList.toggle('is-next', isNext);
      isNext ? item.setAttribute('aria-current', 'step') : item.removeAttribute('aria-current');
    });
  }

  /**
   * Makes the element of an entry. It is not yet in the list.
   * @param {Entry} entry
   * @param {number} index from 0
   */
  makeEntry(entry, index) {
    /** @param {string} half */
    const names = half => ['-', ...this.machine.rules.filter(rule => rule.half === half).map(rule => rule.name)];
    /** @type {(key: Part, title: string, choices: string[]) => HTMLElement} */
    const part = (key, title, choices) => {
      const select = makeSelect(choices, String(entry[key]), { data: { part: key } });
      select.addEventListener('change', () => {
        this.change(index, key, key === 'phase' ? Number(select.value) : select.value);
      });
      return make('label', {}, title, select);
    };
    const grip = make('button', {
      className: 'grip', textContent: String(index), title: GRIP, ariaLabel: `Entry ${index}. Arrows move it.`,
    });
    this.listen(grip, index);
    const remove = makeButton({
      textContent: '✕', title: 'Take this entry out', ariaLabel: `Take entry ${index} out`, data: { part: 'remove' },
    }, () => this.set(this.machine.entries.filter((_, other) => other !== index)));
    return make('li', { data: { index } }, grip,
      part('a', 'A', names('A')), part('b', 'B', names('B')), remove,
      part('grid', 'Grid', ['EVEN', 'ODD']), part('phase', 'Phase', ['0', '1', '2', '3']));
  }

  /**
   * Lets the up and down arrows on the number of an entry, and drags of it, move the entry.
   * @param {HTMLElement} grip
   * @param {number} index
   */
  listen(grip, index) {
    grip.addEventListener('keydown', event => {
      const by = event.key === 'ArrowUp' ? -1 : event.key === 'ArrowDown' ? 1 : 0;
      if (by !== 0) {
        event.preventDefault();
        event.stopPropagation();
        this.move(index, index + by);
      }
    });
    grip.addEventListener('pointerdown', event => {
      grip.setPointerCapture(event.pointerId);
      this.dragged = index;
      grip.parentElement?.classList.add('is-dragged');
    });
    grip.addEventListener('pointermove', event => this.dragOver(event));
    grip.addEventListener('pointerup', () => this.drop(index));
    grip.addEventListener('pointercancel', () => this.update());
  }

  /**
   * The dragged entry goes to the place under the pointer.
   * @param {PointerEvent} event
   */
  dragOver(event) {
    if (this.dragged === null) {
      return;
    }
    const list = at('cycle');
    const moved = list.querySelector('.is-dragged');
    const below = this.items.find(item => {
      const box = item.getBoundingClientRect();
      return item !== moved && event.clientY < box.top + box.height / 2;
    }) ?? null;
    if (moved && moved.nextElementSibling !== below) {
      list.insertBefore(moved, below);
    }
  }

  /**
   * The drag ends: the cycle takes the order of the list.
   * @param {number} index
   */
  drop(index) {
    if (this.dragged === null) {
      return;
    }
    this.dragged = null;
    const order = this.items.map(item => Number(item.dataset.index));
    if (order.every((old, i) => old === i)) {
      this.items[index]?.classList.remove('is-dragged');
    } else {
      this.set(order.map(old => this.machine.entries[old]));
    }
  }

  /**
   * Moves an entry to another place of the cycle. Does nothing if `to` lies outside it.
   * @param {number} from
   * @param {number} to
   */
  async move(from, to) {
    const entries = [...this.machine.entries];
    if (to < 0 || to >= entries.length) {
      return;
    }
    entries.splice(to, 0, ...entries.splice(from, 1));
    await this.set(entries);
    all(at('cycle'), '.grip')[to]?.focus();
    announce(`Entry ${from} is entry ${to} now.`);
  }

  /**
   * Gives the machine the cycle with one part of an entry changed.
   * @param {number} index
   * @param {Part} key
   * @param {string|number} value
   */
  change(index, key, value) {
    return this.set(this.machine.entries.map((entry, other) => other === index ? { ...entry, [key]: value } : entry));
  }

  /**
   * Gives the machine a cycle, `IDLE` if it is empty. The position becomes 0. A fault is shown, not thrown.
   * @param {Entry[]} entries
   */
  async set(entries) {
    const place = at('cycle-fault');
    place.hidden = true;
    await this.time.hold();
    try {
      await this.machine.setCycle(entries.length > 0 ? entries : [...IDLE]);
    } catch (error) {
      if (!(error instanceof Fault)) {
        throw error;
      }
      const { happened, todo } = sentenceOf(error.answer, FAULTS);
      place.replaceChildren(...spelled(`${happened} ${todo}`));
      place.hidden = false;
    } finally {
      this.time.release();
      this.update();
    }
  }
}
