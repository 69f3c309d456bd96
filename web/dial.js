// The dial of speed, the pace of frames, and whether a picture flashes.

import { brightness } from './palette.js';
import { evaluate, namesOf } from './forth.js';

const STILL = 0.04;
const OCTAVES = 12;
const MOST_FRAMES = 60;

/**
 * The speed of the dial: its left half goes back, its middle stands still, and each twelfth of a half doubles.
 * @param {number} position -1 to 1
 * @returns {number} steps a second: 1 to 4,096, the same below 0 if they are undone, or 0 in the middle
 */
export function stepsASecond(position) {
  const turn = Math.min(Math.abs(position), 1);
  if (turn < STILL) {
    return 0;
  }
  return Math.sign(position) * 2 ** (OCTAVES * (turn - STILL) / (1 - STILL));
}

/**
 * Where the dial stands for a speed. A speed between 0 and 1 counts as 1, and one above 4,096 as 4,096.
 * @param {number} speed steps a second, below 0 if they are undone
 * @returns {number} -1 to 1
 */
export function positionOf(speed) {
  if (speed === 0) {
    return 0;
  }
  const turn = STILL + (1 - STILL) * Math.log2(Math.max(Math.abs(speed), 1)) / OCTAVES;
  return Math.sign(speed) * Math.min(turn, 1);
}

/** How many steps are due as time goes on. */
export class Pace {
  #owed = 0;

  /** @param {number} [each] the fewest steps of a frame: 2 for rules that flash */
  constructor(each = 1) {
    /** @type {number} steps a second, below 0 if they are undone */
    this.speed = 0;
    /** @type {number} */
    this.each = each;
  }

  /** @returns {number} the steps of a frame: a multiple of `each`, so that at most about 60 frames a second come */
  get stepsAFrame() {
    return Math.max(this.each, this.each * Math.round(Math.abs(this.speed) / MOST_FRAMES / this.each));
  }

  /**
   * The number of steps, not of frames, of the frame that is due. They count as done then.
   * Call it for each frame that can be begun.
   * @param {number} elapsed milliseconds since the last call
   * @returns {number} 0 if none is due; below 0 if they are to be undone
   */
  framesFor(elapsed) {
    const steps = this.stepsAFrame;
    this.#owed = Math.min(this.#owed + Math.abs(this.speed) * elapsed / 1000, 2 * steps);
    if (this.speed === 0 || this.#owed < steps) {
      return 0;
    }
    this.#owed -= steps;
    return Math.sign(this.speed) * steps;
  }

  /** Forgets what is owed, as after a pause. */
  rest() {
    this.#owed = 0;
  }
}

/**
 * Whether a rule inverts a plane of its half if all cells are blank or all are set, wherever a cell lies.
 * @param {import('./lines.js').Rule} rule
 * @param {number} plane 0 to 3, one of the rule's half
 * @param {number} phase 0 to 3, of the entry
 */
function inverts(rule, plane, phase) {
  const names = namesOf(rule.hood, rule.minor, rule.half);
  /** @type {Record<string, number>[]} */
  const places = [0, 1, 2, 3].map(place => ({ HORZ: place & 1, VERT: place >> 1 }));
  return places.every(place => [0, 1].every(cell => {
    const address = names.reduce((sum, { name, bit }) => {
      const plain = name.replace('&', '').replace("'", '');
      const isPrimed = name.endsWith("'");
      const isOwn = !name.startsWith('&') || plain === 'CENTER';
      const value = plain in place ? place[plain] : plain === 'PHASE' ? phase >> Number(isPrimed) & 1
        : isOwn && isPrimed === (plane % 2 === 1) && !name.startsWith('&') ? cell : 0;
      return sum | value << bit;
    }, 0);
    return evaluate(rule, address).get(plane) === 1 - cell;
  }));
}

/** @type {['a'|'b', number][]} each plane, after the half whose rule writes it */
const WRITTEN = [['a', 0], ['a', 1], ['b', 2], ['b', 3]];

/**
 * Whether there is a plane that each step inverts: if it is blank it is full after it, and the other way round.
 * False for a cycle without entries.
 * @param {import('./lines.js').Rule[]} rules
 * @param {import('./lines.js').Entry[]} entries
 * @returns {boolean}
 */
export function flashes(rules, entries) {
  return WRITTEN.some(([half, plane]) => entries.length > 0 && entries.every(entry => {
    const rule = rules.find(({ name }) => name === entry[half]);
    return rule !== undefined && inverts(rule, plane, entry.phase);
  }));
}

const FLASH = 0.1;
const MOST_FLASHES = 3;

/** Measures whether what is shown flashes more than three times a second, whatever the rule. */
export class FlashMeter {
  /** @type {number|null} */
  #last = null;
  #direction = 0;
  /** @type {number[]} when the brightness began to rise or to fall, in milliseconds */
  #changes = [];

  /**
   * Looks at a frame.
   * @param {Uint8Array} cells states
   * @param {number[]} colours the colour of each state, as shown
   * @param {number} time in milliseconds
   * @returns {boolean} whether the brightness has gone up and down by a tenth more than three times in a second
   */
  see(cells, colours, time) {
    const counts = new Uint32Array(16);
    for (let i = 0; i < cells.length; i++) {
      counts[cells[i]]++;
    }
    const light = counts.reduce((sum, count, state) => sum + count * brightness(colours[state]), 0) / cells.length;
    const change = light - (this.#last ?? light);
    if (this.#last === null || Math.abs(change) >= FLASH) {
      const direction = Math.sign(change);
      if (direction !== 0 && direction !== this.#direction) {
        this.#changes.push(time);
      }
      this.#direction = direction;
      this.#last = light;
    }
    this.#changes = this.#changes.filter(when => time - when < 1000);
    return this.#changes.length > 2 * MOST_FLASHES;
  }
}
