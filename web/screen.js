// What the torus shows: the machine's cells, or a draft of them while somebody draws; and which planes are shown.

import { at, makeButton, setPressed } from './dom.js';
import { lights, PALETTE } from './palette.js';

/**
 * The light of a colour, as CSS has it.
 * @param {number} colour 0 to 15
 */
export const cssOf = colour => `rgb(${PALETTE[colour].join(' ')})`;

/**
 * The planes in which a state is set, as a text: `0, 2`, or `none` for state 0.
 * @param {number} state
 */
export function planesOf(state) {
  return [0, 1, 2, 3].filter(plane => state >> plane & 1).join(', ') || 'none';
}

/** Shows the cells of a machine on a torus. */
export class Screen {
  /**
   * @param {import('./machine.js').Machine} machine
   * @param {import('./torus.js').Torus} torus
   */
  constructor(machine, torus) {
    this.machine = machine;
    this.torus = torus;
    /** @type {import('./planes.js').Planes|null} cells that are not the machine's yet */
    this.draft = null;
    /** The planes that are shown: bit p for plane p. */
    this.shown = 15;
    this.isWaiting = false;
    this.buttons = [0, 1, 2, 3].map(plane => this.makeButton(plane));
    at('planes').append(...this.buttons);
  }

  /**
   * A button that shows and hides a plane.
   * @param {number} plane
   */
  makeButton(plane) {
    return makeButton({ textContent: String(plane), data: { plane } }, () => {
      this.shown ^= 1 << plane;
      this.tell();
      this.paint();
    });
  }

  /** @returns {import('./planes.js').Planes} the cells that are shown */
  get cells() {
    return this.draft ?? this.machine.planes;
  }

  /** Shows on the buttons which planes are shown. */
  tell() {
    this.buttons.forEach((button, plane) => {
      const isShown = (this.shown >> plane & 1) === 1;
      setPressed(button, isShown);
      button.title = isShown ? `Plane ${plane} is shown. A click hides it.`
        : `Plane ${plane} is hidden. Drawing leaves it as it is.`;
      button.setAttribute('aria-label', `Plane ${plane}`);
    });
  }

  /** Paints at the next chance of the screen. */
  change() {
    if (!this.isWaiting) {
      this.isWaiting = true;
      requestAnimationFrame(() => {
        this.isWaiting = false;
        this.paint();
      });
    }
  }

  /** Paints the cells now. */
  paint() {
    this.torus.show(this.cells, lights(this.machine.colours, this.shown));
  }

  /**
   * Shows a draft, or the machine's cells again.
   * @param {import('./planes.js').Planes|null} draft
   */
  setDraft(draft) {
    this.draft = draft;
    this.change();
  }

  /**
   * The state of a cell after somebody drew a state on it. Planes that are hidden keep their bits.
   * @param {number} old
   * @param {number} state
   * @returns {number}
   */
  mergeShown(old, state) {
    return old & ~this.shown | state & this.shown;
  }
}
