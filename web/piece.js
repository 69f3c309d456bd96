// The selection, and a piece of cells that floats over the torus until it is put down.

import { at, makeButton, note } from './dom.js';
import { boxOf, cut, mirrored, place as put, turned } from './shapes.js';
import { read, write } from './patterns.js';

/**
 * @typedef {import('./shapes.js').Point} Point
 * @typedef {import('./shapes.js').Box} Box
 * @typedef {import('./shapes.js').Piece} Cells
 * @typedef {import('./planes.js').Planes} Planes
 * @typedef {{cells: Cells, base: Planes}} Floating
 */

/**
 * A piece that lies upside down: upper and lower rows have changed places.
 * @param {Cells} piece
 */
const flipped = piece => turned(turned(mirrored(piece)));

/** The selected cells, and what can be done with them. */
export class Piece {
  /**
   * @param {import('./machine.js').Machine} machine
   * @param {import('./screen.js').Screen} screen
   * @param {import('./controls.js').Controls} time
   * @param {() => import('./tools.js').Tools} toolsOf the tool bar, which is made after this
   */
  constructor(machine, screen, time, toolsOf) {
    this.machine = machine;
    this.screen = screen;
    this.time = time;
    this.toolsOf = toolsOf;
    /** @type {import('./torus.js').Frame|null} */
    this.frame = null;
    /** @type {Floating|null} */
    this.floating = null;
    /** @type {Cells|null} */
    this.clip = null;
    /** @type {{from: Point, corner: Point|null}|null} where a drag began, and the corner of the piece then */
    this.drag = null;
  }

  /** @returns {HTMLElement[]} the buttons of the selection */
  options() {
    /** @type {(id: string, textContent: string, title: string, act: () => unknown, disabled?: boolean) => HTMLElement} */
    const button = (id, textContent, title, act, disabled = false) =>
      makeButton({ id, textContent, title, disabled }, act);
    const none = !this.frame;
    if (this.floating) {
      return [
        button('put', 'Put it here', 'Enter', () => this.put()),
        button('turn', 'Turn', 'Clockwise (T)', () => this.turn()),
        button('mirror', 'Mirror', 'Left and right change places (M)', () => this.mirror()),
        button('flip', 'Flip', 'Top and bottom change places', () => this.reshape(flipped)),
        button('give-up', 'Give up', 'Escape', () => this.giveUp()),
      ];
    }
    return [
      button('copy', 'Copy', 'Ctrl-C', () => this.copy(), none),
      button('cut', 'Cut', 'Ctrl-X', () => this.cut(), none),
      button('paste-piece', 'Paste', 'Ctrl-V', () => this.paste(this.clip), !this.clip),
      button('turn', 'Turn', 'Clockwise (T)', () => this.turn(), none),
      button('mirror', 'Mirror', 'Left and right change places (M)', () => this.mirror(), none),
      button('flip', 'Flip', 'Top and bottom change places', () => this.reshape(flipped), none),
      button('erase', 'Erase', 'Delete', () => this.erase(), none),
      button('select-all', 'All', 'Select the whole torus (Ctrl-A)', () => this.selectAll()),
    ];
  }

  /**
   * Selects some cells, or none.
   * @param {Box|null} frame
   */
  select(frame) {
    const { side } = this.machine;
    this.frame = frame && {
      x: frame.x,
      y: frame.y,
      width: Math.min(frame.width, side),
      height: Math.min(frame.height, side),
      isFloating: this.floating !== null,
    };
    this.screen.torus.frame = this.frame;
    this.screen.torus.change();
    if (!at('tool-options').hidden) {
      at('tool-options').replaceChildren(...this.options());
    }
  }

  /** Selects the whole torus. */
  selectAll() {
    const { side } = this.machine;
    this.toolsOf().choose('select');
    this.select({ x: 0, y: 0, width: side, height: side });
  }

  /**
   * Whether a place lies in the frame, in any copy of the torus.
   * @param {Point} place
   */
  holds([x, y]) {
    const { side } = this.machine;
    const { frame } = this;
    /** @type {(value: number, start: number, length: number) => boolean} */
    const within = (value, start, length) => ((value - start) % side + side) % side < length;
    return frame !== null && within(x, frame.x, frame.width) && within(y, frame.y, frame.height);
  }

  /**
   * A drag moves the piece that floats, or else selects.
   * @param {Point} place
   */
  start(place) {
    const { floating, frame } = this;
    if (floating && frame && this.holds(place)) {
      this.drag = { from: place, corner: [frame.x, frame.y] };
      return;
    }
    this.put();
    this.drag = { from: place, corner: null };
    this.select(null);
  }

  /**
   * Drags the selection to here, or its frame.
   * @param {Point} place
   */
  move(place) {
    if (!this.drag) {
      return;
    }
    const { from, corner } = this.drag;
    if (corner) {
      this.moveTo(corner[0] + place[0] - from[0], corner[1] + place[1] - from[1]);
    } else {
      const box = boxOf(from, place);
      this.select(box);
      const { width, height } = this.frame ?? box;
      at('where').textContent = `${width} by ${height}`;
    }
  }

  /** The pointer goes up. */
  end() {
    this.drag = null;
  }

  /** A drag is given up. */
  stop() {
    this.drag = null;
  }

  /**
   * Moves the piece, if one floats. A drag may go on after the piece was put down.
   * @param {number} x
   * @param {number} y
   */
  moveTo(x, y) {
    if (this.floating && this.frame) {
      this.select({ ...this.frame, x, y });
      this.sketch();
    }
  }

  /** Shows the piece that floats over the cells below it. */
  sketch() {
    this.screen.setDraft(this.drawing());
  }

  /** @returns {Planes|null} the cells with the piece that floats, or null if none does */
  drawing() {
    const { floating, frame } = this;
    if (!floating || !frame) {
      return null;
    }
    const draft = floating.base.clone();
    put(draft, floating.cells, [frame.x, frame.y], true);
    return draft;
  }

  /**
   * The cells of the piece that floats, or else those of the machine in a frame.
   * @param {Box} frame
   * @returns {Cells}
   */
  taken(frame) {
    return this.floating ? this.floating.cells : cut(this.machine.planes, frame);
  }

  /**
   * Keeps the selected cells for a paste, also as a text for other programs.
   * @returns {string} run-length text; empty if nothing is selected
   */
  copy() {
    if (!this.frame) {
      return '';
    }
    const { width, height, cells } = this.clip = this.taken(this.frame);
    const text = write(cells, width, height);
    navigator.clipboard?.writeText(text).catch(() => {});
    this.select(this.frame);
    note(`${width} by ${height} cells are copied.`);
    return text;
  }

  /** Keeps the selected cells, and clears them. */
  async cut() {
    this.copy();
    await this.erase();
  }

  /** Clears the selected cells, or gives up the piece that floats. */
  async erase() {
    const { frame } = this;
    if (this.floating) {
      this.giveUp();
    } else if (frame) {
      await this.toolsOf().change(planes => this.clearIn(planes, frame));
    }
  }

  /**
   * Clears a frame.
   * @param {Planes} planes
   * @param {Box} frame
   */
  clearIn(planes, { x, y, width, height }) {
    put(planes, { width, height, cells: new Uint8Array(width * height) }, [x, y]);
  }

  /**
   * Lets a piece float in the middle of the window, or in the middle of the selection. One that floats is put down.
   * Shows a note instead if it is larger than the torus. Does nothing without one.
   * @param {Cells|null} cells
   */
  async paste(cells) {
    if (!cells) {
      return;
    }
    const { side } = this.machine;
    if (cells.width > side || cells.height > side) {
      note(`The pattern has ${cells.width} by ${cells.height} cells. The torus has ${side} by ${side}.`);
      return;
    }
    await this.put();
    const { frame } = this;
    const [x, y] = frame ? [frame.x + frame.width / 2, frame.y + frame.height / 2] : this.screen.torus.middle;
    this.toolsOf().choose('select');
    await this.float(cells, [Math.floor(x - cells.width / 2), Math.floor(y - cells.height / 2)]);
  }

  /**
   * Holds the machine, until `put` or `giveUp`, and lets a piece float.
   * @param {Cells} cells
   * @param {Point} corner
   * @param {Box|null} clear the frame that it was taken from
   */
  async float(cells, [x, y], clear = null) {
    await this.time.hold();
    const base = this.screen.cells.clone();
    if (clear) {
      this.clearIn(base, clear);
    }
    this.floating = { cells, base };
    this.select({ x, y, width: cells.width, height: cells.height });
    this.sketch();
  }

  /** Turns the selection clockwise. */
  turn() {
    return this.reshape(turned);
  }

  /** Mirrors the selection. */
  mirror() {
    return this.reshape(mirrored);
  }

  /**
   * Gives the selected cells another shape, about the same middle. A selection begins to float.
   * @param {(cells: Cells) => Cells} shape
   */
  async reshape(shape) {
    if (!this.frame) {
      return;
    }
    const { x, y, width, height } = this.frame;
    const cells = shape(this.taken(this.frame));
    /** @type {Point} */
    const corner = [x + Math.floor((width - cells.width) / 2), y + Math.floor((height - cells.height) / 2)];
    if (this.floating) {
      this.floating.cells = cells;
      this.select({ x: corner[0], y: corner[1], width: cells.width, height: cells.height });
      this.sketch();
    } else {
      await this.float(cells, corner, { x, y, width, height });
    }
  }

  /** Puts the piece that floats down: the machine takes it. Does nothing if none floats. */
  async put() {
    const draft = this.drawing();
    if (!draft) {
      return;
    }
    this.floating = null;
    this.select(this.frame);
    await this.toolsOf().take(this.machine.planes.clone(), draft);
    this.time.release();
  }

  /** Takes the piece that floats away again, and selects nothing. */
  giveUp() {
    if (this.floating) {
      this.floating = null;
      this.screen.setDraft(null);
      this.time.release();
    }
    this.select(null);
  }

  /**
   * Pastes a run-length text.
   * @param {string} text
   * @throws {import('./patterns.js').PatternFault} as a rejection, if it is no pattern
   */
  async pasteText(text) {
    await this.paste(read(text));
  }

  /** @returns {string} the selection, or the whole torus, as a run-length text */
  asText() {
    const { planes, side } = this.machine;
    const whole = { x: 0, y: 0, width: side, height: side };
    const { width, height, cells } = this.frame ? this.taken(this.frame) : cut(planes, whole);
    return write(cells, width, height);
  }
}
