// The tools that draw on the torus, and the states that they draw.

import { all, at, element, joinClicks, make, makeButton, note, numberOf, setPressed } from './dom.js';
import { cssOf, planesOf } from './screen.js';
import { box, boxOf, fill, line, random, stroke } from './shapes.js';

const KEPT = 40;        // drawings that can be undone

/**
 * @typedef {import('./shapes.js').Point} Point
 * @typedef {import('./planes.js').Planes} Planes
 *
 * @typedef {object} Stroke
 * @property {string} tool
 * @property {Point[]} places
 * @property {number} seed
 * @property {Promise<void>} ready resolves after the machine is held
 * @property {Planes|null} base the cells that it began with; null before it is ready
 * @property {number} state the state that it draws
 */

/** @type {Record<string, (stroke: Stroke, base: Planes) => Point[]>} the cells that a stroke gives its state */
const POINTS = {
  pencil: ({ places }) => stroke(places),
  line: ({ places }) => line(places[0], places[places.length - 1]),
  box: ({ places }) => box(places[0], places[places.length - 1]),
  fill: ({ places }, base) => fill(base, places[0]),
};

/** The tool bar, and what a pointer does on the torus. */
export class Tools {
  /**
   * @param {import('./machine.js').Machine} machine
   * @param {import('./screen.js').Screen} screen
   * @param {import('./piece.js').Piece} piece the selection
   * @param {import('./controls.js').Controls} time holds the machine while somebody draws
   */
  constructor(machine, screen, piece, time) {
    this.machine = machine;
    this.screen = screen;
    this.piece = piece;
    this.time = time;
    this.field = element('draw-state', HTMLInputElement);
    this.buttons = all(at('tools'), '[data-tool]');
    this.tool = 'pencil';
    this.density = 0.3;
    /** @type {Stroke|null} */
    this.stroke = null;
    /** @type {{before: Planes, after: Planes}[]} */
    this.drawings = [];
    this.swatches = Array.from({ length: 16 }, (_, state) => this.makeSwatch(state));
    at('swatches').append(...this.swatches);
    for (const button of this.buttons) {
      button.addEventListener('click', () => this.choose(button.dataset.tool ?? ''));
    }
    this.field.addEventListener('input', () => this.tell());
    joinClicks({ undo: () => this.undo(), clear: () => this.change(planes => planes.cells.fill(0)) });
    this.choose('pencil');
  }

  /** @returns {number} the state that is drawn */
  get state() {
    return numberOf(this.field);
  }

  /** @returns {boolean} whether a drag moves the view */
  get movesView() {
    return this.tool === 'pan';
  }

  /**
   * A button that chooses a state.
   * @param {number} state
   */
  makeSwatch(state) {
    return makeButton({ title: `State ${state}: planes ${planesOf(state)}`, ariaLabel: `State ${state}` }, () => {
      this.field.value = String(state);
      this.tell();
    });
  }

  /** Shows the colours of the states, and which one is drawn. */
  tell() {
    this.swatches.forEach((swatch, state) => {
      swatch.style.background = cssOf(this.machine.colours[state]);
      setPressed(swatch, state === this.state);
    });
  }

  /**
   * Takes a tool.
   * @param {string} tool
   */
  choose(tool) {
    this.tool = tool;
    this.screen.torus.canvas.dataset.tool = tool;
    for (const button of this.buttons) {
      setPressed(button, button.dataset.tool === tool);
    }
    if (tool !== 'select') {
      this.piece.put();
      this.piece.select(null);
    }
    this.showOptions();
  }

  /** Shows what can be done with the tool, above the torus. */
  showOptions() {
    const place = at('tool-options');
    place.hidden = this.tool !== 'random' && this.tool !== 'select';
    if (this.tool === 'random') {
      place.replaceChildren(...this.densityOptions());
    } else if (this.tool === 'select') {
      place.replaceChildren(...this.piece.options());
    }
  }

  /** How dense random cells are, and a button that fills the torus with them. */
  densityOptions() {
    const output = make('output', { textContent: `${Math.round(100 * this.density)} %` });
    const range = make('input', { id: 'density', type: 'range', min: '1', max: '99', value: `${100 * this.density}` });
    range.addEventListener('input', () => {
      this.density = Number(range.value) / 100;
      output.textContent = `${range.value} %`;
    });
    const all = makeButton({ textContent: 'Fill the torus', id: 'random-all' }, () => {
      const end = this.machine.side - 1;
      this.change(planes => this.scatter(planes, [0, 0], [end, end], Date.now()));
    });
    return [make('label', {}, 'Density', range, output), all];
  }

  /**
   * Gives the cells of a box random states: the one that is drawn, or 0.
   * @param {Planes} planes
   * @param {Point} from
   * @param {Point} to
   * @param {number} seed
   */
  scatter(planes, from, to, seed) {
    this.put(planes, box(from, to, true), 0);
    this.put(planes, random(from, to, this.density, seed), this.state);
  }

  /**
   * Draws a state on points. Planes that are hidden keep their bits.
   * @param {Planes} planes
   * @param {Point[]} points
   * @param {number} state
   */
  put(planes, points, state) {
    for (const [x, y] of points) {
      planes.put(x, y, this.screen.mergeShown(planes.get(x, y), state));
    }
  }

  /**
   * Begins a stroke, or a drag of the selection. A stroke from a cell that has its state already draws state 0.
   * @param {Point} place
   */
  start(place) {
    if (this.tool === 'select') {
      this.piece.start(place);
      return;
    }
    /** @type {Stroke} */
    const begun = { tool: this.tool, places: [place], seed: Date.now(), ready: this.time.hold(), base: null, state: 0 };
    this.stroke = begun;
    begun.ready.then(() => {
      const base = this.screen.cells.clone();
      const erases = begun.tool !== 'random' && base.get(...place) === this.state;
      Object.assign(begun, { base, state: erases ? 0 : this.state });
      this.sketch(begun);
    });
  }

  /**
   * Goes on with the stroke to this cell.
   * @param {Point} place
   */
  move(place) {
    if (this.tool === 'select') {
      this.piece.move(place);
      return;
    }
    const begun = this.stroke;
    const [x, y] = begun?.places[begun.places.length - 1] ?? place;
    if (begun && (x !== place[0] || y !== place[1])) {
      begun.places.push(place);
      this.sketch(begun);
    }
  }

  /**
   * Shows what a stroke has made so far.
   * @param {Stroke} begun
   */
  sketch(begun) {
    if (!begun.base || this.stroke !== begun) {
      return;
    }
    this.screen.setDraft(this.drawingOf(begun, begun.base));
    this.tellSize(begun);
  }

  /**
   * The cells after a stroke.
   * @param {Stroke} begun
   * @param {Planes} base
   */
  drawingOf(begun, base) {
    const planes = base.clone();
    if (begun.tool === 'random') {
      this.scatter(planes, begun.places[0], begun.places[begun.places.length - 1], begun.seed);
    } else {
      this.put(planes, POINTS[begun.tool](begun, base), begun.state);
    }
    return planes;
  }

  /**
   * Says how large a box or a line is.
   * @param {Stroke} begun
   */
  tellSize({ tool, places }) {
    if (tool !== 'pencil' && tool !== 'fill') {
      const { width, height } = boxOf(places[0], places[places.length - 1]);
      at('where').textContent = `${width} by ${height}`;
    }
  }

  /** The pointer goes up: the machine takes what was drawn. */
  async end() {
    if (this.tool === 'select') {
      this.piece.end();
      return;
    }
    const begun = this.stroke;
    if (!begun) {
      return;
    }
    await begun.ready;
    if (this.stroke === begun && begun.base) {
      this.stroke = null;
      await this.take(begun.base, this.drawingOf(begun, begun.base));
      this.time.release();
    }
  }

  /** The stroke is given up: a second finger came, or Escape. */
  cancel() {
    this.piece.stop();
    if (this.stroke) {
      this.stroke.ready.then(() => this.time.release());
      this.stroke = null;
      this.screen.setDraft(null);
    }
  }

  /**
   * Shows which cell the pointer is over, unless a stroke is under way.
   * @param {Point|null} place null if it is over none
   */
  hover(place) {
    if (this.stroke) {
      return;
    }
    const mask = this.machine.side - 1;
    const text = place && `(${place[0] & mask}, ${place[1] & mask}) state ${this.machine.planes.get(...place)}`;
    at('where').textContent = text ?? '';
  }

  /**
   * Changes the cells at once.
   * @param {(planes: Planes) => void} edit
   */
  async change(edit) {
    await this.time.hold();
    const before = this.screen.cells.clone();
    const after = before.clone();
    edit(after);
    await this.take(before, after);
    this.time.release();
  }

  /**
   * Gives the machine the cells that differ, and keeps both for undo: the last 40 drawings are kept.
   * @param {Planes} before
   * @param {Planes} after
   */
  async take(before, after) {
    this.screen.setDraft(after);
    try {
      await this.machine.paint(after, before);
      this.drawings.push({ before, after });
      this.drawings.splice(0, this.drawings.length - KEPT);
      this.time.begin();
    } finally {
      this.screen.setDraft(null);
    }
  }

  /** Undoes the last drawing if the cells are still as it left them. Otherwise, or if there is none, shows a note. */
  async undo() {
    await this.time.hold();
    const last = this.drawings.pop();
    const { planes } = this.machine;
    if (!last) {
      note('There is no drawing to undo.');
    } else if (last.after.side !== planes.side || last.after.rowsThatDiffer(planes).length > 0) {
      this.drawings.push(last);
      note('Steps came after the drawing. Go back to it first.');
    } else {
      await this.machine.paint(last.before);
      this.time.begin();
    }
    this.time.release();
  }
}
