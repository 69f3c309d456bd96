// The torus on a canvas: cells, the grid, blocks, seams and the selection.

import { View, middleOf } from './view.js';
import { contextOf } from './dom.js';
import { paint } from './palette.js';

const GRID_FROM = 7;    // pixels of the page a cell from which on lines are drawn between cells

/**
 * @typedef {import('./planes.js').Planes} Planes
 * @typedef {import('./shapes.js').Box & {isFloating: boolean}} Frame a frame round some cells
 * @typedef {{left: number, top: number}} Corner the upper left pixel of a copy of the torus
 */

/** Shows planes on a canvas, and all cells at a pixel each on another one. */
export class Torus {
  /**
   * @param {HTMLCanvasElement} canvas
   * @param {HTMLCanvasElement} cells
   */
  constructor(canvas, cells) {
    this.canvas = canvas;
    this.cells = cells;
    this.view = new View(256);
    /** @type {{image: ImageData, words: Uint32Array}|null} the pixels of all cells */
    this.pixels = null;
    /** @type {Frame|null} */
    this.frame = null;
    /** @type {number|null} where blocks of two by two cells begin in the next step: 0, 1, or null for no blocks */
    this.blocks = null;
    /** The colour that makes copies of the torus dim. */
    this.veil = '#111b';
    this.isFitted = true;
    this.isWaiting = false;
    new ResizeObserver(() => this.resize()).observe(canvas);
  }

  /** Takes the canvas's new size, and shows the whole torus if it was shown before. */
  resize() {
    const ratio = devicePixelRatio || 1;
    const width = Math.max(1, Math.round(this.canvas.clientWidth * ratio));
    const height = Math.max(1, Math.round(this.canvas.clientHeight * ratio));
    if (width === this.canvas.width && height === this.canvas.height) {
      return;
    }
    Object.assign(this.canvas, { width, height });
    Object.assign(this.view, { width, height });
    if (this.isFitted) {
      this.fit();
    }
    this.draw();
  }

  /**
   * Shows these cells.
   * @param {Planes} planes
   * @param {Uint32Array} lights the pixel of each state
   */
  show(planes, lights) {
    const { side } = planes;
    if (this.cells.width !== side || !this.pixels) {
      Object.assign(this.cells, { width: side, height: side });
      const image = new ImageData(side, side);
      this.pixels = { image, words: new Uint32Array(image.data.buffer) };
    }
    this.setSide(side);
    paint(planes.cells, lights, this.pixels.words);
    contextOf(this.cells).putImageData(this.pixels.image, 0, 0);
    this.draw();
  }

  /**
   * Takes a torus of another side.
   * @param {number} side
   */
  setSide(side) {
    if (this.view.side !== side) {
      const { width, height } = this.view;
      this.view = Object.assign(new View(side), { width, height });
      this.fit();
    }
  }

  /** Shows the whole torus. */
  fit() {
    this.view.fit();
    this.isFitted = true;
    this.change();
  }

  /**
   * Moves what is drawn to the middle, also if it lies over a seam, and shows the whole torus.
   * @param {Planes} planes
   */
  centreOn(planes) {
    const { side, cells } = planes;
    const columns = new Uint8Array(side);
    const rows = new Uint8Array(side);
    cells.forEach((state, i) => {
      columns[i % side] |= state;
      rows[Math.floor(i / side)] |= state;
    });
    this.setSide(side);
    this.view.centre(middleOf(columns), middleOf(rows));
    this.fit();
  }

  /**
   * The pixel of the canvas under a pointer.
   * @param {{clientX: number, clientY: number}} event
   * @returns {{x: number, y: number}}
   */
  pixelOf(event) {
    const box = this.canvas.getBoundingClientRect();
    const ratio = this.canvas.width / box.width;
    return { x: (event.clientX - box.left) * ratio, y: (event.clientY - box.top) * ratio };
  }

  /**
   * The cell under a pointer, not wrapped.
   * @param {{clientX: number, clientY: number}} event
   * @returns {[number, number]}
   */
  cellOf(event) {
    const pixel = this.pixelOf(event);
    const place = this.view.placeOf(pixel.x, pixel.y);
    return [Math.floor(place.x), Math.floor(place.y)];
  }

  /** @returns {[number, number]} the cell in the middle of the window */
  get middle() {
    return [Math.floor(this.view.x), Math.floor(this.view.y)];
  }

  /** The view was moved by hand: a new size of the window leaves it as it is. */
  moved() {
    this.isFitted = false;
    this.change();
  }

  /** Draws at the next chance of the screen. */
  change() {
    if (!this.isWaiting) {
      this.isWaiting = true;
      requestAnimationFrame(() => {
        this.isWaiting = false;
        this.draw();
      });
    }
  }

  /** Draws all. */
  draw() {
    const { canvas, view } = this;
    const context = contextOf(canvas, { alpha: false });
    const size = view.side * view.scale;
    context.imageSmoothingEnabled = view.scale < 1;
    const copies = view.copies();
    for (const { left, top } of copies) {
      context.drawImage(this.cells, left, top, size, size);
    }
    this.drawLines(context);
    this.drawSeams(context, copies, size);
    this.drawVeil(context);
    if (this.frame) {
      this.drawFrame(context, copies, this.frame);
    }
    this.tell();
  }

  /**
   * Lines between cells, and stronger ones between the blocks of the next step.
   * @param {CanvasRenderingContext2D} context
   */
  drawLines(context) {
    const { scale } = this.view;
    if (scale < GRID_FROM * (devicePixelRatio || 1)) {
      return;
    }
    const { left, top } = this.view.origin;
    /** @type {(every: number, from: number, colour: string) => void} */
    const lines = (every, from, colour) => {
      const step = every * scale;
      context.fillStyle = colour;
      for (let x = (left + from * scale) % step; x < this.view.width; x += step) {
        context.fillRect(x, 0, 1, this.view.height);
      }
      for (let y = (top + from * scale) % step; y < this.view.height; y += step) {
        context.fillRect(0, y, this.view.width, 1);
      }
    };
    lines(1, 0, '#8886');
    if (this.blocks !== null) {
      lines(2, this.blocks, '#8cf7');
    }
  }

  /**
   * The seams: before column 0 and above row 0.
   * @param {CanvasRenderingContext2D} context
   * @param {Corner[]} copies
   * @param {number} size
   */
  drawSeams(context, copies, size) {
    const dash = 4 * (devicePixelRatio || 1);
    context.setLineDash([dash, 2 * dash]);
    context.strokeStyle = '#9ab8';
    context.lineWidth = 1;
    context.beginPath();
    for (const { left, top } of copies) {
      context.moveTo(left + 0.5, top);
      context.lineTo(left + 0.5, top + size);
      context.moveTo(left, top + 0.5);
      context.lineTo(left + size, top + 0.5);
    }
    context.stroke();
    context.setLineDash([]);
  }

  /**
   * Makes all beyond the square of one torus dim: it is the same torus again.
   * @param {CanvasRenderingContext2D} context
   */
  drawVeil(context) {
    const { left, top, size } = this.view.square();
    const { width, height } = this.view;
    if (left <= 0 && top <= 0) {
      return;
    }
    const x = Math.max(0, left);
    const y = Math.max(0, top);
    context.fillStyle = this.veil;
    context.fillRect(0, 0, width, y);
    context.fillRect(0, height - y, width, y);
    context.fillRect(0, y, x, height - 2 * y);
    context.fillRect(width - x, y, x, height - 2 * y);
    context.strokeStyle = '#8ab';
    context.lineWidth = 1;
    context.strokeRect(left - 0.5, top - 0.5, size + 1, size + 1);
  }

  /**
   * The frame of the selection, or of a piece that floats, in each copy of the torus.
   * @param {CanvasRenderingContext2D} context
   * @param {Corner[]} copies
   * @param {Frame} frame
   */
  drawFrame(context, copies, { x, y, width, height, isFloating }) {
    const { scale, side } = this.view;
    const size = side * scale;
    const column = (x % side + side) % side;
    const row = (y % side + side) % side;
    const dash = 5 * (devicePixelRatio || 1);
    context.lineWidth = 2;
    const shifts = [[0, 0], [size, 0], [0, size], [size, size]];
    const places = copies.flatMap(({ left, top }) => shifts.map(([byX, byY]) => [left - byX, top - byY]));
    /** @type {[colour: string, shift: number][]} */
    const dashes = [['#000', 0], [isFloating ? '#ffd23f' : '#fff', dash]];
    for (const [colour, shift] of dashes) {
      context.strokeStyle = colour;
      context.setLineDash([dash]);
      context.lineDashOffset = shift;
      for (const [left, top] of places) {
        context.strokeRect(left + column * scale, top + row * scale, width * scale, height * scale);
      }
    }
    context.setLineDash([]);
  }

  /** Keeps in the canvas's dataset what a program needs to find a cell: side, left and top, zoom, and the frame. */
  tell() {
    const ratio = devicePixelRatio || 1;
    const { x, y } = this.view.placeOf(0, 0);
    Object.assign(this.canvas.dataset, { side: this.view.side, left: x, top: y, zoom: this.view.scale / ratio });
    const { frame } = this;
    this.canvas.dataset.piece = frame ? [frame.x, frame.y, frame.width, frame.height].join(',') : '';
  }
}
