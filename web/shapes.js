// The points that a tool touches. Points are [x, y], and may lie beyond the seams.

/**
 * @typedef {[number, number]} Point
 * @typedef {{x: number, y: number, width: number, height: number}} Box its upper left cell, and its size
 * @typedef {{width: number, height: number, cells: Uint8Array}} Piece cells in states, row by row
 */

/**
 * A line from one point to another, both with it: also the piece of a pencil's stroke between two places.
 * @param {Point} from
 * @param {Point} to
 * @returns {Point[]}
 */
export function line([x, y], [endX, endY]) {
  const stepX = Math.sign(endX - x);
  const stepY = Math.sign(endY - y);
  const wide = Math.abs(endX - x);
  const high = Math.abs(endY - y);
  /** @type {Point[]} */
  const points = [[x, y]];
  for (let error = wide - high; x !== endX || y !== endY;) {
    const double = 2 * error;
    if (double > -high) {
      error -= high;
      x += stepX;
    }
    if (double < wide) {
      error += wide;
      y += stepY;
    }
    points.push([x, y]);
  }
  return points;
}

/**
 * A stroke of a pencil through places, each point once.
 * @param {Point[]} places
 * @param {number} [size] cells across
 * @returns {Point[]}
 */
export function stroke(places, size = 1) {
  /** @type {Map<string, Point>} */
  const seen = new Map();
  const reach = Math.floor((size - 1) / 2);
  places.forEach((place, i) => {
    for (const [x, y] of line(places[Math.max(i - 1, 0)], place)) {
      for (const [dx, dy] of box([0, 0], [size - 1, size - 1], true)) {
        /** @type {Point} */
        const point = [x + dx - reach, y + dy - reach];
        seen.set(point.join(), point);
      }
    }
  });
  return [...seen.values()];
}

/**
 * The box between two points, both with it.
 * @param {Point} from
 * @param {Point} to
 * @returns {Box}
 */
export function boxOf([x, y], [endX, endY]) {
  return {
    x: Math.min(x, endX),
    y: Math.min(y, endY),
    width: Math.abs(endX - x) + 1,
    height: Math.abs(endY - y) + 1,
  };
}

/**
 * The points of a box between two points, row by row: its edge, or all of it.
 * @param {Point} from
 * @param {Point} to
 * @param {boolean} [isFull]
 * @returns {Point[]}
 */
export function box(from, to, isFull = false) {
  const { x, y, width, height } = boxOf(from, to);
  /** @type {Point[]} */
  const points = [];
  for (let row = 0; row < height; row++) {
    const isEdge = row === 0 || row === height - 1;
    const step = isFull || isEdge ? 1 : Math.max(width - 1, 1);
    for (let column = 0; column < width; column += step) {
      points.push([x + column, y + row]);
    }
  }
  return points;
}

/**
 * The cells of one state that hang together with a cell, over the seams, by four neighbours.
 * @param {import('./planes.js').Planes} planes
 * @param {Point} from
 * @returns {Point[]} each cell once, within the torus
 */
export function fill(planes, [x, y]) {
  const { side, cells } = planes;
  const mask = side - 1;
  const state = planes.get(x, y);
  const seen = new Uint8Array(side * side);
  const found = [planes.indexOf(x, y)];
  seen[found[0]] = 1;
  for (let i = 0; i < found.length; i++) {
    const row = found[i] & ~mask;
    const column = found[i] & mask;
    const up = (row - side + side * side) % (side * side);
    const down = (row + side) % (side * side);
    const beside = [row | (column + 1 & mask), row | (column + mask & mask), up | column, down | column];
    for (const next of beside) {
      if (!seen[next] && cells[next] === state) {
        seen[next] = 1;
        found.push(next);
      }
    }
  }
  return found.map(index => [index & mask, Math.floor(index / side)]);
}

/**
 * A function whose random numbers are the same for the same seed (mulberry32).
 * @param {number} seed a whole number
 * @returns {() => number} gives the next one, from 0 on and below 1
 */
export function randomFrom(seed) {
  let state = seed | 0;
  return () => {
    state = state + 0x6d2b79f5 | 0;
    let mixed = Math.imul(state ^ state >>> 15, 1 | state);
    mixed = mixed + Math.imul(mixed ^ mixed >>> 7, 61 | mixed) ^ mixed;
    return ((mixed ^ mixed >>> 14) >>> 0) / 4294967296;
  };
}

/**
 * Random points of a box.
 * @param {Point} from
 * @param {Point} to
 * @param {number} density the chance of each point, 0 to 1
 * @param {number} seed a whole number
 * @returns {Point[]}
 */
export function random(from, to, density, seed) {
  const next = randomFrom(seed);
  return box(from, to, true).filter(() => next() < density);
}

/**
 * Copies a piece of a torus, over its seams.
 * @param {import('./planes.js').Planes} planes
 * @param {Box} where
 * @returns {Piece}
 */
export function cut(planes, { x, y, width, height }) {
  const cells = new Uint8Array(width * height);
  for (let i = 0; i < cells.length; i++) {
    cells[i] = planes.get(x + i % width, y + Math.floor(i / width));
  }
  return { width, height, cells };
}

/**
 * Puts a piece on a torus, over its seams.
 * @param {import('./planes.js').Planes} planes
 * @param {Piece} piece
 * @param {Point} corner where its upper left cell comes
 * @param {boolean} [isClear] whether cells of state 0 leave what is there
 */
export function place(planes, { width, cells }, [x, y], isClear = false) {
  cells.forEach((state, i) => {
    if (state !== 0 || !isClear) {
      planes.put(x + i % width, y + Math.floor(i / width), state);
    }
  });
}

/**
 * Makes a piece of this size, with the state that the function gives for each cell.
 * @type {(width: number, height: number, stateAt: (x: number, y: number) => number) => Piece}
 */
function makePiece(width, height, stateAt) {
  const cells = Uint8Array.from({ length: width * height }, (_, i) => stateAt(i % width, Math.floor(i / width)));
  return { width, height, cells };
}

/**
 * A piece turned clockwise by a right angle.
 * @param {Piece} piece
 * @returns {Piece}
 */
export function turned({ width, height, cells }) {
  return makePiece(height, width, (x, y) => cells[(height - 1 - x) * width + y]);
}

/**
 * A piece whose left and right have changed places.
 * @param {Piece} piece
 * @returns {Piece}
 */
export function mirrored({ width, height, cells }) {
  return makePiece(width, height, (x, y) => cells[y * width + width - 1 - x]);
}
