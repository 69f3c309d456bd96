// The cells of a torus: four bit planes, kept as a state of 0 to 15 for each cell.

/**
 * What each hexadecimal digit is as four cells, a byte for each: by the digit's code. Bytes are 0 or 1.
 * @returns {Uint32Array}
 */
function spreadDigits() {
  const table = new Uint32Array(256);
  const bytes = new Uint8Array(table.buffer);
  for (let value = 0; value < 16; value++) {
    const digit = value.toString(16);
    for (const code of [digit.charCodeAt(0), digit.toUpperCase().charCodeAt(0)]) {
      for (let i = 0; i < 4; i++) {
        bytes[4 * code + i] = value >> (3 - i) & 1;
      }
    }
  }
  return table;
}

const SPREAD = spreadDigits();

/** The cells of a machine. */
export class Planes {
  /** @param {number} side 128, 256 or 512 */
  constructor(side) {
    /** @type {number} */
    this.side = side;
    /** @type {Uint8Array} states 0 to 15, row by row */
    this.cells = new Uint8Array(side * side);
    this.words = new Uint32Array(this.cells.buffer);
  }

  /**
   * Writes a row of a plane.
   * @param {number} plane 0 to 3
   * @param {number} y
   * @param {string} bits a hexadecimal digit for each four cells, the leftmost cell in the highest bit
   */
  setRow(plane, y, bits) {
    const keep = ~(0x01010101 << plane);
    const start = y * this.side / 4;
    const digits = this.side / 4;
    for (let i = 0; i < digits; i++) {
      this.words[start + i] = this.words[start + i] & keep | SPREAD[bits.charCodeAt(i) & 255] << plane;
    }
  }

  /**
   * Writes all rows of a plane.
   * @param {number} plane 0 to 3
   * @param {string[]} rows
   */
  setPlane(plane, rows) {
    for (let y = 0; y < this.side; y++) {
      this.setRow(plane, y, rows[y]);
    }
  }

  /**
   * A row of a plane in hexadecimal digits.
   * @param {number} plane 0 to 3
   * @param {number} y
   * @returns {string}
   */
  rowOf(plane, y) {
    const cells = this.cells;
    let bits = '';
    for (let i = y * this.side; i < (y + 1) * this.side; i += 4) {
      const digit = (cells[i] >> plane & 1) << 3 | (cells[i + 1] >> plane & 1) << 2
        | (cells[i + 2] >> plane & 1) << 1 | cells[i + 3] >> plane & 1;
      bits += '0123456789abcdef'[digit];
    }
    return bits;
  }

  /**
   * Where a cell stands in `cells`. Both numbers wrap round the torus.
   * @param {number} x
   * @param {number} y
   * @returns {number}
   */
  indexOf(x, y) {
    const mask = this.side - 1;
    return (y & mask) * this.side + (x & mask);
  }

  /**
   * The state of a cell. Both numbers wrap round the torus.
   * @param {number} x
   * @param {number} y
   * @returns {number}
   */
  get(x, y) {
    return this.cells[this.indexOf(x, y)];
  }

  /**
   * Gives a cell a state. Both numbers wrap round the torus.
   * @param {number} x
   * @param {number} y
   * @param {number} state 0 to 15
   */
  put(x, y, state) {
    this.cells[this.indexOf(x, y)] = state;
  }

  /**
   * The same cells once more.
   * @returns {Planes}
   */
  clone() {
    const copy = new Planes(this.side);
    copy.cells.set(this.cells);
    return copy;
  }

  /**
   * The rows of these planes that differ from those of others.
   * @param {Planes} other of the same side
   * @returns {{plane: number, row: number, bits: string}[]} with the bits of these planes
   */
  rowsThatDiffer(other) {
    const found = [];
    const width = this.side / 4;
    for (let row = 0; row < this.side; row++) {
      let differ = 0;
      for (let i = row * width; i < (row + 1) * width; i++) {
        differ |= this.words[i] ^ other.words[i];
      }
      for (let plane = 0; differ !== 0 && plane < 4; plane++) {
        if (differ & 0x01010101 << plane) {
          found.push({ plane, row, bits: this.rowOf(plane, row) });
        }
      }
    }
    return found;
  }

  /**
   * Whether no cell of a plane is set.
   * @param {number} plane 0 to 3
   * @returns {boolean}
   */
  isBlank(plane) {
    const mask = 0x01010101 << plane;
    return this.words.every(word => (word & mask) === 0);
  }

  /**
   * Gives each cell that others changed the state that they gave it.
   * @param {Planes} base what the others began with
   * @param {Planes} edited what they made of it
   */
  takeChanges(base, edited) {
    for (let i = 0; i < this.cells.length; i++) {
      if (base.cells[i] !== edited.cells[i]) {
        this.cells[i] = edited.cells[i];
      }
    }
  }
}
