// Which part of the torus is seen, and how large. Lengths are pixels of the canvas.
//
// The square of one torus round the middle is shown bright. What lies beyond it is the same torus again.

const SMALLEST = 0.25;
const LARGEST = 96;

/** A window on a torus. */
export class View {
  /** @param {number} side cells a side */
  constructor(side) {
    this.side = side;
    /** The cell in the middle of the window; it may be a fraction. */
    this.x = side / 2;
    this.y = side / 2;
    /** The pixels a cell that are wished for. `scale` has those that are shown. */
    this.zoom = 4;
    this.width = 1;
    this.height = 1;
  }

  /** @returns {number} pixels a cell: whole from 1 on, so that all cells are equal and sharp */
  get scale() {
    return this.zoom < 1 ? this.zoom : Math.round(this.zoom);
  }

  /** @returns {{left: number, top: number}} the pixel of the upper left corner of cell (0, 0), whole */
  get origin() {
    return {
      left: Math.round(this.width / 2 - this.x * this.scale),
      top: Math.round(this.height / 2 - this.y * this.scale),
    };
  }

  /**
   * The place on the torus, not wrapped, of a pixel: in cells, with fractions.
   * @param {number} pixelX
   * @param {number} pixelY
   * @returns {{x: number, y: number}}
   */
  placeOf(pixelX, pixelY) {
    const { left, top } = this.origin;
    return { x: (pixelX - left) / this.scale, y: (pixelY - top) / this.scale };
  }

  /** Shows the whole torus, as large as it goes. */
  fit() {
    const wanted = Math.min(this.width, this.height) / this.side;
    this.zoom = Math.max(SMALLEST, wanted < 1 ? wanted : Math.floor(wanted));
  }

  /**
   * Moves a place to the middle. Both numbers wrap round the torus and may be fractions.
   * @param {number} x
   * @param {number} y
   */
  centre(x, y) {
    this.x = (x % this.side + this.side) % this.side;
    this.y = (y % this.side + this.side) % this.side;
  }

  /**
   * Moves what is seen by so many pixels.
   * @param {number} byX
   * @param {number} byY
   */
  move(byX, byY) {
    this.centre(this.x - byX / this.scale, this.y - byY / this.scale);
  }

  /**
   * Makes cells larger or smaller. The place under the pixel stays there.
   * @param {number} factor
   * @param {number} pixelX
   * @param {number} pixelY
   */
  zoomAt(factor, pixelX, pixelY) {
    const held = this.placeOf(pixelX, pixelY);
    this.zoom = Math.min(LARGEST, Math.max(SMALLEST, this.zoom * factor));
    this.centre(held.x - (pixelX - this.width / 2) / this.scale, held.y - (pixelY - this.height / 2) / this.scale);
  }

  /**
   * The next larger or smaller whole zoom, at a pixel.
   * @param {number} direction 1 for larger cells, -1 for smaller ones
   * @param {number} pixelX
   * @param {number} pixelY
   */
  zoomStep(direction, pixelX, pixelY) {
    const now = this.scale;
    let next = direction > 0 ? Math.max(now * 1.25, now + 1) : Math.min(now / 1.25, now - 1);
    if (now <= 1 && direction < 0 || now < 1) {
      next = direction > 0 ? Math.min(1, now * 1.5) : now / 1.5;
    }
    this.zoomAt(next / this.zoom, pixelX, pixelY);
  }

  /**
   * The upper left pixels of all copies of the torus that are seen.
   * @returns {{left: number, top: number}[]}
   */
  copies() {
    const size = this.side * this.scale;
    const { left, top } = this.origin;
    const found = [];
    for (let y = top - Math.ceil(top / size) * size; y < this.height; y += size) {
      for (let x = left - Math.ceil(left / size) * size; x < this.width; x += size) {
        found.push({ left: x, top: y });
      }
    }
    return found;
  }

  /**
   * The square of one torus round the middle.
   * @returns {{left: number, top: number, size: number}}
   */
  square() {
    const size = this.side * this.scale;
    return { left: Math.round((this.width - size) / 2), top: Math.round((this.height - size) / 2), size };
  }
}

/**
 * The middle of what is drawn along one line of the torus: opposite to the middle of the widest gap.
 * It may be a fraction, and is the middle of the line if all is used or nothing.
 * @param {ArrayLike<unknown>} isUsed whether each column, or each row, has a cell
 * @returns {number}
 */
export function middleOf(isUsed) {
  const side = isUsed.length;
  let widest = 0;
  let end = 0;
  let gap = 0;
  for (let i = 0; i < 2 * side; i++) {
    gap = isUsed[i % side] ? 0 : gap + 1;
    if (gap > widest && gap <= side) {
      widest = gap;
      end = i;
    }
  }
  return widest === 0 || widest === side ? side / 2 : (end + 1 + (side - widest) / 2) % side;
}
