// Mouse, pen and fingers over the torus: strokes of a tool, moving the view, the wheel, and two fingers.

const WHEEL_STEP = 60;      // pixels of a wheel that make one step of zoom
const WHEEL_LINE = 30;      // pixels that a line of a wheel counts

/**
 * @typedef {import('./shapes.js').Point} Point
 * @typedef {{movesView: boolean, start(at: Point, event: PointerEvent): void, move(at: Point): void, end(): void,
 *   cancel(): void, hover(at: Point|null): void}} Handler what strokes of one pointer do
 */

/** Joins a canvas to a handler of strokes, and moves the view itself. */
export class Gestures {
  /**
   * @param {import('./torus.js').Torus} torus
   * @param {Handler} handler
   */
  constructor(torus, handler) {
    this.torus = torus;
    this.handler = handler;
    /** @type {Map<number, {x: number, y: number}>} where each pointer is that is down, in pixels of the canvas */
    this.pointers = new Map();
    /** @type {'none'|'stroke'|'view'} */
    this.mode = 'none';
    this.turned = 0;
    const { canvas } = torus;
    canvas.addEventListener('pointerdown', event => this.down(event));
    canvas.addEventListener('pointermove', event => this.moved(event));
    canvas.addEventListener('pointerup', event => this.up(event, true));
    canvas.addEventListener('pointercancel', event => this.up(event, false));
    canvas.addEventListener('pointerleave', () => handler.hover(null));
    canvas.addEventListener('contextmenu', event => event.preventDefault());
    canvas.addEventListener('wheel', event => this.wheel(event), { passive: false });
  }

  /**
   * Begins a stroke, or moves of the view if there are two pointers or another button.
   * @param {PointerEvent} event
   */
  down(event) {
    const { torus, handler, pointers } = this;
    torus.canvas.focus({ preventScroll: true });
    torus.canvas.setPointerCapture?.(event.pointerId);
    pointers.set(event.pointerId, torus.pixelOf(event));
    if (pointers.size > 1) {
      if (this.mode === 'stroke') {
        handler.cancel();
      }
      this.mode = 'view';
    } else if (event.button !== 0 || handler.movesView) {
      this.mode = 'view';
    } else {
      this.mode = 'stroke';
      handler.start(torus.cellOf(event), event);
    }
    torus.canvas.classList.toggle('is-moved', this.mode === 'view');
    event.preventDefault();
  }

  /**
   * Goes on with the stroke, or with the move of the view.
   * @param {PointerEvent} event
   */
  moved(event) {
    const { torus, handler, pointers } = this;
    handler.hover(torus.cellOf(event));
    if (!pointers.has(event.pointerId)) {
      return;
    }
    if (this.mode === 'stroke') {
      handler.move(torus.cellOf(event));
    } else if (this.mode === 'view') {
      this.moveView(event);
    }
  }

  /**
   * One pointer moves the view. Two also make it larger or smaller.
   * @param {PointerEvent} event
   */
  moveView(event) {
    const { torus, pointers } = this;
    const spread = () => {
      const [first, second = first] = pointers.values();
      const length = Math.hypot(second.x - first.x, second.y - first.y);
      return { x: (first.x + second.x) / 2, y: (first.y + second.y) / 2, length };
    };
    const before = spread();
    pointers.set(event.pointerId, torus.pixelOf(event));
    const after = spread();
    torus.view.move(after.x - before.x, after.y - before.y);
    if (pointers.size > 1 && before.length > 0) {
      torus.view.zoomAt(after.length / before.length, after.x, after.y);
    }
    torus.moved();
  }

  /**
   * Ends the stroke, or the move of the view.
   * @param {PointerEvent} event
   * @param {boolean} isWhole whether the pointer went up, and wasn't taken away
   */
  up(event, isWhole) {
    if (!this.pointers.delete(event.pointerId)) {
      return;
    }
    if (this.mode === 'stroke') {
      isWhole ? this.handler.end() : this.handler.cancel();
    }
    if (this.pointers.size === 0) {
      this.mode = 'none';
      this.torus.canvas.classList.remove('is-moved');
    }
  }

  /**
   * Zooms the view at the pointer: by whole steps, or with Ctrl by any factor.
   * @param {WheelEvent} event
   */
  wheel(event) {
    event.preventDefault();
    const { torus } = this;
    const pixel = torus.pixelOf(event);
    const turned = event.deltaY * (event.deltaMode === 0 ? 1 : WHEEL_LINE);
    if (event.ctrlKey) {
      torus.view.zoomAt(Math.exp(-turned / 100), pixel.x, pixel.y);
    } else {
      this.turned += turned;
      while (Math.abs(this.turned) >= WHEEL_STEP) {
        torus.view.zoomStep(-Math.sign(this.turned), pixel.x, pixel.y);
        this.turned -= Math.sign(this.turned) * WHEEL_STEP;
      }
    }
    torus.moved();
  }
}
