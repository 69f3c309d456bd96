// The order of what the user asks for: one command at a time, and frames only if no command waits.

/** Commands and frames that take turns. */
export class Queue {
  /** @type {Promise<unknown>} */
  #last = Promise.resolve();
  #commands = 0;
  /** @type {Set<Promise<unknown>>} */
  #frames = new Set();
  #mostFrames;

  /** @param {number} [mostFrames] frames that may be under way at a time */
  constructor(mostFrames = 2) {
    this.#mostFrames = mostFrames;
  }

  /** @returns {number} frames that are under way */
  get framesUnderWay() {
    return this.#frames.size;
  }

  /** @returns {boolean} whether nothing is under way and nothing waits */
  get isIdle() {
    return this.#commands === 0 && this.#frames.size === 0;
  }

  /**
   * Does a command after those before it, and after the frames that are under way. Settles as its work does.
   * @template T
   * @param {() => Promise<T>} work
   * @returns {Promise<T>}
   */
  command(work) {
    this.#commands++;
    const frames = [...this.#frames];
    const done = this.#last.then(() => Promise.allSettled(frames)).then(work).finally(() => { this.#commands--; });
    this.#last = done.catch(() => {});
    return done;
  }

  /**
   * Begins a frame at once, unless a command waits or is under way or there are enough frames.
   * @template T
   * @param {() => Promise<T>} work
   * @returns {Promise<T> | null} null if it was not begun
   */
  frame(work) {
    if (this.#commands > 0 || this.#frames.size >= this.#mostFrames) {
      return null;
    }
    /** @type {Promise<T>} */
    const done = work().finally(() => { this.#frames.delete(done); });
    this.#frames.add(done);
    return done;
  }

  /**
   * Waits until nothing is under way.
   * @returns {Promise<void>}
   */
  async idle() {
    while (!this.isIdle) {
      await Promise.allSettled([this.#last, ...this.#frames]);
    }
  }
}
