// Time: run, pause, step, back, the speed dial, and the way to any step since the first state.

import { announce, at, element, first, grouped, joinClicks, numberOf, setPressed, setText } from './dom.js';
import { Pace, positionOf, stepsASecond } from './dial.js';

const MOST_UNDER_WAY = 2;       // frames that the machine is asked for at once
const SLOW = 0.8;               // the share of the steps below which the page says that it is slow
const MEASURED = 4;             // steps a second from which on the page says so

/** The bar of time. */
export class Controls {
  /**
   * @param {import('./machine.js').Machine} machine
   * @param {(error: unknown) => void} fail shows why something wasn't done
   * @param {() => unknown} before what is to be done before a step, as to put down a piece that floats
   */
  constructor(machine, fail, before) {
    this.machine = machine;
    this.fail = fail;
    this.before = before;
    this.fields = {
      dial: element('dial', HTMLInputElement),
      each: element('each', HTMLInputElement),
      scrubber: element('scrubber', HTMLInputElement),
    };
    /** Which way time runs: 0 if it stands still. */
    this.way = 0;
    /** The half of the dial that it stands in. */
    this.side = 1;
    /** Whether each step inverts the torus. */
    this.flashes = false;
    this.held = 0;
    /** @type {Set<Promise<unknown>>} */
    this.underWay = new Set();
    this.pace = new Pace();
    this.last = 0;
    /** @type {{when: number, steps: number}[]} the frames of the last second: when each was shown, and its steps */
    this.shown = [];
    this.bounds = { low: 0, high: 0 };
    /** The half second that was measured last, and for how many of them the machine was too slow. */
    this.measured = -1;
    this.slowFor = 0;
    /** @type {number|null} the steps of the last second, if the machine can't keep up */
    this.reached = null;
    /** @type {number|null} the step that the scrubber goes to */
    this.target = null;
    this.listen();
    requestAnimationFrame(now => this.tick(now));
  }

  /** Joins the buttons. */
  listen() {
    joinClicks({
      run: () => this.toggle(Math.sign(this.dial) || 1),
      'run-back': () => this.toggle(-1),
      step: () => this.step(1),
      back: () => this.step(-1),
      start: () => this.seek(0),
    });
    const { dial, each, scrubber } = this.fields;
    dial.addEventListener('input', () => this.turned());
    each.addEventListener('input', () => this.eachChanged());
    each.addEventListener('change', () => this.setEach(numberOf(each)));
    for (const type of ['input', 'change']) {
      scrubber.addEventListener(type, () => this.seek(Number(scrubber.value)));
    }
  }

  /** @returns {number} where the dial stands: from -1, the fastest way back, to 1 */
  get dial() {
    return Number(this.fields.dial.value);
  }

  /** @returns {number} steps a frame, by its field; rounded up to an even number if steps flash */
  get each() {
    const each = numberOf(this.fields.each);
    return this.flashes ? each + each % 2 : each;
  }

  /** @returns {number} the fewest steps that a frame may have: 2 if each step inverts the torus, else 1 */
  get least() {
    return this.flashes ? 2 : 1;
  }

  /**
   * Sets the field of steps a frame, within its bounds, and takes it. The dial turns as `eachChanged` says.
   * @param {number} each steps a frame; frames have more if the dial stands high
   */
  setEach(each) {
    this.fields.each.value = String(each);
    this.fields.each.value = String(this.each);
    this.eachChanged();
  }

  /**
   * Takes the steps a frame from their field. The dial turns so that as many frames a second come as before.
   * It stays if it is so fast that frames already have more steps than the field said.
   */
  eachChanged() {
    const { pace, each } = this;
    if (pace.stepsAFrame === pace.each && each !== pace.each) {
      const speed = Math.abs(pace.speed) / pace.each * each;
      this.fields.dial.value = String(Math.sign(this.dial) * positionOf(speed));
    }
    this.turned();
  }

  /**
   * Turns the dial forwards so that this many frames a second come.
   * @param {number} rate
   */
  setRate(rate) {
    this.fields.dial.value = String(positionOf(rate * this.each));
    this.turned();
  }

  /**
   * Sets whether steps flash. If so, each frame has an even number of steps, and a warning is shown.
   * @param {boolean} flashes whether each step inverts the torus
   */
  setFlashes(flashes) {
    this.flashes = flashes;
    Object.assign(this.fields.each, { min: this.least, step: this.least });
    at('warning').hidden = !flashes;
    this.setEach(this.each);
  }

  /** Makes the scrubber reach from 0 to the machine's count and no further. Its range stays during a seek. */
  begin() {
    if (this.target === null) {
      this.bounds = { low: Math.min(0, this.machine.count), high: Math.max(0, this.machine.count) };
    }
    this.tell();
  }

  /**
   * Runs that way, or pauses if it does so already.
   * @param {number} way 1 forwards, -1 back
   */
  toggle(way) {
    if (this.way === way) {
      this.pause();
      return;
    }
    this.before();
    this.way = way;
    this.pace.rest();
    announce(way < 0 ? 'Runs back' : 'Runs');
    this.tell();
  }

  /** Begins no more frames. Those under way still end. */
  pause() {
    if (this.way !== 0) {
      this.way = 0;
      announce(`Paused at step ${this.machine.count}`);
    }
    this.tell();
  }

  /** The dial was turned: if it was turned over its middle while time runs, time turns too. */
  turned() {
    const side = Math.sign(this.dial);
    if (this.way !== 0 && side !== 0 && side !== this.side) {
      this.way = side;
    }
    this.side = side || this.side;
    this.tell();
  }

  /**
   * Turns the dial by so much.
   * @param {number} by a part of one half of the dial; below 0 to the left
   */
  turn(by) {
    this.fields.dial.value = String(this.dial + by);
    this.turned();
  }

  /**
   * Pauses, and does some steps or undoes them. Resolves after that; a fault is shown.
   * @param {number} steps below 0 to undo
   */
  async step(steps) {
    this.pause();
    await this.before();
    await this.follow(steps < 0 ? this.machine.back(-steps) : this.machine.run(steps), Math.abs(steps));
  }

  /**
   * Does some steps as a frame. The machine does none if two frames or a command are under way.
   * @param {number} steps below 0 to undo
   */
  frame(steps) {
    return this.follow(this.machine.frame(steps), Math.abs(steps));
  }

  /**
   * Waits for steps, and counts them as one frame. If they fail, pauses and shows why.
   * @param {Promise<unknown>} done
   * @param {number} steps how many, either way; above 0
   */
  async follow(done, steps) {
    this.underWay.add(done);
    try {
      await done;
      this.shown.push({ when: performance.now(), steps });
    } catch (error) {
      this.pause();
      this.fail(error);
    } finally {
      this.underWay.delete(done);
    }
  }

  /**
   * Lets no more frames begin before `release`. Waits for the steps under way if the machine is ready.
   * Each call needs a `release` of its own.
   * @returns {Promise<void>}
   */
  async hold() {
    this.held++;
    if (this.machine.state === 'ready') {
      await Promise.allSettled(this.underWay);
    }
  }

  /** Ends one `hold`. Frames begin again after all are ended. */
  release() {
    this.held--;
  }

  /**
   * Pauses and goes to a step. A call during another one only sets its goal and resolves at once.
   * A fault is shown. If steps flash, an odd count becomes the even one next to it, towards 0.
   * @param {number} count steps since the first state
   */
  async seek(count) {
    const isUnderWay = this.target !== null;
    this.target = this.flashes ? count - count % 2 : count;
    if (isUnderWay) {
      return;
    }
    this.pause();
    await this.before();
    await this.hold();
    try {
      while (this.target !== this.machine.count) {
        await this.machine.goTo(this.target);
      }
    } catch (error) {
      this.fail(error);
    } finally {
      this.target = null;
      this.release();
      this.tell();
    }
  }

  /**
   * Begins a frame if one is due, and does so again at each frame of the screen.
   * @param {number} now in milliseconds
   */
  tick(now) {
    const { pace } = this;
    const isRunning = this.way !== 0 && this.held === 0 && this.machine.state === 'ready';
    if (isRunning && this.underWay.size < MOST_UNDER_WAY) {
      const steps = pace.framesFor(now - this.last);
      if (steps !== 0) {
        this.frame(steps);
      }
      this.last = now;
    } else if (!isRunning) {
      this.last = now;
    }
    this.measure(now, isRunning ? Math.abs(pace.speed) : 0);
    requestAnimationFrame(next => this.tick(next));
  }

  /**
   * Shows each half second how many frames came in the last second, and whether the machine is too slow.
   * @param {number} now in milliseconds
   * @param {number} wanted how many steps a second there should be
   */
  measure(now, wanted) {
    this.shown = this.shown.filter(({ when }) => when > now - 1000);
    if (Math.floor(now / 500) === this.measured) {
      return;
    }
    this.measured = Math.floor(now / 500);
    const steps = this.shown.reduce((sum, frame) => sum + frame.steps, 0);
    this.slowFor = wanted > MEASURED && steps < SLOW * wanted ? this.slowFor + 1 : 0;
    this.reached = this.slowFor > 3 ? steps : null;
    setText(at('frames'), this.shown.length);
    at('frames').classList.toggle('is-slow', this.reached !== null);
    this.tellWay();
  }

  /** Shows the count, the position and which way time goes. The scrubber's range grows to the count. */
  tell() {
    const { count, position, entries } = this.machine;
    const { bounds } = this;
    bounds.low = Math.min(bounds.low, count);
    bounds.high = Math.max(bounds.high, count);
    setText(at('count'), grouped(count));
    setText(at('position'), entries.length > 0 ? `${position} of ${entries.length}` : '-');
    const { scrubber } = this.fields;
    Object.assign(scrubber, { min: bounds.low, max: bounds.high });
    if (this.target === null) {
      scrubber.value = String(count);
    }
    setText(at('scrubber-first'), grouped(bounds.low));
    setText(at('scrubber-last'), grouped(bounds.high));
    this.tellWay();
  }

  /** Gives the pace its speed by the dial, and shows which way time goes, and how fast. */
  tellWay() {
    const { way, pace, reached } = this;
    pace.each = this.each;
    pace.speed = (way || Math.sign(this.dial)) * Math.abs(stepsASecond(this.dial));
    const run = at('run');
    const isRunning = way !== 0 && (way > 0 || this.dial < 0);
    setPressed(run, isRunning);
    setPressed(at('run-back'), way < 0);
    setText(first(run, 'span'), isRunning ? 'Pause' : 'Run');
    run.querySelector('use')?.setAttribute('href', isRunning ? '#i-pause' : '#i-run');
    const steps = Math.abs(pace.speed);
    const rounded = steps < 10 ? Number(steps.toFixed(1)) : Math.round(steps);
    const speed = steps === 0 ? 'stands still' : `${grouped(rounded)} steps/s`;
    const text = reached !== null ? `${grouped(reached)} of ${speed}` : this.dial < 0 ? `back, ${speed}` : speed;
    setText(at('dial-says'), text);
    at('dial-says').title = reached !== null ? "The machine can't keep up with the speed." : '';
    this.fields.dial.setAttribute('aria-valuetext', text);
  }
}
