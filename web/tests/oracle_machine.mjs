// The oracle of these tests: a machine of cells in arrays, with three rules done cell by cell. It shares nothing with the page's modules.

// A parser of its own, so that a test can count what the page parses.
const { parse } = JSON;

export const PARITY = ': P CENTER NORTH XOR SOUTH XOR WEST XOR EAST XOR >PLN0 ;';
export const BALLS = ': S4 CENTER CW + CCW + OPP + ; : D CENTER OPP = IF CW ELSE CENTER THEN ; : B S4 { CENTER OPP D CENTER CENTER } >PLN0 ;';
export const ECHOES = ': S4 CENTER CW + CCW + OPP + ; : E S4 { CENTER OPP CCW OPP CENTER } >PLN0 ;';

/**
 * @typedef {import('../lines.js').Rule} Rule
 * @typedef {import('../lines.js').Entry} Entry
 * @typedef {import('../lines.js').Saved} Saved
 * @typedef {number[]} Bits cells of a plane: of a row, or of a block, clockwise
 * @typedef {{fault: number, [key: string]: unknown}} Refusal
 */

/** @type {Record<string, (block: Bits) => Bits>} */
const BLOCK_RULES = {
  [BALLS]: block => {
    const n = block[0] + block[1] + block[2] + block[3];
    return block.map((cell, i) => n === 1 ? block[(i + 2) % 4]
      : n === 2 && block[0] === block[2] ? block[(i + 1) % 4] : cell);
  },
  [ECHOES]: block => {
    const n = block[0] + block[1] + block[2] + block[3];
    return block.map((cell, i) => n % 2 === 1 ? block[(i + 2) % 4] : n === 2 ? block[(i + 3) % 4] : cell);
  },
};

/**
 * A row of a plane. Rows are never changed, so that each is read and written as a text once.
 * @type {Map<string, Bits>}
 */
const readRows = new Map();
/** @type {WeakMap<Bits, string>} */
const rowTexts = new WeakMap();

/** @type {(text: string, side: number) => Bits|null} */
function bitsOf(text, side) {
  const bits = readRows.get(text) ?? [...text].flatMap(digit => [3, 2, 1, 0].map(i => parseInt(digit, 16) >> i & 1));
  readRows.set(text, bits);
  return bits.length === side && !bits.some(Number.isNaN) ? bits : null;
}

/** @param {Bits} bits */
function textOf(bits) {
  const text = rowTexts.get(bits) ?? bits.join('').replace(/..../g, four => parseInt(four, 2).toString(16));
  rowTexts.set(bits, text);
  return text;
}

/** @type {(side: number) => Bits[][]} */
const blank = side => [0, 1, 2, 3].map(() => Array(side).fill(bitsOf('0'.repeat(side / 4), side)));

/** A machine by what docs/MANUAL.md says. */
export class OracleMachine {
  colours = Array.from({ length: 16 }, (_, i) => i);
  /** @type {Rule[]} */
  rules = [];
  /** @type {Entry[]} */
  cycle = [];
  position = 0;
  /** @type {string[]} */
  done = [];

  constructor(limit = 512) {
    this.limit = limit;
    this.side = Math.min(256, limit);
    this.planes = blank(this.side);
  }

  /**
   * The reply to a line.
   * @param {string} line
   * @returns {string}
   */
  respond(line) {
    if (Buffer.byteLength(line) > (line.startsWith('{"do":"load",') ? 2097152 : 16384)) {
      return '{"fault":1}';
    }
    let command;
    try {
      command = parse(line);
    } catch {
      return '{"fault":2}';
    }
    const work = Reflect.get(this, `do_${command.do}`);
    if (work === undefined) {
      return '{"fault":3}';
    }
    this.done.push(line);
    const { fault, ...rest } = work.call(this, command, line) ?? {};
    const reply = fault === undefined ? { ...rest, ok: command.do } : { fault, ...rest };
    return JSON.stringify(Object.fromEntries(Object.entries(reply).sort(([a], [b]) => a < b ? -1 : 1)));
  }

  /**
   * Gives a cell a state.
   * @param {number} x
   * @param {number} y
   * @param {number} state
   */
  put(x, y, state) {
    this.planes.forEach((plane, p) => { plane[y] = plane[y].map((bit, at) => at === x ? state >> p & 1 : bit); });
  }

  /** @param {{plane: number, row: number, bits: string}} command @returns {Refusal|void} */
  do_set({ plane, row, bits }) {
    const cells = bitsOf(bits, this.side);
    if (!(plane in this.planes) || row >= this.side || cells === null) {
      return { fault: 65 };
    }
    this.planes[plane][row] = cells;
  }

  /** @param {{plane: number}} command */
  do_clear({ plane }) {
    this.planes[plane] = blank(this.side)[0];
  }

  /** @param {{plane: number, row: number}} command */
  do_row({ plane, row }) {
    return { bits: textOf(this.planes[plane][row]) };
  }

  /** @param {{plane: number}} command */
  do_plane({ plane }) {
    return { rows: this.planes[plane].map(textOf) };
  }

  /** @param {{side: number}} command @returns {Refusal|void} */
  do_side({ side }) {
    if (![128, 256, 512].includes(side)) {
      return { fault: 65 };
    }
    if (side > this.limit) {
      return { fault: 67 };
    }
    Object.assign(this, { side, planes: blank(side), position: 0 });
  }

  /** @param {{colours: number[]}} command */
  do_map({ colours }) {
    this.colours = colours;
  }

  /** @param {{mask: number}} command */
  do_count({ mask }) {
    let count = 0;
    for (let y = 0; y < this.side; y++) {
      for (let x = 0; x < this.side; x++) {
        count += mask >> this.planes.reduce((sum, plane, p) => sum + (plane[y][x] << p), 0) & 1;
      }
    }
    return { count };
  }

  /** @param {string} name */
  isUsed(name) {
    return this.cycle.some(({ a, b }) => a === name || b === name);
  }

  /** @param {Rule} command @returns {Refusal|void} */
  do_rule({ half, hood, minor, name, text }) {
    const at = this.rules.findIndex(rule => rule.name === name);
    if (this.isUsed(name)) {
      return { fault: 61 };
    }
    if (at < 0 && this.rules.length === 16) {
      return { fault: 62 };
    }
    const tokens = text.split(' ');
    const strange = tokens.findIndex(token => token === 'NORTHEAST');
    if (strange >= 0) {
      return { fault: 20, token: strange + 1 };
    }
    this.rules[at < 0 ? this.rules.length : at] = { half, hood, minor, name, text };
  }

  do_rules() {
    return { names: this.rules.map(({ name }) => name) };
  }

  /** @param {{name: string}} command @returns {Refusal|void} */
  do_drop({ name }) {
    const at = this.rules.findIndex(rule => rule.name === name);
    if (at < 0) {
      return { fault: 60 };
    }
    if (this.isUsed(name)) {
      return { fault: 61 };
    }
    this.rules.splice(at, 1);
  }

  /** @param {{entries: Entry[]}} command @returns {Refusal|void} */
  do_cycle({ entries }) {
    for (const { a, b } of entries) {
      for (const [name, half] of [[a, 'A'], [b, 'B']]) {
        const rule = this.rules.find(other => other.name === name);
        if (name !== '-' && (rule === undefined || rule.half !== half)) {
          return { fault: rule === undefined ? 60 : 66 };
        }
      }
    }
    this.cycle = entries.map(({ a, b, grid, phase }) => ({ a, b, grid, phase }));
    this.position = 0;
  }

  /** @param {Entry} entry */
  ruleOf(entry) {
    return this.rules.find(rule => rule.name === entry.a);
  }

  /** @param {Entry} entry @param {boolean} isBack */
  step(entry, isBack) {
    const rule = this.ruleOf(entry);
    if (rule === undefined) {
      return;
    }
    const { side } = this;
    const old = this.planes[0];
    /** @type {(x: number, y: number) => number} */
    const cell = (x, y) => old[(y + side) % side][(x + side) % side];
    if (rule.text === PARITY) {
      /** @param {number} y */
      const isBlank = y => !old[(y + side) % side].includes(1);
      this.planes[0] = old.map((row, y) => isBlank(y - 1) && isBlank(y) && isBlank(y + 1) ? row : row.map((value, x) =>
        value ^ cell(x, y - 1) ^ cell(x, y + 1) ^ cell(x - 1, y) ^ cell(x + 1, y)));
      return;
    }
    const next = old.map(row => row.includes(1) ? [...row] : row);
    const begin = entry.grid === 'ODD' ? 1 : 0;
    for (let y = begin; y < side + begin; y += 2) {
      if (next[y % side] === old[y % side] && next[(y + 1) % side] === old[(y + 1) % side]) {
        continue;
      }
      [y, y + 1].forEach(row => { next[row % side] = [...next[row % side]]; });
      for (let x = begin; x < side + begin; x += 2) {
        const places = [[x, y], [x + 1, y], [x + 1, y + 1], [x, y + 1]];
        const before = places.map(([px, py]) => cell(px, py));
        const block = before.includes(1) ? this.block(rule.text, before, isBack) : before;
        places.forEach(([px, py], i) => { next[py % side][px % side] = block[i]; });
      }
    }
    this.planes[0] = next;
  }

  /** @param {string} text @param {Bits} block @param {boolean} isBack */
  block(text, block, isBack) {
    const rule = BLOCK_RULES[text];
    if (!isBack) {
      return rule(block);
    }
    for (let state = 0; state < 16; state++) {
      const other = [0, 1, 2, 3].map(i => state >> i & 1);
      if (rule(other).join() === block.join()) {
        return other;
      }
    }
    throw new Error('no block before');
  }

  /** @param {{n: number}} command @returns {Refusal | {position: number}} */
  do_run({ n }) {
    if (this.cycle.length === 0) {
      return { fault: 63 };
    }
    for (let i = 0; i < n; i++) {
      this.step(this.cycle[this.position], false);
      this.position = (this.position + 1) % this.cycle.length;
    }
    return { position: this.position };
  }

  /** @param {{n: number}} command @returns {Refusal | {position: number}} */
  do_back({ n }) {
    if (this.cycle.length === 0) {
      return { fault: 63 };
    }
    const entry = this.cycle.findIndex(at => (this.ruleOf(at)?.hood ?? 'N/MARG') === 'N/VONN');
    if (entry >= 0) {
      return { fault: 64, cause: 'hood', entry, half: 'A' };
    }
    for (let i = 0; i < n; i++) {
      this.position = (this.position + this.cycle.length - 1) % this.cycle.length;
      this.step(this.cycle[this.position], true);
    }
    return { position: this.position };
  }

  do_save() {
    const { colours, cycle, position, rules, side } = this;
    const planes = this.planes.map(plane => plane.map(textOf));
    return { machine: { colours, cycle, planes, position, rules, side, version: 2 } };
  }

  /** @param {{machine: Saved}} command @param {string} line @returns {Refusal|void} */
  do_load({ machine }, line) {
    if (JSON.stringify({ do: 'load', machine }) !== line) {
      return { fault: 4 };
    }
    if (!Array.isArray(machine.planes)) {
      return { fault: 3 };
    }
    if (machine.side > this.limit) {
      return { fault: 67 };
    }
    const { colours, cycle, position, rules, side } = machine;
    const planes = machine.planes.map(rows => rows.map(bits => bitsOf(bits, side)));
    Object.assign(this, { colours, cycle, position, rules: [...rules], side, planes });
  }
}
