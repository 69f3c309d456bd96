// Patterns as run-length text, as Golly keeps them.

const MOST_CELLS = 512;
const MOST_STATES = 16;
const LINE_LETTERS = 70;

/** @typedef {keyof typeof SENTENCES} Cause */

const SENTENCES = Object.freeze({
  badHeader: 'The header is not one. Write it as "x = 3, y = 3", with a comma before anything more.',
  unexpected: 'This sign says nothing of cells. Use b and o, or a dot and A to O, with $ after a row and ! at the end.',
  countTooLarge: 'This number is above 512. No torus has so many cells a side.',
  tooWide: 'A row has more cells than the header says, or than the torus has. Correct the header, or use a larger side.',
  tooHigh: 'There are more rows than the header says, or than the torus has. Correct the header, or use a larger side.',
  tooManyStates: 'This state is above 15. A cell has the states 0 to 15 here.',
  noEnd: 'The text ends without "!". Copy all of it.',
});

/** Why a text is no pattern: the first place that is wrong. */
export class PatternFault extends Error {
  /**
   * @param {Cause} cause
   * @param {number} line counted from 1
   * @param {number} column counted from 1
   */
  constructor(cause, line, column) {
    super(`Line ${line}, column ${column}: ${SENTENCES[cause]}`);
    this.name = 'PatternFault';
    this.cause = cause;
    this.line = line;
    this.column = column;
    this.sentence = SENTENCES[cause];
  }
}

/**
 * @typedef {object} Pattern
 * @property {number} width
 * @property {number} height
 * @property {Uint8Array} cells states, row by row
 * @property {string} [rule] the rule that the header names
 * @property {number} [x] where the text says that the upper left corner lies
 * @property {number} [y]
 * @typedef {Omit<Pattern, 'cells'>} Header
 *
 * @typedef {(cause: Cause) => never} Fail throws a fault of the place that is read
 */

/**
 * The size and the rule of a header line. Throws a `PatternFault`.
 * @param {string} line
 * @param {number} number of the line, from 1 on
 * @returns {Header}
 */
function headerOf(line, number) {
  const match = /^[ \t]*x[ \t]*=[ \t]*(\d+)[ \t]*,[ \t]*y[ \t]*=[ \t]*(\d+)[ \t]*(?:,(.*))?$/.exec(line);
  if (match === null) {
    throw new PatternFault('badHeader', number, 1);
  }
  const rule = /(?:^|,)[ \t]*rule[ \t]*=[ \t]*(.*?)[ \t]*$/.exec(match[3] ?? '');
  return { width: Number(match[1]), height: Number(match[2]), ...rule === null ? {} : { rule: rule[1] } };
}

/**
 * The upper left corner that a remark gives, as x and y, or an empty object.
 * @param {string} remark
 */
function cornerOf(remark) {
  const match = /^#CXRLE .*?Pos=(-?\d+),(-?\d+)/.exec(remark) ?? /^#[PR] (-?\d+) (-?\d+)/.exec(remark);
  return match === null ? {} : { x: Number(match[1]), y: Number(match[2]) };
}

/**
 * The state of a sign, 0 to 24, or -1 if it has none.
 * @param {string} sign
 */
function stateOf(sign) {
  return sign === 'b' || sign === '.' ? 0 : sign === 'o' ? 1
    : sign >= 'A' && sign <= 'X' ? sign.charCodeAt(0) - 64 : -1;
}

class Body {
  /** @type {number[][]} */
  rows = [[]];
  /** @type {number|null} */
  count = null;
  isOver = false;

  /** @param {number} width @param {number} height */
  constructor(width, height) {
    this.width = width;
    this.height = height;
  }

  /** @returns {number[]} the last row */
  get row() {
    return this.rows[this.rows.length - 1];
  }

  /**
   * Reads a sign of the cells: a digit of a count, a state, the end of a row, or of all.
   * @param {string} sign
   * @param {Fail} fail
   */
  sign(sign, fail) {
    if (sign >= '0' && sign <= '9') {
      this.count = 10 * (this.count ?? 0) + Number(sign);
      return this.count > MOST_CELLS && fail('countTooLarge');
    }
    const times = this.count ?? 1;
    const isCounted = this.count !== null;
    this.count = null;
    if (sign === '$') {
      return this.endRows(times, fail);
    }
    if (/[! \t\r\n]/.test(sign)) {
      this.isOver = sign === '!';
      return isCounted && fail('unexpected');
    }
    return this.putCells(stateOf(sign), times, fail);
  }

  /**
   * Begins so many new rows.
   * @param {number} times
   * @param {Fail} fail
   */
  endRows(times, fail) {
    for (let i = 0; i < times; i++) {
      this.rows.push([]);
    }
    return this.rows.length - 1 > this.height && fail('tooHigh');
  }

  /**
   * Puts so many cells of a state into the last row.
   * @param {number} state
   * @param {number} times
   * @param {Fail} fail
   */
  putCells(state, times, fail) {
    const { row } = this;
    return state < 0 && fail('unexpected')
      || state >= MOST_STATES && fail('tooManyStates')
      || row.length + times > this.width && fail('tooWide')
      || this.rows.length > this.height && fail('tooHigh')
      || void row.push(...Array(times).fill(state));
  }
}

/**
 * The pattern of these rows, which fit the header's width and height, filled up with state 0. It has the header's
 * other members too.
 * @param {number[][]} rows
 * @param {Header} header
 */
function patternOf(rows, { width, height, ...rest }) {
  const cells = new Uint8Array(width * height);
  rows.forEach((row, y) => cells.set(row, y * width));
  return { width, height, cells, ...rest };
}

/**
 * Reads run-length text, with a header or without one.
 * @param {string} text which ends with `!`; what follows is not read
 * @param {number} [side] the most cells a side
 * @returns {Pattern}
 * @throws {PatternFault}
 */
export function read(text, side = MOST_CELLS) {
  const all = text.replace(/\n$/, '').split('\n');
  /** @type {Partial<Header>} */
  let head = {};
  /** @type {Body|null} */
  let body = null;
  for (const [i, line] of all.entries()) {
    /** @type {(cause: Cause, column: number) => never} */
    const fail = (cause, column) => { throw new PatternFault(cause, i + 1, column); };
    if (body === null && (line.startsWith('#') || line.trim() === '')) {
      head = { ...head, ...line.startsWith('#') ? cornerOf(line) : {} };
    } else if (body === null && /^[ \t]*x/.test(line)) {
      const header = headerOf(line.trimEnd(), i + 1);
      const cause = header.width > side ? 'tooWide' : header.height > side ? 'tooHigh' : null;
      cause === null || fail(cause, 1);
      head = { ...head, ...header };
      body = new Body(header.width, header.height);
    } else {
      body ??= new Body(side, side);
      for (const [column, sign] of [...line, '\n'].entries()) {
        body.sign(sign, cause => fail(cause, column + 1));
        if (body.isOver) {
          const { rows, row: { length } } = body;
          const last = length === 0 ? rows.length - 1 : rows.length;
          const size = { width: Math.max(1, ...rows.map(row => row.length)), height: Math.max(1, last) };
          return patternOf(rows.slice(0, last), { ...size, ...head });
        }
      }
    }
  }
  throw new PatternFault('noEnd', all.length, 1);
}

/**
 * A row as texts, one for each run of equal states, without the zeros at its end; an empty array for a blank row.
 * @param {Uint8Array} row
 * @param {boolean} isTwoState
 */
function runsOf(row, isTwoState) {
  /** @param {number} state */
  const letter = state => isTwoState ? 'bo'[state] : state === 0 ? '.' : String.fromCharCode(64 + state);
  const runs = [];
  const end = row.findLastIndex(state => state !== 0) + 1;
  for (let x = 0; x < end;) {
    let next = x + 1;
    while (next < end && row[next] === row[x]) {
      next++;
    }
    runs.push(lettersOfRun(next - x, letter(row[x])));
    x = next;
  }
  return runs;
}

/**
 * A run of equal letters: its length, if above 1, and the letter.
 * @type {(times: number, letter: string) => string}
 */
const lettersOfRun = (times, letter) => times === 1 ? letter : `${times}${letter}`;

/**
 * Writes run-length text with a header: with b and o if no state is above 1, else with a dot and A to O.
 * @param {Uint8Array} cells states, row by row
 * @param {number} width
 * @param {number} height
 * @param {string} [rule] the name of a rule for the header
 * @returns {string}
 */
export function write(cells, width, height, rule = '') {
  const isTwoState = cells.every(state => state < 2);
  const parts = [];
  let ends = 0;
  for (let y = 0; y < height; y++) {
    const runs = runsOf(cells.subarray(y * width, (y + 1) * width), isTwoState);
    if (runs.length > 0) {
      parts.push(...ends > 0 ? [lettersOfRun(ends, '$')] : [], ...runs);
      ends = 0;
    }
    ends++;
  }
  const lines = [''];
  for (const part of [...parts, '!']) {
    if (lines[lines.length - 1].length + part.length > LINE_LETTERS) {
      lines.push('');
    }
    lines[lines.length - 1] += part;
  }
  return `x = ${width}, y = ${height}${rule === '' ? '' : `, rule = ${rule}`}\n${lines.join('\n')}\n`;
}
