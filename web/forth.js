// The language of rules: its tokens, its words and what a cell sees.

/**
 * @typedef {import('./lines.js').Body} Body
 * @typedef {{text: string, start: number, end: number}} Place a part of a text, and where it stands
 * @typedef {Place & {isComment: boolean}} Token
 */

/**
 * The tokens of a text, as the machine counts them: those of comments count too. Token n of a fault is the n-th,
 * counted from 1. A token after the last one stands for the text's end.
 * @param {string} text
 * @returns {Token[]}
 */
export function tokens(text) {
  let isComment = false;
  return [...text.matchAll(/[^ \t\r\n]+/g)].map(match => {
    const [text] = match;
    const start = match.index ?? 0;
    const token = { text, start, end: start + text.length, isComment };
    if (isComment) {
      isComment = !token.text.endsWith(')');
    } else if (token.text === '(') {
      token.isComment = true;
      isComment = true;
    }
    return token;
  });
}

/**
 * Where the token of a fault stands in a text, or the text's end if no token has this number.
 * @param {string} text
 * @param {number} number counted from 1; 0 stands for the whole text
 * @returns {Place}
 */
export function tokenAt(text, number) {
  if (number === 0) {
    return { text: '', start: 0, end: text.length };
  }
  return tokens(text)[number - 1] ?? { text: '', start: text.length, end: text.length };
}

const BLOCKS = ['CENTER', "CENTER'", 'CW', 'CCW', 'OPP', "CW'", "CCW'", "OPP'"];
const CROSS = ['CENTER', "CENTER'", 'NORTH', 'SOUTH', 'WEST', 'EAST'];

/** @type {Readonly<Record<string, string[]>>} the names of each neighbourhood, by the bit of the address */
export const HOODS = Object.freeze({
  'N/MOORE': [...CROSS, 'N.WEST', 'N.EAST', 'S.WEST', 'S.EAST'],
  'N/VONN': [...CROSS, "NORTH'", "SOUTH'", "WEST'", "EAST'"],
  'N/MARG': BLOCKS,
  'N/MARG-PH': [...BLOCKS, 'PHASE', "PHASE'"],
  'N/MARG-HV': [...BLOCKS, 'HORZ', 'VERT'],
});

/** @type {Readonly<Record<string, string[]>>} the names of each minor assignment, of the bits 10 and 11 of the address */
export const MINORS = Object.freeze({
  '&/CENTERS': ['&CENTER', "&CENTER'"],
  '&/PHASES': ['&PHASE', "&PHASE'"],
  '&/HV': ['&HORZ', '&VERT'],
});

/** @type {Readonly<Record<string, string>>} */
const SEEN = Object.freeze({
  CENTER: 'The cell itself.',
  NORTH: 'The cell above.',
  SOUTH: 'The cell below.',
  WEST: 'The cell to the left.',
  EAST: 'The cell to the right.',
  'N.WEST': 'The cell above on the left.',
  'N.EAST': 'The cell above on the right.',
  'S.WEST': 'The cell below on the left.',
  'S.EAST': 'The cell below on the right.',
  CW: 'The cell one corner further clockwise in the block.',
  CCW: 'The cell one corner further counterclockwise in the block.',
  OPP: 'The opposite cell of the block.',
  HORZ: "1 in the block's right column.",
  VERT: "1 in the block's lower row.",
  '&HORZ': "1 in the block's right column.",
  '&VERT': "1 in the block's lower row.",
  PHASE: "The low bit of the entry's phase.",
  "PHASE'": "The high bit of the entry's phase.",
  '&PHASE': "The low bit of the entry's phase.",
  "&PHASE'": "The high bit of the entry's phase.",
});

/**
 * What a cell sees under a name, as a sentence.
 * @param {string} name
 * @param {string} half
 */
function sentenceOfName(name, half) {
  const [lower, upper] = half === 'B' ? [2, 3] : [0, 1];
  if (name.startsWith('&CENTER')) {
    const [otherLower, otherUpper] = half === 'B' ? [0, 1] : [2, 3];
    return `The cell itself, in plane ${name.endsWith("'") ? otherUpper : otherLower} of the other half.`;
  }
  if (name in SEEN) {
    return /PHASE|HORZ|VERT/.test(name) ? SEEN[name] : SEEN[name].replace('.', `, in plane ${lower}.`);
  }
  return SEEN[name.slice(0, -1)].replace('.', `, in plane ${upper}.`);
}

/**
 * The names that a rule may use, with the bit of the address that each stands for: the neighbourhood's names first.
 * Throws a `TypeError` if the neighbourhood or the minor assignment is unknown.
 * @param {string} hood
 * @param {string} minor
 * @param {string} half
 * @returns {{name: string, bit: number, sentence: string}[]}
 */
export function namesOf(hood, minor, half) {
  /** @type {(name: string, bit: number) => {name: string, bit: number, sentence: string}} */
  const named = (name, bit) => ({ name, bit, sentence: sentenceOfName(name, half) });
  return [...HOODS[hood].map(named), ...MINORS[minor].map((name, i) => named(name, 10 + i))];
}

/** @typedef {{word: string, before?: string, after?: string, sentence: string}} Word */

/**
 * A word of the language for the help.
 * @type {(word: string, before: string, after: string, sentence: string) => Readonly<Word>}
 */
const word = (word, before, after, sentence) => Object.freeze({ word, before, after, sentence });

/** The words of the language: what they take from the stack, what they leave there, and what they do. */
export const WORDS = Object.freeze([
  word('0 .. 65535', '', 'n', 'The number.'),
  word('DUP', 'a', 'a a', 'Copies the value on top.'),
  word('DROP', 'a', '', 'Forgets the value on top.'),
  word('SWAP', 'a b', 'b a', 'The two on top change places.'),
  word('OVER', 'a b', 'a b a', 'Copies the second value.'),
  word('ROT', 'a b c', 'b c a', 'The third value comes to the top.'),
  word('+', 'a b', 'sum', 'Adds.'),
  word('-', 'a b', 'difference', 'Subtracts b from a.'),
  word('*', 'a b', 'product', 'Multiplies.'),
  word('AND', 'a b', 'a and b', 'Bit by bit: 1 if both are 1.'),
  word('OR', 'a b', 'a or b', 'Bit by bit: 1 if one or both are 1.'),
  word('XOR', 'a b', 'a xor b', 'Bit by bit: 1 if one of them is 1.'),
  word('0=', 'a', '0 or 1', '1 if a is 0.'),
  word('=', 'a b', '0 or 1', '1 if a equals b.'),
  word('<', 'a b', '0 or 1', '1 if a is below b.'),
  word('>', 'a b', '0 or 1', '1 if a is above b.'),
  word('IF x THEN', 'a', '', 'Does x if a is not 0.'),
  word('IF x ELSE y THEN', 'a', '', 'Does x if a is not 0, else y.'),
  word('{ w0 .. wk }', 'i', '', 'Does the single word number i, counted from 0.'),
  word('>PLN0', 'v', '', 'Half A: writes the low bit of v to plane 0.'),
  word('>PLN1', 'v', '', 'Half A: writes the low bit of v to plane 1.'),
  word('>PLNA', 'v', '', 'Half A: writes the low bit of v to plane 0 and the next one to plane 1.'),
  word('>PLN2', 'v', '', 'Half B: writes the low bit of v to plane 2.'),
  word('>PLN3', 'v', '', 'Half B: writes the low bit of v to plane 3.'),
  word('>PLNB', 'v', '', 'Half B: writes the low bit of v to plane 2 and the next one to plane 3.'),
  word(': NAME words ;', '', '', 'Defines a word. The last definition is the rule.'),
  word('( words )', '', '', 'A comment.'),
]);

/** @type {Readonly<Record<string, number[]>>} the planes that each output word writes */
const OUTPUTS = Object.freeze({
  '>PLN0': [0], '>PLN1': [1], '>PLNA': [0, 1], '>PLN2': [2], '>PLN3': [3], '>PLNB': [2, 3],
});

/**
 * The planes that a rule may write, by the output words of its text.
 * @param {string} text
 * @returns {number[]} 0 to 3, in order
 */
export function writes(text) {
  /** @type {Set<number>} */
  const found = new Set();
  for (const token of tokens(text)) {
    if (!token.isComment && Object.hasOwn(OUTPUTS, token.text)) {
      OUTPUTS[token.text].forEach(plane => found.add(plane));
    }
  }
  return [...found].sort();
}

/**
 * The names that are 1 at an address, by their bits from the lowest on. A fault of a rule that stops has an address.
 * @param {number} address 0 to 4,095
 * @param {string} hood
 * @param {string} minor
 * @returns {string[]}
 */
export function bitsOf(address, hood, minor) {
  return namesOf(hood, minor, 'A').filter(({ bit }) => address >> bit & 1).map(({ name }) => name);
}

/** @type {Readonly<Record<string, (stack: number[], a: number) => unknown>>} */
const ONE_VALUE = Object.freeze({
  DUP: (stack, a) => stack.push(a, a),
  DROP: () => {},
  '0=': (stack, a) => stack.push(Number(a === 0)),
});

/** @type {Readonly<Record<string, (stack: number[], a: number, b: number) => unknown>>} */
const TWO_VALUES = Object.freeze({
  SWAP: (stack, a, b) => stack.push(b, a),
  OVER: (stack, a, b) => stack.push(a, b, a),
  '+': (stack, a, b) => stack.push(a + b),
  '-': (stack, a, b) => stack.push(a - b),
  '*': (stack, a, b) => stack.push(a * b),
  AND: (stack, a, b) => stack.push(a & b),
  OR: (stack, a, b) => stack.push(a | b),
  XOR: (stack, a, b) => stack.push(a ^ b),
  '=': (stack, a, b) => stack.push(Number(a === b)),
  '<': (stack, a, b) => stack.push(Number(a < b)),
  '>': (stack, a, b) => stack.push(Number(a > b)),
});

/**
 * The words of each definition of a text by its name, and those of the `last` one, which is the rule.
 * The text has no fault.
 * @param {string} text
 */
function definitionsOf(text) {
  const spelled = tokens(text).filter(token => !token.isComment).map(token => token.text);
  /** @type {Map<string, string[]>} */
  const definitions = new Map();
  /** @type {string[]} */
  let last = [];
  for (let i = 0; i < spelled.length;) {
    const end = spelled.indexOf(';', i);
    last = spelled.slice(i + 2, end);
    definitions.set(spelled[i + 1], last);
    i = end + 1;
  }
  return { definitions, last };
}

/**
 * The index of the first of the words `ends` from `at` on. It skips each whole IF .. THEN.
 * @param {string[]} body
 * @param {number} at
 * @param {string[]} ends
 */
function skip(body, at, ends) {
  for (let depth = 0; ; at++) {
    if (depth === 0 && ends.includes(body[at])) {
      return at;
    }
    depth += body[at] === 'IF' ? 1 : body[at] === 'THEN' ? -1 : 0;
  }
}

class Evaluation {
  /** @type {number[]} */
  stack = [];
  /** @type {Map<number, number>} the bit of each plane that is written */
  written = new Map();

  /** @param {Map<string, string[]>} definitions @param {Map<string, number>} seen */
  constructor(definitions, seen) {
    this.definitions = definitions;
    this.seen = seen;
  }

  // The value on top, which a rule without a fault has.
  pop() {
    return this.stack.pop() ?? 0;
  }

  /**
   * Executes a word of the language, or what a name stands for.
   * @param {string} spelling
   */
  word(spelling) {
    const { stack } = this;
    if (Object.hasOwn(ONE_VALUE, spelling)) {
      ONE_VALUE[spelling](stack, this.pop());
    } else if (Object.hasOwn(TWO_VALUES, spelling)) {
      const b = this.pop();
      TWO_VALUES[spelling](stack, this.pop(), b);
    } else if (spelling === 'ROT') {
      stack.push(...stack.splice(-3, 1));
    } else if (Object.hasOwn(OUTPUTS, spelling)) {
      const value = this.pop();
      OUTPUTS[spelling].forEach((plane, i) => this.written.set(plane, value >> i & 1));
    } else {
      this.named(spelling);
    }
  }

  /**
   * Pushes the value of a name or number, or executes the definition of this name.
   * @param {string} name of what a cell sees, or of a definition, or else a number
   */
  named(name) {
    const body = this.seen.has(name) ? undefined : this.definitions.get(name);
    if (body === undefined) {
      this.stack.push(this.seen.get(name) ?? Number(name));
    } else {
      this.body(body);
    }
  }

  /**
   * Executes the words of a definition.
   * @param {string[]} words
   */
  body(words) {
    for (let at = 0; at < words.length; at++) {
      if (words[at] === 'IF') {
        at = this.pop() === 0 ? skip(words, at + 1, ['ELSE', 'THEN']) : at;
      } else if (words[at] === 'ELSE') {
        at = skip(words, at + 1, ['THEN']);
      } else if (words[at] === '{') {
        const end = words.indexOf('}', at);
        this.word(words[at + 1 + this.pop()]);
        at = end;
      } else if (words[at] !== 'THEN') {
        this.word(words[at]);
      }
    }
  }
}

/**
 * What a rule without a fault writes at an address, for pictures and warnings: the machine has the last word.
 * @param {Body} rule
 * @param {number} address 0 to 4,095
 * @returns {Map<number, number>} the bit of each plane that is written
 */
export function evaluate({ hood, minor, half, text }, address) {
  /** @type {Map<string, number>} */
  const seen = new Map(namesOf(hood, minor, half).map(({ name, bit }) => [name, address >> bit & 1]));
  const { definitions, last } = definitionsOf(text);
  const evaluation = new Evaluation(definitions, seen);
  evaluation.body(last);
  return evaluation.written;
}
