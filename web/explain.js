// Faults in words, and the blocks that keep a rule from being undone.

import { bitsOf, evaluate, namesOf, tokenAt } from './forth.js';

/**
 * @typedef {import('./lines.js').Body} Body
 * @typedef {import('./lines.js').OneWay} OneWay
 * @typedef {import('./lines.js').Refusal} Refusal
 *
 * @typedef {{title: string, happened: string, todo: string}} Explanation
 * @typedef {object} Known what the page knows of the command that was refused
 * @property {Body} [rule] the rule that was to be defined
 * @property {import('./lines.js').Rule[]} [rules] the machine's rules
 * @property {import('./lines.js').Entry[]} [entries] the machine's cycle
 *
 * @typedef {{state: number, cells: number[][]}} Block a state of a block, and its cells as two rows of two
 * @typedef {object} More what an explanation may have besides
 * @property {number} number
 * @property {import('./forth.js').Place & {number: number}} [token]
 * @property {Block[]} [blocks] the two that become one
 * @property {Block} [meeting] the one that they become
 */

const CAUSES = Object.freeze({
  hood: {
    happened: 'Its neighbourhood has no blocks.',
    todo: 'Use a neighbourhood of blocks: N/MARG, N/MARG-PH or N/MARG-HV.',
  },
  centres: {
    happened: 'Its minor assignment is &/CENTERS, so it sees the other half.',
    todo: 'Use the minor assignment &/PHASES or &/HV.',
  },
  meeting: {
    happened: 'Two states of a block become one.',
    todo: 'Change the rule so that each block comes from one block alone.',
  },
});

const LEFT_OUT = Object.freeze({
  title: 'command left out',
  happened: 'The connection was lost each time the command was sent.',
  todo: 'Your machine is as it was before the command. Try a smaller one.',
});

/**
 * The row and the column of a corner of a block, 0 or 1 each.
 * @param {number} corner 0 to 3, clockwise from the upper left one
 */
const placeOf = corner => [[0, 0], [0, 1], [1, 1], [1, 0]][corner];

/**
 * A block's state, with its cells as states 0 to 15 of a torus, in which the other half's planes are 0.
 * @param {number} state 0 to 255: bit c is the lower plane at corner c, bit c + 4 the upper one
 * @param {string} half
 * @returns {Block}
 */
function blockOf(state, half) {
  const cells = [[0, 0], [0, 0]];
  for (let corner = 0; corner < 4; corner++) {
    const [y, x] = placeOf(corner);
    cells[y][x] = ((state >> corner & 1) + 2 * (state >> corner + 4 & 1)) << (half === 'B' ? 2 : 0);
  }
  return { state, cells };
}

/**
 * The two states of a block that become one, by a refusal of a cycle that can't be undone.
 * @param {Refusal} answer
 * @returns {Block[] | null} null if the cause is another one
 */
export function blocksOf(answer) {
  return 'states' in answer ? answer.states.map(state => blockOf(state, answer.half)) : null;
}

/** @type {Record<string, number>} the corners from a cell to the one that it sees, clockwise */
const TURNS = { CENTER: 0, CW: 1, OPP: 2, CCW: 3 };

/**
 * The bit, 0 or 1, that a cell at a corner of a block sees under a name. Corners go clockwise from the upper left.
 * @type {(name: string, state: number, corner: number, phase: number) => number}
 */
function bitSeen(name, state, corner, phase) {
  const level = name.endsWith("'") ? 1 : 0;
  const plain = name.replace(/^&/, '').replace(/'$/, '');
  const turn = TURNS[plain];
  return plain === 'PHASE' ? phase >> level & 1
    : plain === 'HORZ' ? Number(corner === 1 || corner === 2)
      : plain === 'VERT' ? Number(corner >= 2)
        : turn === undefined ? 0 : state >> (corner + turn) % 4 + 4 * level & 1;
}

/**
 * What a block's state becomes by a rule of blocks.
 * @param {number} state 0 to 255: bit c is the lower plane at corner c, bit c + 4 the upper one
 * @param {Body} rule
 * @param {number} phase 0 to 3
 * @returns {number} a state of the same form
 */
export function becomes(state, rule, phase) {
  const names = namesOf(rule.hood, rule.minor, rule.half);
  const first = rule.half === 'B' ? 2 : 0;
  let result = 0;
  for (let corner = 0; corner < 4; corner++) {
    const address = names.reduce((sum, { name, bit }) => sum | bitSeen(name, state, corner, phase) << bit, 0);
    const written = evaluate(rule, address);
    for (const level of [0, 1]) {
      const bit = written.get(first + level) ?? state >> corner + 4 * level & 1;
      result |= bit << corner + 4 * level;
    }
  }
  return result;
}

/**
 * The name of the rule that can't be undone; undefined if the cycle isn't known.
 * @param {OneWay} answer
 * @param {Known} known
 * @returns {string | undefined}
 */
const nameOf = ({ entry, half }, { entries = [] }) => entries[entry]?.[half === 'B' ? 'b' : 'a'];

/**
 * The block that both states of a meeting become.
 * @param {Refusal} answer
 * @param {Known} known
 * @returns {Block | null} null if it can't be known
 */
export function meetingOf(answer, known) {
  if (!('states' in answer)) {
    return null;
  }
  const name = nameOf(answer, known);
  const rule = known.rules?.find(other => other.name === name);
  return rule ? blockOf(becomes(answer.states[0], rule, answer.phase), answer.half) : null;
}

/**
 * Names as a list in a sentence: `a, b and c`.
 * @param {string[]} names
 */
const listText = names => names.length < 2 ? names.join('') : `${names.slice(0, -1).join(', ')} and ${names.at(-1)}`;

/**
 * The sentence that says at which address a rule stops, by the names that are 1 there. It begins with a blank.
 * Without the rule it gives the address as a number.
 * @param {number} address
 * @param {Body} [rule]
 */
function whereItStops(address, rule) {
  if (rule === undefined) {
    return ` It happens at the address ${address}.`;
  }
  const names = bitsOf(address, rule.hood, rule.minor);
  return names.length === 0 ? ' It happens if all names are 0.'
    : ` It happens if ${listText(names)} ${names.length === 1 ? 'is' : 'are'} 1 and all other names are 0.`;
}

/**
 * Explains why a cycle can't be undone.
 * @param {OneWay} answer
 * @param {Explanation} explanation that of the fault, whatever its cause
 * @param {Known} known
 * @returns {Explanation}
 */
function explainOneWay(answer, explanation, known) {
  const cause = CAUSES[answer.cause];
  const name = nameOf(answer, known);
  const rule = name === undefined ? `The rule of half ${answer.half}` : `Rule ${name} of half ${answer.half}`;
  return cause === undefined ? explanation : {
    title: explanation.title,
    happened: `${rule} in entry ${answer.entry} can't be undone. ${cause.happened}`,
    todo: cause.todo,
  };
}

/**
 * Explains a fault: its title, what happened and what to do.
 * Fault 0 is the page's own: a command that was left out. A number that isn't in `faults` gets a general text.
 * @param {Refusal} answer
 * @param {Record<number, Explanation>} faults those of faults.js
 * @param {Known} [known]
 * @returns {Explanation & More}
 */
export function sentenceOf(answer, faults, known = {}) {
  const number = answer.fault;
  const unknown = { title: `fault ${number}`, happened: `The machine refused the command with fault ${number}.`, todo: '' };
  const { title, happened, todo } = number === 0 ? LEFT_OUT : faults[number] ?? unknown;
  /** @type {Explanation & More} */
  const explanation = { number, title, happened, todo };
  if ('cause' in answer) {
    Object.assign(explanation, explainOneWay(answer, explanation, known));
    const blocks = blocksOf(answer);
    const meeting = meetingOf(answer, known);
    Object.assign(explanation, blocks === null ? {} : { blocks }, meeting === null ? {} : { meeting });
  }
  if (answer.token !== undefined) {
    explanation.token = { number: answer.token, ...tokenAt(known.rule?.text ?? '', answer.token) };
  }
  if (answer.address !== undefined) {
    explanation.happened += whereItStops(answer.address, known.rule);
  }
  return explanation;
}
