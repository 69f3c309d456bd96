// Commands, their lines, and what replies say. A command is an object from where it is made to where its line goes out.

/**
 * @typedef {{half: string, hood: string, minor: string, text: string}} Body what a rule is without its name
 * @typedef {Body & {name: string}} Rule
 * @typedef {{a: string, b: string, grid: string, phase: number}} Entry
 * @typedef {object} Saved a machine as `save` shows it
 * @property {number[]} colours
 * @property {Entry[]} cycle
 * @property {string[][]} planes
 * @property {number} position
 * @property {Rule[]} rules
 * @property {number} side
 * @property {number} version
 */

/**
 * @typedef {{do: 'run'|'back', n: number}} Steps
 * @typedef {{do: 'set', plane: number, row: number, bits: string} | {do: 'clear'|'plane', plane: number}
 *   | {do: 'row', plane: number, row: number} | {do: 'side', side: number} | {do: 'map', colours: number[]}
 *   | {do: 'rule'} & Rule | {do: 'drop', name: string} | {do: 'cycle', entries: Entry[]} | Steps
 *   | {do: 'count', mask: number} | {do: 'save'} | {do: 'load', machine?: Saved} | {do?: undefined}} Command
 * Its keys have the order of its line. One that came as a text may have any keys, or no name.
 */

/**
 * @typedef {{ok: string, position?: number, rows?: string[]}} Done
 * @typedef {object} Plain a refusal
 * @property {number} fault
 * @property {number} [token] the token of a rule's text that is refused
 * @property {number} [address] the least address at which a rule stops
 * @typedef {{cause: 'hood'|'centres'} | {cause: 'meeting', phase: number, states: number[]}} Cause
 * @typedef {Plain & Cause & {entry: number, half: string}} OneWay a refusal of an entry that can't be undone
 * @typedef {Plain | OneWay} Refusal
 * @typedef {Done | Refusal} Reply
 */

const LOAD = '{"do":"load",';

/**
 * The texts of commands that came as texts. A host may refuse what JSON.parse takes, so each goes out as it came.
 * @type {WeakMap<object, string>}
 */
const texts = new WeakMap();

/**
 * What a line asks for.
 * @param {string} line that came as a text, from a file or out of the journal
 * @returns {Command} with nothing but its name for a load, which is long
 */
export function commandOf(line) {
  /** @type {Command} */
  const command = line.startsWith(LOAD) ? { do: 'load' } : parsed(line);
  texts.set(command, line);
  return command;
}

/**
 * The JSON value of a line as an object, empty if the line is no JSON.
 * @param {string} line
 * @returns {Command}
 */
function parsed(line) {
  try {
    return Object(JSON.parse(line));
  } catch {
    return {};
  }
}

/**
 * The line of a command, as it goes out.
 * @param {Command | {seat: number}} command
 * @returns {string}
 */
export const lineOf = command => texts.get(command) ?? JSON.stringify(command);

/**
 * Whether a line begins as the page spells a load: `{"do":"load",`. What follows isn't looked at.
 * @param {string} line
 */
export const isLoad = line => line.startsWith(LOAD);

/** @param {number} number a seat, from 1 on */
export const seat = number => ({ seat: number });

/** @type {(plane: number, row: number, bits: string) => Command} that sets a row to hexadecimal digits of four cells */
export const set = (plane, row, bits) => ({ do: 'set', plane, row, bits });

/** @type {(plane: number) => Command} that sets each cell of the plane to 0 */
export const clear = plane => ({ do: 'clear', plane });

/** @type {(plane: number, row: number) => Command} that asks for the cells of a row */
export const row = (plane, row) => ({ do: 'row', plane, row });

/** @type {(plane: number) => Command} that asks for all rows of a plane */
export const plane = plane => ({ do: 'plane', plane });

/** @type {(side: number) => Command} of 128, 256 or 512 */
export const side = side => ({ do: 'side', side });

/** @type {(colours: number[]) => Command} of sixteen colours of 0 to 15 */
export const map = colours => ({ do: 'map', colours: [...colours] });

/** @type {(rule: Rule) => Command} that defines the rule, or redefines it */
export const rule = ({ name, half, hood, minor, text }) => ({ do: 'rule', name, half, hood, minor, text });

/** @type {(name: string) => Command} that removes the rule of this name */
export const drop = name => ({ do: 'drop', name });

/** @type {(entries: readonly Entry[]) => Command} that sets the cycle, with the position 0 */
export const cycle = entries => ({
  do: 'cycle', entries: entries.map(({ a, b, grid, phase }) => ({ a, b, grid, phase })),
});

/** @type {(n: number) => Command} of 0 to 65,535 steps */
export const run = n => ({ do: 'run', n });

/** @type {(n: number) => Command} of 0 to 65,535 steps */
export const back = n => ({ do: 'back', n });

/** @type {() => Command} */
export const save = () => ({ do: 'save' });

/** @type {(mask: number) => Command} that counts the cells with a state of the mask, which has bit s for state s */
export const count = mask => ({ do: 'count', mask });

/**
 * The command that loads a machine. The machine's keys keep their order, since a load line has one spelling.
 * @type {(machine: Saved) => Command}
 */
export const load = machine => ({ do: 'load', machine });

/**
 * The line that loads the machine in a reply to `save`, byte for byte.
 * @param {string} reply
 * @returns {string}
 */
export function loadLineOf(reply) {
  return `${LOAD}"machine":` + reply.slice('{"machine":'.length, -',"ok":"save"}'.length) + '}';
}

/**
 * The command that loads a blank machine without rules.
 * @param {number} side
 */
export function blank(side) {
  const rows = Array(side).fill('0'.repeat(side / 4));
  const colours = Array.from({ length: 16 }, (_, state) => state);
  return load({ colours, cycle: [], planes: [rows, rows, rows, rows], position: 0, rules: [], side, version: 2 });
}

/** The cycle that leaves each cell as it is and uses no rule. */
export const IDLE = Object.freeze([Object.freeze({ a: '-', b: '-', grid: 'EVEN', phase: 0 })]);

/**
 * Whether a command does or undoes steps.
 * @param {Command} command
 * @returns {command is Steps}
 */
export const isSteps = command => command.do === 'run' || command.do === 'back';

/** @type {Command['do'][]} */
const CHANGING = ['set', 'clear', 'side', 'map', 'rule', 'drop', 'cycle', 'load'];

/**
 * Whether a command changes a machine if it is done. No steps, `run` or `back` of 0, change nothing.
 * @param {Command} command
 * @returns {boolean}
 */
export function changes(command) {
  return isSteps(command) ? command.n !== 0 : CHANGING.includes(command.do);
}

/** A reply that is a fault. */
export class Fault extends Error {
  /** @param {Refusal} answer */
  constructor(answer) {
    super(`fault ${answer.fault}`);
    this.name = 'Fault';
    /** @type {number} */
    this.number = answer.fault;
    /** @type {Refusal} */
    this.answer = answer;
  }
}

/**
 * What a reply says, fault or not. Throws a `SyntaxError` if it is no JSON.
 * @param {string} text
 * @returns {Reply}
 */
export function answerOf(text) {
  return JSON.parse(text);
}

/**
 * The number of a reply's fault, or 0.
 * @param {string} text
 */
export function faultOf(text) {
  const answer = answerOf(text);
  return 'fault' in answer ? answer.fault : 0;
}

/**
 * The machine in a reply to `save`, or in a load line.
 * @param {string} text
 * @returns {Saved}
 */
export const machineIn = text => JSON.parse(text).machine;

/**
 * What a reply says, unless it is a fault.
 * @param {string} text
 * @returns {Done}
 * @throws {Fault}
 */
export function doneOf(text) {
  const answer = answerOf(text);
  if ('fault' in answer) {
    throw new Fault(answer);
  }
  return answer;
}
