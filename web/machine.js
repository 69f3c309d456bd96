// The page's machine: what the page knows of it, and what can be asked of it.

import { writes } from './forth.js';
import { Journal } from './journal.js';
import * as lines from './lines.js';
import { Link } from './link.js';
import { Planes } from './planes.js';
import { Queue } from './queue.js';

const MOST_BYTES = 2097152;
const MOST_RULES = 16;
const MOST_ENTRIES = 1024;
const MOST_LETTERS = 262144;

// Cells that all steps since a save may have together, so that playing them again takes seconds.
const MOST_WORK = 2 ** 30;

/**
 * Waits.
 * @type {(milliseconds: number) => Promise<void>}
 */
const pause = milliseconds => new Promise(resolve => setTimeout(resolve, milliseconds));

/** A text that is no machine and no list of commands. */
export class NotAMachine extends Error {
  /** @param {string} message what is wrong and what to do */
  constructor(message) {
    super(message);
    this.name = 'NotAMachine';
  }
}

/**
 * The planes that the rules of a cycle may write.
 * @param {lines.Rule[]} rules
 * @param {lines.Entry[]} entries
 * @returns {number[]} 0 to 3, in order
 */
export function planesOf(rules, entries) {
  const used = new Set(entries.flatMap(({ a, b }) => [a, b]));
  return [...new Set(rules.filter(({ name }) => used.has(name)).flatMap(({ text }) => writes(text)))].sort();
}

/**
 * Throws the first fault of replies, if there is one. Its `line` is its place among them, counted from 0.
 * @param {lines.Reply[]} answers
 */
function throwFirst(answers) {
  for (const [line, answer] of answers.entries()) {
    if ('fault' in answer) {
      throw Object.assign(new lines.Fault(answer), { line });
    }
  }
}

/**
 * @typedef {import('./link.js').State} State
 * @typedef {{isZero?: boolean}} How whether the machine after commands is a first state
 *
 * @typedef {object} Events what a machine tells
 * @property {{state: State, text: string}} state
 * @property {undefined} planes
 * @property {undefined} position
 * @property {undefined} rules
 * @property {{line: string, wanted: string, got: string}} diverged
 * @property {{isKept: boolean}} kept
 *
 * @typedef {object} Setting
 * @property {(host: number) => string} urlOf the address of a host's socket; of 0 for a machine of the page's own
 * @property {number} [hosts] how many hosts there are; 0 for a machine of the page's own
 * @property {import('./host.js').SocketClass} WebSocketClass
 * @property {import('./storage.js').Store|null} [storage] where the journal is kept
 * @property {string} [name] the journal's name
 * @property {(name: string) => void} [onRenamed] called with another name if another page has the journal
 * @property {number|null} [seat] the seat that is asked for first
 * @property {() => number} [now]
 * @property {(milliseconds: number) => Promise<void>} [wait]
 */

/** The page's machine. */
export class Machine extends EventTarget {
  #link;
  #journal;
  #queue = new Queue();
  #isHalted = false;
  #wasKept = true;

  /** @param {Setting} setting */
  constructor({
    urlOf, hosts = 0, WebSocketClass, storage = null, name = 'page', onRenamed, seat = null, now, wait = pause,
  }) {
    super();
    this.#journal = new Journal(storage, name, { now, onRenamed });
    this.#link = new Link({ urlOf, hosts, WebSocketClass, wait, seat }, this.#journal, {
      state: (state, text) => this.#stateIs(state, text),
      restored: reply => this.#learn(reply),
      diverged: (line, wanted, got) => this.#emit('diverged', { line, wanted, got }),
      answered: () => this.#answered(),
    });
    /** @type {State} */
    this.state = 'connecting';
    /** @type {string} the state in words */
    this.text = '';
    /** @type {Planes} */
    this.planes = new Planes(128);
    /** @type {number[]} the colour of each state */
    this.colours = Array.from({ length: 16 }, (_, state) => state);
    /** @type {lines.Rule[]} */
    this.rules = [];
    /** @type {lines.Entry[]} */
    this.entries = [];
    /** @type {number} the entry that the next step is done by */
    this.position = 0;
    /** @type {number[]} the planes that the cycle's rules write */
    this.moves = [];
  }

  /** @returns {number} cells a side */
  get side() {
    return this.planes.side;
  }

  /** @returns {number} steps since the first state; below 0 before it */
  get count() {
    return this.#journal.count;
  }

  /** @returns {number} the seat's number; 0 for a machine of the page's own, or before there is one */
  get seat() {
    return this.#link.at?.seat ?? 0;
  }

  /** @returns {number} the host's number; 0 for a machine of the page's own, or before there is one */
  get host() {
    return this.#link.at?.host ?? 0;
  }

  /** @returns {number} frames that are under way */
  get framesUnderWay() {
    return this.#queue.framesUnderWay;
  }

  /** @returns {boolean} whether the browser's storage has what a reload needs */
  get isKept() {
    return this.#journal.isKept;
  }

  /** @returns {string|null} the load line of the first state, if it is known */
  get firstLine() {
    return this.#journal.first;
  }

  /** @returns {Promise<void>} resolves after nothing is under way */
  idle() {
    return this.#queue.idle();
  }

  /**
   * Connects, and goes on with what the journal has.
   * @returns {Promise<void>} resolves after the machine is ready for the first time
   */
  start() {
    return new Promise((resolve, reject) => {
      const whenReady = () => {
        if (this.state === 'ready') {
          this.removeEventListener('state', whenReady);
          resolve();
        }
      };
      this.addEventListener('state', whenReady);
      this.#link.start().catch(error => {
        this.#stateIs('lost', `The page has a fault of its own: ${error.message}`);
        reject(error);
      });
    });
  }

  /** Ends the connection. The journal stays. */
  stop() {
    this.#link.stop();
  }

  // The events that a page can listen to.

  /**
   * Calls a function with what each event of a type tells.
   * @template {keyof Events} K
   * @param {K} type
   * @param {(detail: Events[K]) => void} tell
   */
  on(type, tell) {
    this.addEventListener(type, event => event instanceof CustomEvent && tell(event.detail));
  }

  /**
   * Sends an event to those who listen to it.
   * @template {keyof Events} K
   * @param {K} type
   * @param {Events[K]} [detail]
   */
  #emit(type, detail) {
    this.dispatchEvent(new CustomEvent(type, { detail }));
  }

  /**
   * Keeps the state of the connection, and emits it.
   * @param {State} state
   * @param {string} text
   */
  #stateIs(state, text) {
    this.state = state;
    this.text = text;
    this.#emit('state', { state, text });
  }

  /** Emits whether the journal is kept, if that has changed. */
  #answered() {
    if (this.#journal.isKept !== this.#wasKept) {
      this.#wasKept = this.#journal.isKept;
      this.#emit('kept', { isKept: this.#wasKept });
    }
  }

  /**
   * Takes planes, rules, cycle, colours and position from a saved machine, and emits them.
   * @param {string} reply to `save`
   */
  #learn(reply) {
    const machine = lines.machineIn(reply);
    this.planes = new Planes(machine.side);
    machine.planes.forEach((rows, plane) => this.planes.setPlane(plane, rows));
    this.colours = machine.colours;
    this.rules = machine.rules;
    this.entries = machine.cycle;
    this.position = machine.position;
    this.moves = planesOf(this.rules, this.entries);
    this.#answered();
    this.#emit('planes');
    this.#emit('rules');
    this.#emit('position');
  }

  // Asking.

  /**
   * Does a command. Rejects with `Fault` if it is refused.
   * @param {lines.Command} command
   */
  async #ask(command) {
    return lines.doneOf(await this.#link.askAll([command])[0]);
  }

  /**
   * Does commands in one go. Resolves with their answers, whether refused or not.
   * @param {lines.Command[]} all
   * @param {How} [how]
   */
  async #askAll(all, how) {
    const replies = await Promise.all(this.#link.askAll(all, how));
    return replies.map(lines.answerOf);
  }

  /** Saves the machine, and takes all that it shows from there. */
  async #refresh() {
    this.#learn(await this.#link.checkpoint());
  }

  /** Begins a checkpoint if a replay of the journal would take too long. */
  #keepShort() {
    const { entries, size, steps } = this.#journal;
    const isLong = entries.length > MOST_ENTRIES || size > MOST_LETTERS || steps > this.#piece();
    if (isLong && !this.#link.isSaving) {
      this.#link.checkpoint();
    }
  }

  /** Begins a checkpoint if the first state has no load line yet. */
  #keepFirst() {
    if (this.count === 0 && this.firstLine === null && !this.#link.isSaving) {
      this.#link.checkpoint();
    }
  }

  // The most steps of one command.
  #piece() {
    return Math.min(65535, MOST_WORK / this.side ** 2);
  }

  /**
   * One or more commands that do or undo so many steps together.
   * @param {number} n steps; below 0 they are undone
   */
  #pieces(n) {
    const most = this.#piece();
    const steps = n < 0 ? lines.back : lines.run;
    const pieces = [];
    for (let left = Math.abs(n); left > 0; left -= most) {
      pieces.push(steps(Math.min(left, most)));
    }
    return pieces.length > 0 ? pieces : [steps(0)];
  }

  /**
   * Asks for commands of steps, and then for the planes that they may change, in one go.
   * @param {lines.Command[]} commands
   */
  async #stepsAndPlanes(commands) {
    const moves = this.moves;
    this.#keepFirst();
    const answers = await this.#askAll([...commands, ...moves.map(lines.plane)]);
    this.#keepShort();
    const done = answers.slice(0, commands.length);
    answers.slice(commands.length).forEach((answer, i) => {
      if ('rows' in answer && answer.rows) {
        this.planes.setPlane(moves[i], answer.rows);
      }
    });
    this.#emit('planes');
    for (const answer of done) {
      this.position = 'ok' in answer ? answer.position ?? this.position : this.position;
    }
    this.#emit('position');
    throwFirst(done);
  }

  /**
   * Does or undoes steps, piece by piece, until it is halted.
   * @param {number} n steps; below 0 they are undone
   */
  async #steps(n) {
    this.#isHalted = false;
    const pieces = this.#pieces(n);
    for (const [i, piece] of pieces.entries()) {
      if (!this.#isHalted || i === 0) {
        await this.#stepsAndPlanes([piece]);
      }
    }
  }

  // Steps.

  /**
   * Does steps.
   * @param {number} n 0 or more
   * @returns {Promise<void>} rejects with `Fault`
   */
  run(n) {
    return this.#queue.command(() => this.#steps(n));
  }

  /**
   * Undoes steps.
   * @param {number} n 0 or more
   * @returns {Promise<void>} rejects with `Fault`
   */
  back(n) {
    return this.#queue.command(() => n === 0 ? this.#stepsAndPlanes([lines.back(0)]) : this.#steps(-n));
  }

  /**
   * A frame of a film: some steps, and the planes that they may change.
   * @param {number} n steps; below 0 they are undone
   * @returns {Promise<boolean>} false, with no step done, if two frames or a command are under way; rejects with
   * `Fault`
   */
  async frame(n) {
    const done = this.#queue.frame(() => this.#stepsAndPlanes(this.#pieces(n)));
    await done;
    return done !== null;
  }

  /** Ends a long run after the piece that is under way. */
  halt() {
    this.#isHalted = true;
  }

  /**
   * Goes to a count: by steps undone if the rules can be undone, else from the first state on. `halt` ends it early.
   * @param {number} count steps since the first state
   * @returns {Promise<void>} rejects with `Fault` if there is no way
   */
  goTo(count) {
    return this.#queue.command(async () => {
      const fault = count < this.count ? await this.#faultOfBack() : null;
      if (fault === null) {
        await this.#steps(count - this.count);
      } else if (count < 0 || this.firstLine === null) {
        throw new lines.Fault(fault);
      } else {
        await this.#rewind(this.firstLine);
        await this.#steps(count);
      }
    });
  }

  /**
   * Brings the cells and the position of the first state, with all else as it is now.
   * @param {string} first its load line
   */
  async #rewind(first) {
    const { planes, position } = lines.machineIn(first);
    const machine = lines.machineIn(await this.#link.checkpoint());
    await this.#ask(lines.load({ ...machine, planes, position }));
    await this.#refresh();
  }

  /** The refusal of a step back, or null if steps can be undone. */
  async #faultOfBack() {
    const [answer] = await this.#askAll([lines.back(0)]);
    return 'fault' in answer ? answer : null;
  }

  /**
   * Whether each step can be undone.
   * @returns {Promise<{yes: true} | {no: true, fault: lines.Refusal}>} with the answer that refuses it
   */
  async canGoBack() {
    const fault = await this.#faultOfBack();
    return fault === null ? { yes: true } : { no: true, fault };
  }

  // Cells.

  /**
   * Puts cells that were edited into the machine. Does nothing if they have another side than the machine.
   * @param {Planes} edited
   * @param {Planes} [base] what the edit began with; only cells that differ from it are put
   * @returns {Promise<void>}
   */
  paint(edited, base) {
    return this.#queue.command(async () => {
      const wanted = base === undefined ? edited : this.planes.clone();
      if (wanted.side !== this.side || base !== undefined && base.side !== this.side) {
        return;
      }
      if (base !== undefined) {
        wanted.takeChanges(base, edited);
      }
      const rows = wanted.rowsThatDiffer(this.planes);
      const cleared = [0, 1, 2, 3].filter(plane => rows.some(row => row.plane === plane) && wanted.isBlank(plane));
      const set = rows.filter(({ plane }) => !cleared.includes(plane));
      const all = [...cleared.map(lines.clear), ...set.map(({ plane, row, bits }) => lines.set(plane, row, bits))];
      if (all.length > 0) {
        this.#showPlanes(wanted);
        await this.#askAll(all);
        this.#showPlanes(wanted);
        this.#keepShort();
        this.#emit('position');
      }
    });
  }

  /**
   * Shows a copy, as the page may go on with its planes.
   * @param {Planes} planes
   */
  #showPlanes(planes) {
    this.planes = planes.clone();
    this.#emit('planes');
  }

  /**
   * Changes the side. All planes are blank then.
   * @param {number} side 128, 256 or 512
   * @returns {Promise<void>} rejects with `Fault`
   */
  setSide(side) {
    return this.#change([lines.side(side)]);
  }

  /**
   * Gives each state a colour.
   * @param {number[]} colours sixteen colours of 0 to 15
   * @returns {Promise<void>} rejects with `Fault`
   */
  setColours(colours) {
    return this.#change([lines.map(colours)]);
  }

  // Rules and the cycle.

  /**
   * Does commands in one go, and learns what the machine is after them. The first fault is thrown.
   * @param {lines.Command[]} all
   * @param {How} [how]
   */
  #change(all, how) {
    return this.#queue.command(() => this.#changed(all, how));
  }

  /**
   * Does commands that change the machine, and takes what it shows after them.
   * @param {lines.Command[]} all
   * @param {How} [how]
   */
  async #changed(all, how) {
    const asked = this.#askAll(all, how);
    const refreshed = this.#refresh();
    const answers = await asked;
    await refreshed;
    throwFirst(answers);
  }

  /**
   * Defines a rule, or redefines it, also if the cycle uses it: then the position becomes 0.
   * @param {lines.Rule} rule
   * @returns {Promise<void>} rejects with `Fault`; the rules and the cycle are as they were then
   */
  define(rule) {
    return this.#queue.command(async () => {
      const { name, half } = rule;
      if (!this.entries.some(({ a, b }) => a === name || b === name)) {
        return this.#changed([lines.rule(rule)]);
      }
      if (this.rules.length < MOST_RULES) {
        await this.#tryOut(rule);
      }
      const entries = this.entries.map(({ a, b, grid, phase }) => ({
        a: a === name && half !== 'A' ? '-' : a, b: b === name && half !== 'B' ? '-' : b, grid, phase,
      }));
      return this.#changed([lines.cycle(lines.IDLE), lines.rule(rule), lines.cycle(entries)]);
    });
  }

  /**
   * Defines and drops the rule under a name that is free, so that a fault of its text comes before anything changes.
   * @param {lines.Rule} rule
   */
  async #tryOut(rule) {
    let name = '?';
    while (this.rules.some(other => other.name === name)) {
      name += '?';
    }
    await this.#ask(lines.rule({ ...rule, name }));
    await this.#ask(lines.drop(name));
  }

  /**
   * Forgets a rule.
   * @param {string} name
   * @returns {Promise<void>} rejects with `Fault`
   */
  drop(name) {
    return this.#change([lines.drop(name)]);
  }

  /**
   * Sets the cycle, and the position to 0.
   * @param {lines.Entry[]} entries
   * @returns {Promise<void>} rejects with `Fault`
   */
  setCycle(entries) {
    return this.#change([lines.cycle(entries)]);
  }

  // The whole machine.

  /**
   * Sets a new blank machine up by a list of commands. Its side is 256 if the first one doesn't set it.
   * The commands after one that is refused are done all the same.
   * @param {lines.Command[]} commands of the gallery, or of a file
   * @returns {Promise<void>} rejects with `Fault`, whose `line` is the number of the first command that was refused
   */
  setUp(commands) {
    return this.#begin([lines.blank(128), ...commands[0]?.do === 'side' ? [] : [lines.side(256)]], commands);
  }

  /**
   * Does commands after those that make a blank machine. The `line` of a fault doesn't count these.
   * @param {lines.Command[]} before
   * @param {lines.Command[]} commands
   * @returns {Promise<void>}
   */
  #begin(before, commands) {
    return this.#change([...before, ...commands], { isZero: true }).catch(error => {
      throw 'line' in error ? Object.assign(error, { line: error.line - before.length + 1 }) : error;
    });
  }

  /**
   * Saves the machine, and begins the journal anew with it. Resolves with the line that loads it, without a line end.
   * @returns {Promise<string>}
   */
  save() {
    return this.#queue.command(async () => lines.loadLineOf(await this.#link.checkpoint()));
  }

  /**
   * Loads a machine that was saved, a reply to `save`, or a list of commands.
   * @param {string} text
   * @returns {Promise<void>} rejects with `Fault` or `NotAMachine`
   */
  async load(text) {
    const all = text.split('\n').map(line => line.replace(/\r$/, '')).filter(line => line !== '');
    if (all.length === 0 || all.some(line => !line.startsWith('{'))) {
      throw new NotAMachine('This text is no machine. A machine is a line that begins with {"do":"load".');
    }
    if (all.some(line => new TextEncoder().encode(line).length > MOST_BYTES)) {
      throw new NotAMachine('This line is longer than any machine. A machine has at most 2,097,152 bytes.');
    }
    const spelled = all.map(line => line.startsWith('{"machine":') ? lines.loadLineOf(line) : line);
    const commands = spelled.map(lines.commandOf);
    if (!lines.isLoad(spelled[0])) {
      return this.setUp(commands);
    }
    return commands.length === 1 ? this.#change(commands) : this.#begin([], commands);
  }

  /**
   * Forgets what is kept, and begins with a blank machine of side 256.
   * @returns {Promise<void>} rejects with `Fault`
   */
  startOver() {
    return this.setUp([]);
  }
}
