// What a page keeps of its machine: the last save, and the commands since that change it.

import { back, commandOf, isSteps, lineOf, run } from './lines.js';
import { JournalStorage } from './storage.js';

export { journalsOf, nameOfTab } from './storage.js';

const SLOT_LETTERS = 4096;
const MOST_STEPS = 65535;
/** @type {Command['do'][]} */
const ZEROING = ['set', 'clear', 'side', 'cycle', 'load'];

/**
 * @typedef {import('./lines.js').Command} Command
 * @typedef {{command: Command, line: string}} Asked a command and its line
 *
 * @typedef {object} Noted a command that was noted
 * @property {number} number counted from 1 on
 * @property {Command} command
 * @property {string} line
 * @property {string|null} reply null before there is one
 * @property {boolean} isZero whether the count is 0 after it, whatever it does
 * @property {number} slot
 */

/**
 * The number of steps that a command does or undoes; 0 for other commands.
 * @param {Command} command which may have come as a text without a number
 */
const stepsOf = command => isSteps(command) ? command.n ?? 0 : 0;

/** The journal of one page. It keeps on in memory if the storage is full or missing. */
export class Journal {
  #storage;
  /** @type {Noted[][]} */
  #slots = [];
  /** @type {number[]} of the commands of each slot */
  #letters = [];
  /** @type {Set<number>} slots that are not written */
  #dirty = new Set();
  #base = 0;
  #noted = 0;
  /** @type {string|null} the last save as a load line */
  loadLine = null;
  /** @type {string|null} the load line of the state at count 0, if it is known */
  first = null;
  /** @type {Noted[]} the commands since the last save */
  entries = [];
  /** @type {number} steps since the first state, by all commands that have a reply */
  count = 0;
  /** @type {number} letters of the commands since the last save */
  size = 0;
  /** @type {number} steps of the commands since the last save */
  steps = 0;

  /**
   * Reads what the storage has under this name.
   * @param {import('./storage.js').Store|null} storage null if there is none
   * @param {string} name
   * @param {{random?: () => number, now?: () => number, onRenamed?: (name: string) => void}} by
   */
  constructor(storage, name, { random, now, onRenamed = () => {} } = {}) {
    this.#storage = new JournalStorage(storage, name, { random, now });
    this.onRenamed = onRenamed;
    const content = this.#storage.read();
    /** @type {boolean} whether the storage has all of the journal, but for replies */
    this.isKept = content !== null;
    if (content !== null) {
      this.loadLine = content.loadLine;
      this.first = content.first;
      this.#base = this.count = content.count;
      for (const [line, reply, isZero] of content.slots.flat()) {
        this.#read({ command: commandOf(line), line }, reply, isZero === 1);
      }
      this.#slots.forEach((_, slot) => this.#dirty.add(slot));
    }
  }

  /** Forgets all commands and both states. */
  #blank() {
    this.loadLine = null;
    this.first = null;
    this.entries = [];
    this.count = 0;
    this.size = 0;
    this.steps = 0;
    this.#base = 0;
    this.#slots = [];
    this.#letters = [];
    this.#dirty.clear();
  }

  /** @returns {string} the name under which the journal is kept */
  get name() {
    return this.#storage.name;
  }

  /**
   * Adds a command that the storage has, with its reply.
   * @type {(asked: Asked, reply: string|null, isZero: boolean) => void}
   */
  #read(asked, reply, isZero) {
    const entry = this.#add(asked, isZero);
    if (reply !== null) {
      entry.reply = reply;
      this.#counted(entry);
    }
  }

  /**
   * Adds a command under the next number, without a reply.
   * @type {(asked: Asked, isZero: boolean) => Noted}
   */
  #add({ command, line }, isZero) {
    return this.#put({ number: ++this.#noted, command, line, reply: null, isZero, slot: 0 });
  }

  /**
   * Puts a command into the last slot, or into a new one if that is full.
   * @param {Noted} entry
   */
  #put(entry) {
    const { command, line } = entry;
    const letters = this.#letters[this.#letters.length - 1];
    if (this.#slots.length === 0 || letters + line.length > SLOT_LETTERS) {
      this.#slots.push([]);
      this.#letters.push(0);
    }
    entry.slot = this.#slots.length - 1;
    this.entries.push(entry);
    this.#slots[entry.slot].push(entry);
    this.#letters[entry.slot] += line.length;
    this.#dirty.add(entry.slot);
    this.size += line.length;
    this.steps += stepsOf(command);
    return entry;
  }

  /**
   * Notes commands before they are sent, and writes them to the storage.
   * @param {Asked[]} all
   * @param {{isZero?: boolean}} how whether the count is 0 after each of them
   * @returns {Noted[]}
   */
  noteAll(all, { isZero = false } = {}) {
    const entries = all.map(asked => this.#add(asked, isZero));
    this.#flush();
    return entries;
  }

  /**
   * Notes a command, before it is sent or with its reply.
   * @param {import('./lines.js').Command} command
   * @param {string|null} [reply]
   * @returns {Noted}
   */
  note(command, reply = null) {
    const [entry] = this.noteAll([{ command, line: lineOf(command) }]);
    if (reply !== null) {
      this.answer(entry, reply);
    }
    return entry;
  }

  /**
   * Notes a reply. A command that was refused has changed nothing, and is forgotten.
   * @param {Noted} entry the first one that has no reply
   * @param {string} reply
   */
  answer(entry, reply) {
    entry.reply = reply;
    this.#dirty.add(entry.slot);
    if (reply.startsWith('{"ok":')) {
      this.#counted(entry);
      this.#join(entry);
    } else {
      this.#remove(entry);
    }
  }

  /**
   * Counts the steps of a command that has a reply.
   * @param {Noted} entry
   */
  #counted({ command, isZero }) {
    if (isZero || ZEROING.includes(command.do)) {
      this.count = 0;
      this.first = null;
    } else {
      this.count += command.do === 'back' ? -stepsOf(command) : stepsOf(command);
    }
  }

  /**
   * Removes a command from its slot and from the sums.
   * @param {Noted} entry
   */
  #remove(entry) {
    this.entries.splice(this.entries.indexOf(entry), 1);
    const slot = this.#slots[entry.slot];
    slot.splice(slot.indexOf(entry), 1);
    this.size -= entry.line.length;
    this.steps -= stepsOf(entry.command);
  }

  /**
   * Joins steps with the command before them in their slot, if it has steps of the same kind. The later one stays.
   * They stay apart if they would have more than 65,535 steps.
   * @param {Noted} entry
   */
  #join(entry) {
    const slot = this.#slots[entry.slot];
    const before = slot[slot.indexOf(entry) - 1];
    if (before === undefined || before.isZero || entry.isZero) {
      return;
    }
    const { command: one } = before;
    const { command: other } = entry;
    if (isSteps(one) && isSteps(other) && one.do === other.do && one.n + other.n <= MOST_STEPS) {
      this.#remove(before);
      this.size -= entry.line.length;
      entry.command = (one.do === 'run' ? run : back)(one.n + other.n);
      entry.line = lineOf(entry.command);
      this.size += entry.line.length;
      this.steps += one.n;
    }
  }

  /**
   * The commands of a slot as the storage keeps them.
   * @param {number} slot
   * @returns {import('./storage.js').Row[]}
   */
  #rows(slot) {
    return this.#slots[slot].map(({ line, reply, isZero }) => [line, reply, isZero ? 1 : 0]);
  }

  /** Writes the slots that changed. If another page took the name, writes all under a new one. */
  #flush() {
    if (!this.isKept) {
      return;
    }
    if (!this.#storage.isOurs()) {
      this.#storage.moveOn();
      this.#replace();
      this.onRenamed(this.name);
      return;
    }
    this.isKept = [...this.#dirty].sort((one, other) => one - other)
      .every(slot => this.#storage.write(slot, this.#rows(slot)));
    this.#dirty.clear();
  }

  /** Writes the whole journal as a new generation. */
  #replace() {
    const { loadLine, first } = this;
    const slots = this.#slots.map((_, slot) => this.#rows(slot));
    this.isKept = loadLine !== null && this.#storage.replace({ loadLine, first, count: this.#base, slots });
    this.#dirty.clear();
  }

  /**
   * Begins anew from a machine that was saved.
   * @param {string} loadLine the machine after the commands up to `through`, which all have replies
   * @param {number} [through] the number of the last command that the machine has in it
   */
  checkpoint(loadLine, through = this.#noted) {
    const later = this.entries.filter(({ number }) => number > through);
    const { count, first } = this;
    this.#blank();
    this.loadLine = loadLine;
    this.#base = this.count = count;
    this.first = count === 0 ? loadLine : first;
    later.forEach(entry => this.#put(entry));
    if (!this.#storage.isOurs()) {
      this.#storage.moveOn();
      this.onRenamed(this.name);
    }
    this.#replace();
  }

  /** @returns {number} the number of the last command that was noted */
  get noted() {
    return this.#noted;
  }

  /**
   * The lines that make the machine, in order: the load line if there is one, and the commands since.
   * @returns {string[]}
   */
  lines() {
    return [...this.loadLine === null ? [] : [this.loadLine], ...this.entries.map(({ line }) => line)];
  }

  /** Forgets all, in the storage too. */
  clear() {
    this.#blank();
    this.#storage.clear();
    this.isKept = false;
  }
}
