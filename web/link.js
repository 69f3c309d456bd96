// Lines to a machine that stays the same whatever becomes of connections: each command is done once in it.

import { changes, faultOf, lineOf, loadLineOf, save } from './lines.js';
import { NoSeat, sitDown } from './host.js';

const FIRST_PAUSE = 200;
const LONGEST_PAUSE = 5000;
const SIDE_TOO_LARGE = 67;
const MOST_LOSSES = 12;
const LEFT_OUT = '{"fault":0}';
const SAVE = lineOf(save());

/**
 * @typedef {import('./host.js').At} At
 * @typedef {import('./host.js').Host} Host
 * @typedef {import('./journal.js').Noted} Noted
 *
 * @typedef {object} More
 * @property {(milliseconds: number) => Promise<void>} wait
 * @property {number|null} seat the seat that is asked for first
 * @typedef {import('./host.js').Where & More} How
 *
 * @typedef {object} Pending a line that has no reply yet
 * @property {string} line
 * @property {import('./lines.js').Command} [command] none for a checkpoint
 * @property {Noted|null} entry
 * @property {boolean} [isCheckpoint]
 * @property {number} through the number of the last command that was noted before
 * @property {(text: string) => void} answered
 * @property {number} [losses]
 *
 * @typedef {'connecting'|'playing back'|'ready'|'lost'|'full'} State
 * @typedef {object} Listener what a link calls when something happens
 * @property {(state: State, text: string) => void} state
 * @property {(reply: string) => void} restored with the reply to `save` of the machine that is there
 * @property {(line: string, wanted: string, got: string) => void} diverged
 * @property {() => void} answered after each command that has its reply
 */

/**
 * Says which seat the page has, and why it has not the one that was asked for.
 * @type {(seat: import('./host.js').Seat, hosts: number, preferred: At[]) => string}
 */
function sentenceOfSeat({ number, seat, missed }, hosts, preferred) {
  if (number === 0) {
    return 'This page has a machine of its own.';
  }
  const here = hosts > 1 ? `You have seat ${seat} of host ${number}.` : `You have seat ${seat}.`;
  const other = preferred[0]?.seat;
  return missed === 80 ? `Seat ${other} is taken. ${here}`
    : missed === 81 ? `There is no seat ${other}. ${here}` : here;
}

const UNSEATED = Object.freeze({
  lost: 'The page tries again. Nothing of your machine is lost.',
  full: 'All seats are taken. The page tries again.',
  refused: 'No host takes your machine. The page keeps it and tries again.',
  tooLarge: 'Your machine is larger than the hosts allow. The page keeps it and tries again.',
});

/**
 * Says that the connection is lost, and why.
 * @param {string} reason
 */
const sentenceOfLoss = reason =>
  `The connection is lost${reason === '' ? '' : `: ${reason}`}. ${UNSEATED.lost}`;

/** The line to one machine. */
export class Link {
  #how;
  #journal;
  #listener;
  /** @type {Pending[]} */
  #pending = [];
  /** @type {Host|null} */
  #host = null;
  #isStopped = false;
  #isSaving = false;
  #refusal = 0;

  /**
   * @param {How} how
   * @param {import('./journal.js').Journal} journal
   * @param {Listener} listener
   */
  constructor(how, journal, listener) {
    this.#how = how;
    this.#journal = journal;
    this.#listener = listener;
    /** @type {At|null} */
    this.at = null;
  }

  /**
   * Asks for commands in order, with nothing between them. They become lines here, are noted, then sent; if the
   * connection ends they are sent again over the next one, to the machine that has all commands before them.
   * @param {import('./lines.js').Command[]} commands
   * @param {{isZero?: boolean}} how whether the machine after them is a first state
   * @returns {Promise<string>[]} the replies; `{"fault":0}` for a command with which 12 connections ended
   */
  askAll(commands, { isZero = false } = {}) {
    /** @type {(import('./journal.js').Asked & {entry: Noted|null})[]} */
    const all = commands.map(command => ({ command, line: lineOf(command), entry: null }));
    const changing = all.filter(({ command }) => changes(command));
    const entries = changing.length > 0 ? this.#journal.noteAll(changing, { isZero }) : [];
    changing.forEach((asked, i) => { asked.entry = entries[i]; });
    return all.map(asked => new Promise(answered => {
      this.#push({ ...asked, through: this.#journal.noted, answered });
    }));
  }

  /**
   * Asks for a save, and begins the journal anew with it.
   * @returns {Promise<string>} the reply to `save`; `{"fault":0}` if 12 connections ended with it
   */
  checkpoint() {
    this.#isSaving = true;
    return new Promise(answered => {
      this.#push({ line: SAVE, entry: null, isCheckpoint: true, through: this.#journal.noted, answered });
    });
  }

  /** @returns {boolean} whether a checkpoint is under way */
  get isSaving() {
    return this.#isSaving;
  }

  /**
   * Queues a line, and sends it if there is a connection.
   * @param {Pending} asked
   */
  #push(asked) {
    this.#pending.push(asked);
    if (this.#host !== null) {
      this.#send(asked);
    }
  }

  /**
   * Sends a line, and waits for its reply.
   * @param {Pending} asked
   */
  #send(asked) {
    this.#host?.send(asked.line, text => this.#answered(asked, text));
  }

  /**
   * Notes a reply in the journal, and passes it on to whoever asked.
   * @param {Pending} asked
   * @param {string} text
   */
  #answered(asked, text) {
    this.#pending.shift();
    if (asked.entry !== null) {
      this.#journal.answer(asked.entry, text);
      if (asked.command?.do === 'load' && text.startsWith('{"ok":')) {
        this.#journal.checkpoint(asked.line, asked.entry.number);
      }
    } else if (asked.isCheckpoint) {
      this.#isSaving = false;
      if (text !== LEFT_OUT) {
        this.#journal.checkpoint(loadLineOf(text), asked.through);
      }
    }
    asked.answered(text);
    this.#listener.answered();
  }

  /** Connects, and connects again whenever the connection is lost, until `stop`. */
  async start() {
    for (let pause = FIRST_PAUSE; !this.#isStopped;) {
      try {
        const { lost } = await this.#connect();
        pause = FIRST_PAUSE;
        this.#tell('lost', sentenceOfLoss((await lost).reason));
      } catch (error) {
        if (!(error instanceof NoSeat)) {
          throw error;
        }
        const why = error.why === 'refused' && this.#refusal === SIDE_TOO_LARGE ? 'tooLarge' : error.why;
        this.#tell(error.why === 'full' ? 'full' : 'lost', why === 'lost' ? sentenceOfLoss(error.message) : UNSEATED[why]);
      }
      if (!this.#isStopped) {
        await this.#how.wait(pause);
        pause = Math.min(2 * pause, LONGEST_PAUSE);
      }
    }
  }

  /** Ends the connection and makes no other one. */
  stop() {
    this.#isStopped = true;
    this.#host?.close();
  }

  /**
   * Tells the listener a new state, unless the link was stopped.
   * @param {State} state
   * @param {string} text
   */
  #tell(state, text) {
    if (!this.#isStopped) {
      this.#listener.state(state, text);
    }
  }

  /** The seats to try first: the one that the page had, then the one that its address asks for. */
  #preferred() {
    const { seat } = this.#how;
    const wanted = seat === null ? [] : [{ host: 1, seat }];
    return this.at === null ? wanted : [this.at, ...wanted];
  }

  // Resolves with a promise of the loss of the connection.
  async #connect() {
    this.#tell('connecting', this.#how.hosts === 0 ? 'The page connects to its machine.' : 'The page looks for a seat.');
    const preferred = this.#preferred();
    const { urlOf, hosts, WebSocketClass } = this.#how;
    const seat = await sitDown({ urlOf, hosts, WebSocketClass, preferred, accepts: host => this.#restore(host) });
    this.at = { host: seat.number, seat: seat.seat };
    this.#host = seat.host;
    /** @type {Promise<import('./host.js').Lost>} */
    const lost = new Promise(ended => seat.host.onLost(loss => {
      this.#host = null;
      this.#countLoss();
      ended(loss);
    }));
    this.#tell('ready', sentenceOfSeat(seat, hosts, preferred));
    [...this.#pending].forEach(asked => this.#send(asked));
    if (this.#isStopped) {
      seat.host.close();
    }
    return { lost };
  }

  // A command that ends each connection is left out, so that the page goes on.
  #countLoss() {
    const asked = this.#pending[0];
    if (asked !== undefined) {
      asked.losses = (asked.losses ?? 0) + 1;
      if (asked.losses === MOST_LOSSES) {
        this.#answered(asked, LEFT_OUT);
      }
    }
  }

  /**
   * Makes the machine at the host the page's, and returns whether the host takes it.
   * @param {Host} host
   */
  async #restore(host) {
    const journal = this.#journal;
    const pending = new Set(this.#pending.map(({ entry }) => entry));
    const played = journal.entries.filter(entry => !pending.has(entry));
    if (journal.loadLine !== null) {
      this.#tell('playing back', 'The page loads its machine and plays the commands since again.');
      this.#refusal = faultOf(await host.ask(journal.loadLine));
      if (this.#refusal !== 0) {
        return false;
      }
    }
    const replies = await Promise.all(played.map(({ line }) => host.ask(line)));
    const saved = await host.ask(SAVE);
    played.forEach((entry, i) => this.#compare(entry, replies[i]));
    journal.checkpoint(loadLineOf(saved), played.at(-1)?.number ?? 0);
    this.#listener.restored(saved);
    return true;
  }

  /**
   * Reports a replayed command whose reply differs. Notes the reply if there was none.
   * @param {Noted} entry
   * @param {string} reply
   */
  #compare(entry, reply) {
    if (entry.reply === null) {
      this.#journal.answer(entry, reply);
    } else if (entry.reply !== reply) {
      this.#listener.diverged(entry.line, entry.reply, reply);
    }
  }
}
