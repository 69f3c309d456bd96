// One connection to whatever answers lines, and how the page takes a seat.

import { faultOf, lineOf, seat as seatOf } from './lines.js';

/**
 * @typedef {new (url: string) => Pick<WebSocket, 'onopen'|'onmessage'|'onclose'|'send'|'close'>} SocketClass
 * @typedef {InstanceType<SocketClass>} Socket
 * @typedef {{answered: (text: string) => void, failed: (lost: Lost) => void}} Waiting
 */

/** A connection that is over, or that never was. */
export class Lost extends Error {
  /**
   * @param {number} code the close code of the socket
   * @param {string} reason
   */
  constructor(code, reason) {
    super(reason || `the connection is over (${code})`);
    this.name = 'Lost';
    /** @type {number} */
    this.code = code;
    /** @type {string} */
    this.reason = reason;
  }
}

/** Lines and their replies over one WebSocket: a text message is a line, and each has one reply, in order. */
export class Host {
  #socket;
  /** @type {Waiting[]} */
  #waiting = [];
  /** @type {((lost: Lost) => void)[]} */
  #whenLost = [];
  /** @type {Lost|null} */
  #lost = null;

  /** @param {Socket} socket one that is open */
  constructor(socket) {
    this.#socket = socket;
    socket.onmessage = message => this.#answered(message.data);
    socket.onclose = close => this.#end(new Lost(close.code, close.reason));
  }

  /**
   * Opens a connection.
   * @param {string} url
   * @param {SocketClass} WebSocketClass
   * @returns {Promise<Host>} rejects with `Lost`
   */
  static open(url, WebSocketClass) {
    return new Promise((resolve, reject) => {
      const socket = new WebSocketClass(url);
      socket.onopen = () => resolve(new Host(socket));
      socket.onclose = close => reject(new Lost(close.code, close.reason));
    });
  }

  /**
   * Gives a message to the line that has waited longest. Closes if none waits, or if it is no text.
   * @param {unknown} text
   */
  #answered(text) {
    const waiting = this.#waiting.shift();
    if (waiting === undefined || typeof text !== 'string') {
      this.close();
    } else {
      waiting.answered(text);
    }
  }

  /**
   * Rejects all lines that wait, and calls those who wait for the loss.
   * @param {Lost} lost
   */
  #end(lost) {
    if (this.#lost !== null) {
      return;
    }
    this.#lost = lost;
    const waiting = this.#waiting;
    this.#waiting = [];
    waiting.forEach(({ failed }) => failed(lost));
    this.#whenLost.forEach(tell => tell(lost));
  }

  /**
   * Sends a line.
   * @param {string} line
   * @param {(text: string) => void} answered called with the reply as soon as it is there
   * @param {(lost: Lost) => void} [failed] called if the connection ends before, at once if it is over already
   */
  send(line, answered, failed = () => {}) {
    if (this.#lost !== null) {
      failed(this.#lost);
      return;
    }
    this.#waiting.push({ answered, failed });
    this.#socket.send(line);
  }

  /**
   * Sends a line and waits for its reply.
   * @param {string} line
   * @returns {Promise<string>} rejects with `Lost`
   */
  ask(line) {
    return new Promise((resolve, reject) => this.send(line, resolve, reject));
  }

  /** Ends the connection. Lines without a reply fail at once with `Lost`, and functions of `onLost` are called. */
  close() {
    this.#socket.close();
    this.#end(new Lost(1000, 'the page closed the connection'));
  }

  /**
   * Calls a function once after the connection is over, at once if it is over already.
   * @param {(lost: Lost) => void} tell
   */
  onLost(tell) {
    if (this.#lost !== null) {
      tell(this.#lost);
    } else {
      this.#whenLost.push(tell);
    }
  }
}

/** @typedef {'lost'|'full'|'refused'} Why */

/** No seat could be taken. */
export class NoSeat extends Error {
  /**
   * @param {Why} why no host was reached, or all seats are taken, or no host takes the machine
   * @param {string} reason
   */
  constructor(why, reason) {
    super(reason);
    this.name = 'NoSeat';
    /** @type {Why} */
    this.why = why;
  }
}

/**
 * @typedef {{host: number, seat: number}} At a host's number and a seat's
 * @typedef {{host: Host, number: number, seat: number, missed: number}} Seat
 * The host's number from 1 on, the seat's number from 1 on, and the fault with which the seat that was asked
 * for first was refused. Each is 0 if there is none. A machine of the page's own has host 0 and seat 0.
 *
 * @typedef {object} Where where hosts are
 * @property {(host: number) => string} urlOf the address of a host's socket; of host 0 for a machine of the page's own
 * @property {number} hosts how many hosts there are; 0 for a machine of the page's own
 * @property {SocketClass} WebSocketClass
 *
 * @typedef {object} Wanted
 * @property {At[]} preferred
 * @property {(host: Host) => Promise<boolean>} accepts whether the host takes the page's machine
 */

class Search {
  missed = 0;
  /** @type {Why} */
  why = 'lost';
  reason = '';

  /** @param {Where & Wanted} how */
  constructor(how) {
    this.how = how;
  }

  /**
   * Connects to a host and asks for a seat. The fault is 0 if the page got it; otherwise the connection is closed.
   * Host 0 is only connected to. Rejects with `Lost`.
   * @param {number} number
   * @param {number} seat
   */
  async ask(number, seat) {
    const { urlOf, WebSocketClass } = this.how;
    const host = await Host.open(urlOf(number), WebSocketClass);
    if (number === 0) {
      return { host, fault: 0 };
    }
    const fault = faultOf(await host.ask(lineOf(seatOf(seat))));
    if (fault !== 0) {
      host.close();
    }
    return { host, fault };
  }

  /**
   * The seat, if its machine accepts the journal. Otherwise closes the connection and returns null.
   * @type {(host: Host, number: number, seat: number) => Promise<Seat|null>}
   */
  async settle(host, number, seat) {
    if (await this.how.accepts(host)) {
      return { host, number, seat, missed: this.missed };
    }
    host.close();
    this.why = this.why === 'full' ? 'full' : 'refused';
    return null;
  }

  /**
   * Tries the preferred seats of a host, and then its seats from 1 on, until one is free. Resolves with that seat.
   * Resolves with null if none is free, or if the host doesn't take the page's machine. Rejects with `Lost`.
   * @param {number} number
   */
  async at(number) {
    const wanted = this.how.preferred.filter(at => at.host === number).map(at => at.seat);
    let fault = 0;
    for (let seat = 1; fault !== 81;) {
      const isWanted = wanted.length > 0;
      const asked = wanted.shift() ?? seat++;
      const reply = await this.ask(number, asked);
      if (reply.fault === 0) {
        return this.settle(reply.host, number, asked);
      }
      this.why = 'full';
      this.missed = isWanted ? reply.fault : this.missed;
      fault = isWanted ? 0 : reply.fault === 80 ? 0 : 81;
    }
    return null;
  }
}

/**
 * Sits down at a free seat of the first host that has one and takes the page's machine. Hosts with preferred seats
 * come first, and at each host its preferred seats do.
 * @param {Where & Wanted} how
 * @returns {Promise<Seat>} rejects with `NoSeat` if there is no such host
 */
export async function sitDown(how) {
  const search = new Search(how);
  const all = how.hosts === 0 ? [0] : Array.from({ length: how.hosts }, (_, i) => i + 1);
  const numbers = new Set([...how.preferred.map(at => at.host).filter(host => all.includes(host)), ...all]);
  for (const number of numbers) {
    try {
      const seat = await search.at(number);
      if (seat !== null) {
        return seat;
      }
    } catch (error) {
      if (!(error instanceof Lost)) {
        throw error;
      }
      search.reason = error.message;
    }
  }
  throw new NoSeat(search.why, search.reason);
}
