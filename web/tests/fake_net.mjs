// Hosts and sockets for tests. A connection can be cut at each message, before or after it is done.

import { OracleMachine } from './oracle_machine.mjs';

/** What is at the other end of sockets: machines of their own, or hosts with seats. */
export class FakeNet {
  isUp = true;
  messages = 0;
  opened = 0;
  /** @type {Set<FakeSocket>} */
  sockets = new Set();
  /** @type {Map<number, 'before'|'after'>} */
  cuts = new Map();
  /** The machine at the last connection. */
  machine = new OracleMachine();
  /** @type {string[]} */
  heard = [];

  /** @param {{hosts?: {seats: number, limit?: number, isUp?: boolean}[], limit?: number}} what */
  constructor({ hosts = [], limit = 512 } = {}) {
    this.limit = limit;
    /** @type {{isUp: boolean, machines: OracleMachine[], taken: Set<number>}[]} */
    this.hosts = hosts.map(({ seats, limit: most = 256, isUp = true }) => ({
      isUp,
      machines: Array.from({ length: seats }, () => new OracleMachine(most)),
      taken: new Set(),
    }));
    const net = this;
    this.WebSocket = class extends FakeSocket {
      /** @param {string} url */
      constructor(url) {
        super(net, url);
      }
    };
  }

  /**
   * Where the page finds a host.
   * @param {number} number
   */
  urlOf(number) {
    return number === 0 ? 'ws://test/ws' : `ws://test/ws/${number}`;
  }

  /**
   * Cuts the connection at a message, before it is done or after.
   * @param {number} n which message of all that are sent, counted from 1
   * @param {'before'|'after'} when
   */
  cutAt(n, when) {
    this.cuts.set(n, when);
  }

  /** Cuts all connections. */
  cutAll() {
    [...this.sockets].forEach(socket => socket.end(1001, 'the host is gone'));
  }
}

class FakeSocket {
  /** @type {((opened: Event) => void)|null} */
  onopen = null;
  /** @type {((message: MessageEvent) => void)|null} */
  onmessage = null;
  /** @type {((closed: CloseEvent) => void)|null} */
  onclose = null;
  isOpen = false;
  /** @type {number|null} */
  seat = null;
  /** @type {OracleMachine|null} */
  machine = null;

  /** @param {FakeNet} net @param {string} url */
  constructor(net, url) {
    this.net = net;
    this.number = Number(url.split('/ws/')[1] ?? 0);
    net.opened++;
    setImmediate(() => this.open());
  }

  /** Opens the socket, or closes it at once if the network or the host is down. */
  open() {
    const host = this.number === 0 ? this.net : this.net.hosts[this.number - 1];
    if (!this.net.isUp || !host.isUp) {
      this.tellClosed(1001, 'the host is gone');
      return;
    }
    this.isOpen = true;
    this.net.sockets.add(this);
    if (this.number === 0) {
      this.machine = this.net.machine = new OracleMachine(this.net.limit);
    }
    this.onopen?.(new Event('open'));
  }

  /** @param {string} line */
  send(line) {
    setImmediate(() => this.arrived(line));
  }

  /**
   * Takes a line that a page has sent.
   * @param {string} line
   */
  arrived(line) {
    if (!this.isOpen) {
      return;
    }
    const cut = this.net.cuts.get(++this.net.messages);
    if (cut === 'before') {
      this.end(1001, 'the host is gone');
      return;
    }
    this.net.heard.push(line);
    const reply = this.machine === null ? this.sitDown(line) : this.machine.respond(line);
    if (cut === 'after') {
      this.end(1001, 'the host is gone');
      return;
    }
    setImmediate(() => {
      if (this.isOpen) {
        this.onmessage?.(new MessageEvent('message', { data: reply }));
        if (reply === '{"fault":80}' || reply === '{"fault":81}') {
          this.end(1001, 'the host ended');
        }
      }
    });
  }

  /**
   * Answers the first line, which asks for a seat.
   * @param {string} line
   */
  sitDown(line) {
    const host = this.net.hosts[this.number - 1];
    const { seat } = JSON.parse(line);
    if (seat > host.machines.length) {
      return '{"fault":81}';
    }
    if (host.taken.has(seat)) {
      return '{"fault":80}';
    }
    host.taken.add(seat);
    this.seat = seat;
    this.machine = this.net.machine = host.machines[seat - 1];
    return '{"ok":"seat"}';
  }

  /**
   * Calls the page's handler of the end.
   * @param {number} code
   * @param {string} reason
   */
  tellClosed(code, reason) {
    this.onclose?.(Object.assign(new Event('close'), { code, reason, wasClean: true }));
  }

  /**
   * Closes the socket from the side of the host.
   * @param {number} code
   * @param {string} reason
   */
  end(code, reason) {
    if (!this.isOpen) {
      return;
    }
    this.isOpen = false;
    this.net.sockets.delete(this);
    if (this.seat !== null) {
      this.net.hosts[this.number - 1].taken.delete(this.seat);
    }
    this.tellClosed(code, reason);
  }

  close() {
    this.end(1000, '');
  }
}
