// Where a journal lies in the browser's storage.
//
// The head `cam6/NAME` names a generation. The keys of a generation are its load line and its slots of commands. A new
// generation is whole before the head names it. So whenever the page ends, a load line lies there with the commands
// that belong to it, but perhaps not the latest ones.

const MOST_KEPT = 8;

/**
 * @typedef {Pick<Storage, 'length'|'key'|'getItem'|'setItem'|'removeItem'>} Store what the page needs of a storage
 * @typedef {[line: string, reply: string|null, isZero: 0|1]} Row a command as it is kept
 * @typedef {{loadLine: string, first: string|null, count: number, slots: Row[][]}} Content
 * @typedef {{generation: number, first: string|null, count: number, when: number}} Head
 */

/**
 * The key of a journal's head.
 * @param {string} name
 */
const headOf = name => `cam6/${name}`;

/**
 * The name of a tab's journal: the one that the tab has, or else a new one, which the tab then keeps.
 * It is `page` if the tab has no storage, or one that fails.
 * @param {Pick<Storage, 'getItem'|'setItem'>|null} session the tab's own storage, if there is one
 * @param {() => number} [random]
 * @returns {string}
 */
export function nameOfTab(session, random = Math.random) {
  if (session === null) {
    return 'page';
  }
  try {
    const name = session.getItem('cam6') ?? newName(random);
    session.setItem('cam6', name);
    return name;
  } catch {
    return 'page';
  }
}

/**
 * A random name for a journal, or for its owner.
 * @param {() => number} random
 */
const newName = random => Math.floor(random() * 2 ** 48).toString(36);

/**
 * The keys of the storage that begin so.
 * @param {Store} storage
 * @param {string} prefix
 */
function keysOf(storage, prefix) {
  const keys = Array.from({ length: storage.length }, (_, i) => storage.key(i) ?? '');
  return keys.filter(key => key.startsWith(prefix));
}

/**
 * The head at a key, or null if there is none.
 * @param {Store} storage
 * @param {string} key
 * @returns {Head|null}
 */
const headAt = (storage, key) => JSON.parse(storage.getItem(key) ?? 'null');

/**
 * Removes a journal from the storage.
 * @param {Store} storage
 * @param {string} name
 */
function forget(storage, name) {
  storage.removeItem(headOf(name));
  keysOf(storage, `${headOf(name)}/`).forEach(key => storage.removeItem(key));
}

/**
 * The journals of a storage, the latest first.
 * @param {Store} storage
 * @returns {{name: string, when: number}[]} when each was last kept, in milliseconds since 1970
 */
export function journalsOf(storage) {
  const heads = keysOf(storage, 'cam6/').filter(key => key.split('/').length === 2);
  const found = heads.map(key => ({ name: key.slice(5), when: headAt(storage, key)?.when ?? 0 }));
  return found.sort((one, other) => other.when - one.when);
}

/** The place of one journal. Each method that writes returns whether the storage took it. */
export class JournalStorage {
  #storage;
  #random;
  #now;
  #owner;
  /** @type {Head|null} */
  #head = null;
  /** @type {string|null} */
  #first = null;

  /**
   * @param {Store|null} storage
   * @param {string} name
   * @param {{random?: () => number, now?: () => number}} by
   */
  constructor(storage, name, { random = Math.random, now = Date.now } = {}) {
    this.#storage = storage;
    this.#random = random;
    this.#now = now;
    this.#owner = newName(random);
    /** @type {string} */
    this.name = name;
  }

  /**
   * A key of this journal.
   * @param {(string|number)[]} parts
   */
  #key(...parts) {
    return [headOf(this.name), ...parts].join('/');
  }

  /**
   * Does something with the storage. Returns false if there is none, if `work` throws, or if it returns false.
   * @param {(storage: Store) => unknown} work
   */
  #tried(work) {
    try {
      return this.#storage !== null && work(this.#storage) !== false;
    } catch {
      return false;
    }
  }

  /**
   * Reads what lies here, and makes the place this page's own. Removes all journals but the eight latest.
   * @returns {Content|null} null if nothing whole lies here
   */
  read() {
    let content = null;
    this.#tried(storage => { content = this.#content(storage); });
    this.#tried(storage => storage.setItem(this.#key('owner'), this.#owner));
    this.#tried(storage => journalsOf(storage).slice(MOST_KEPT).forEach(({ name }) => forget(storage, name)));
    return content;
  }

  /**
   * The journal of the generation that its head names, or null if there is none.
   * @param {Store} storage
   */
  #content(storage) {
    const head = headAt(storage, this.#key());
    const loadLine = head && storage.getItem(this.#key(head.generation, 'save'));
    if (!loadLine) {
      return null;
    }
    /** @type {Row[][]} */
    const slots = [];
    for (let text; (text = storage.getItem(this.#key(head.generation, slots.length))) !== null;) {
      slots.push(JSON.parse(text));
    }
    this.#head = head;
    this.#first = head.first && storage.getItem(head.first);
    return { loadLine, first: this.#first, count: head.count, slots };
  }

  /** @returns {boolean} whether no other page took the place over, as a duplicated tab does; true without a storage */
  isOurs() {
    let isOurs = true;
    this.#tried(storage => { isOurs = storage.getItem(this.#key('owner')) === this.#owner; });
    return isOurs;
  }

  /** Goes on under a new name. Nothing is kept under it before `replace`. */
  moveOn() {
    this.name = newName(this.#random);
    this.#head = null;
    this.#first = null;
  }

  /**
   * Writes one slot anew.
   * @param {number} slot
   * @param {Row[]} rows
   * @returns {boolean}
   */
  write(slot, rows) {
    const head = this.#head;
    return head !== null
      && this.#tried(storage => storage.setItem(this.#key(head.generation, slot), JSON.stringify(rows)));
  }

  /**
   * Writes all anew. If there is no room, the oldest journals of other pages make room.
   * @param {Content} content
   * @returns {boolean} if false, what was here is here still
   */
  replace(content) {
    while (!this.#tried(storage => this.#replaced(storage, content))) {
      const hasRoom = this.#tried(storage => {
        const oldest = journalsOf(storage).filter(({ name }) => name !== this.name).pop();
        return oldest !== undefined && forget(storage, oldest.name);
      });
      if (!hasRoom) {
        return false;
      }
    }
    return true;
  }

  /**
   * Writes a new generation, names it in the head, and removes the old one. If it throws, the old one stays.
   * @param {Store} storage
   * @param {Content} content
   */
  #replaced(storage, { loadLine, first, count, slots }) {
    const generation = (this.#head?.generation ?? 0) + 1;
    const firstKey = first === null ? null
      : first === loadLine ? this.#key(generation, 'save')
        : this.#head && first === this.#first ? this.#head.first : this.#key(generation, 'first');
    try {
      storage.setItem(this.#key('owner'), this.#owner);
      storage.setItem(this.#key(generation, 'save'), loadLine);
      if (first !== null && firstKey === this.#key(generation, 'first')) {
        storage.setItem(firstKey, first);
      }
      slots.forEach((rows, slot) => storage.setItem(this.#key(generation, slot), JSON.stringify(rows)));
      const head = { generation, first: firstKey, count, when: this.#now() };
      storage.setItem(this.#key(), JSON.stringify(head));
      this.#head = head;
      this.#first = first;
    } catch (full) {
      keysOf(storage, this.#key(generation, '')).forEach(key => storage.removeItem(key));
      throw full;
    }
    /** @param {string} key */
    const isLive = key => key.startsWith(this.#key(generation, '')) || key === firstKey || key === this.#key('owner');
    keysOf(storage, this.#key('')).filter(key => !isLive(key)).forEach(key => storage.removeItem(key));
  }

  /** Removes this journal from the storage. The place stays this page's own. */
  clear() {
    this.#tried(storage => forget(storage, this.name));
    this.#tried(storage => storage.setItem(this.#key('owner'), this.#owner));
    this.#head = null;
    this.#first = null;
  }
}
