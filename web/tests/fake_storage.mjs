// A browser's storage for tests, with a capacity.

/** Keys and texts, as localStorage has them. */
export class FakeStorage {
  /** @type {Map<string, string>} */
  texts = new Map();
  writes = 0;

  constructor(capacity = 5000000) {
    this.capacity = capacity;
  }

  get length() {
    return this.texts.size;
  }

  /** @param {number} i */
  key(i) {
    return [...this.texts.keys()][i] ?? null;
  }

  /** @param {string} key */
  getItem(key) {
    return this.texts.get(String(key)) ?? null;
  }

  /** @param {string} key @param {string} value */
  setItem(key, value) {
    const text = String(value);
    const used = [...this.texts].reduce((sum, [name, other]) => name === key ? sum : sum + name.length + other.length, 0);
    if (used + String(key).length + text.length > this.capacity) {
      throw new Error('QuotaExceededError');
    }
    this.writes++;
    this.texts.set(String(key), text);
  }

  /** @param {string} key */
  removeItem(key) {
    this.texts.delete(String(key));
  }

  /** The storage as it is now, for a page that is loaded again. */
  copy() {
    const other = new FakeStorage(this.capacity);
    other.texts = new Map(this.texts);
    return other;
  }
}
