// Events with a detail, for the node of Debian 12, which has none.

class DetailedEvent extends Event {
  /** @param {string} type @param {{detail?: unknown}} how */
  constructor(type, { detail = null } = {}) {
    super(type);
    this.detail = detail;
  }
}

// Browsers have it, and so has node from version 19 on.
Object.assign(globalThis, { CustomEvent: globalThis.CustomEvent ?? DetailedEvent });
