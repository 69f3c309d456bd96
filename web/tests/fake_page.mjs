// As much of a browser as the parts of the page need that are tried without one. Nothing is drawn, and no frame comes.

import { inRepository } from './repository.mjs';

const html = inRepository('web/index.html');

class HTMLElement extends EventTarget {
  hidden = false;
  textContent = '';
  dataset = {};
  style = {};
  classList = { add() {}, remove() {}, toggle() {} };

  append() {}

  replaceChildren() {}

  setAttribute() {}

  querySelector() {
    return new HTMLElement();
  }

  querySelectorAll() {
    return [];
  }
}

class HTMLInputElement extends HTMLElement {
  min = '';
  max = '';
  value = '';
}

class HTMLCanvasElement extends HTMLElement {}

/**
 * A new element of a tag.
 * @param {string} tag
 */
const made = tag => tag === 'input' ? new HTMLInputElement() : tag === 'canvas' ? new HTMLCanvasElement() : new HTMLElement();

class FakeDocument extends EventTarget {
  /** @type {Map<string, HTMLElement>} */
  elements = new Map();
  createElement = made;

  querySelector() {
    return null;
  }

  /**
   * An element as index.html has it, but without what is in it.
   * @param {string} id
   */
  getElementById(id) {
    const found = new RegExp(`<(\\w+)( [^>]*)?\\bid="${id}"[^>]*`).exec(html);
    if (found && !this.elements.has(id)) {
      const attributes = [...found[0].matchAll(/\b(min|max|value)="([^"]*)"/g)].map(([, name, value]) => [name, value]);
      this.elements.set(id, Object.assign(made(found[1]), Object.fromEntries(attributes)));
    }
    return this.elements.get(id) ?? null;
  }
}

/** Gives node the page. */
export function openPage() {
  Object.assign(globalThis, {
    Element: HTMLElement, HTMLElement, HTMLInputElement, HTMLCanvasElement,
    document: new FakeDocument(),
    requestAnimationFrame: () => 0,
    ResizeObserver: class {
      observe() {}
    },
  });
}
