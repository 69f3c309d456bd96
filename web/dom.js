// Small helps over the document that all parts of the page use.

/**
 * Returns an element that is there and of a type. Throws an `Error` otherwise.
 * @template {Element} T
 * @param {Element|null} found
 * @param {new () => T} type
 * @param {string} name how the page calls it
 * @returns {T}
 */
function checked(found, type, name) {
  if (found instanceof type) {
    return found;
  }
  throw new Error(found ? `the element ${name} is no ${type.name}` : `the page has no element ${name}`);
}

/**
 * The element with this id. Throws an `Error` if there is none, or if it isn't of the type.
 * @template {HTMLElement} T
 * @param {string} id
 * @param {new () => T} type
 */
export const element = (id, type) => checked(document.getElementById(id), type, id);

/**
 * The element with this id. Throws an `Error` if there is none.
 * @param {string} id
 */
export const at = id => element(id, HTMLElement);

/**
 * The first element in another one that fits a selector. Throws an `Error` if there is none.
 * @param {Element} parent
 * @param {string} selector
 */
export const first = (parent, selector) => checked(parent.querySelector(selector), HTMLElement, selector);

/**
 * All elements in another one that fit a selector, in the order of the page; an empty array if none does.
 * @param {ParentNode} parent
 * @param {string} selector
 */
export const all = (parent, selector) =>
  [...parent.querySelectorAll(selector)].map(found => checked(found, HTMLElement, selector));

/**
 * The 2D context of a canvas. Throws an `Error` if the browser has none.
 * @param {HTMLCanvasElement} canvas
 * @param {CanvasRenderingContext2DSettings} [settings]
 */
export function contextOf(canvas, settings) {
  const context = canvas.getContext('2d', settings);
  if (!context) {
    throw new Error('the browser draws on no canvas');
  }
  return context;
}

/**
 * @template {keyof HTMLElementTagNameMap} K
 * @typedef {Partial<Omit<HTMLElementTagNameMap[K], 'data'>> & {data?: Record<string, unknown>}} Properties
 * those of an element; `data` goes into its dataset
 */

/**
 * Makes an element. It is not yet on the page.
 * @template {keyof HTMLElementTagNameMap} K
 * @param {K} tag
 * @param {Properties<K>} properties
 * @param {(Node|string)[]} children
 */
export function make(tag, { data, ...properties } = {}, ...children) {
  const made = document.createElement(tag);
  Object.assign(made, properties);
  Object.assign(made.dataset, data);
  made.append(...children);
  return made;
}

/**
 * Makes an element that has a text and nothing else.
 * @template {keyof HTMLElementTagNameMap} K
 * @param {K} tag
 * @param {string|number} text
 */
export const say = (tag, text) => make(tag, {}, String(text));

/**
 * A text in parts, in order: strings, and `code` elements for what stands between backticks.
 * @param {string} text
 * @returns {(Node|string)[]}
 */
export const spelled = text => text.split('`').map((part, i) => i % 2 === 1 ? say('code', part) : part);

/**
 * The text with its first letter as a capital one.
 * @param {string} text
 */
export const capital = text => text.charAt(0).toUpperCase() + text.slice(1);

/**
 * Makes a button.
 * @param {Properties<'button'>} properties
 * @param {() => unknown} act what a click does
 */
export function makeButton(properties, act) {
  const button = make('button', properties);
  button.addEventListener('click', act);
  return button;
}

/**
 * Joins elements to what clicks on them do. Throws an `Error` if one isn't there.
 * @param {Record<string, () => unknown>} actions by the element's id
 */
export function joinClicks(actions) {
  for (const [id, act] of Object.entries(actions)) {
    at(id).addEventListener('click', act);
  }
}

/**
 * Makes a menu of choices.
 * @param {Iterable<string|[string, string]>} choices each a value, or a value and what is shown
 * @param {string} value the one that is chosen
 * @param {Properties<'select'>} [properties]
 */
export function makeSelect(choices, value, properties) {
  const select = make('select', properties);
  fillSelect(select, choices, value);
  return select;
}

/**
 * Gives a list new choices.
 * @param {HTMLSelectElement} select
 * @param {Iterable<string|[string, string]>} choices
 * @param {string} value
 */
export function fillSelect(select, choices, value) {
  select.replaceChildren(...[...choices].map(choice => {
    const [key, shown] = Array.isArray(choice) ? choice : [choice, choice];
    return new Option(shown, key);
  }));
  select.value = value;
}

/**
 * Shows on a button whether it is pressed.
 * @param {HTMLElement} button
 * @param {boolean} isPressed
 */
export function setPressed(button, isPressed) {
  button.setAttribute('aria-pressed', String(isPressed));
}

/**
 * Sets a text only if it has changed, so that nothing is laid out or read aloud in vain.
 * @param {Node} node
 * @param {string|number} text
 */
export function setText(node, text) {
  const content = String(text);
  if (node.textContent !== content) {
    node.textContent = content;
  }
}

/**
 * Says something to screen readers. They read a text that is said twice in a row only once.
 * @param {string} text
 */
export function announce(text) {
  setText(at('announcement'), text);
}

/**
 * Shows a short note over the torus for four seconds, in place of an older one.
 * @param {string} text
 */
export function note(text) {
  const place = at('note');
  setText(place, text);
  place.hidden = false;
  const shown = String(performance.now());
  place.dataset.shown = shown;
  setTimeout(() => {
    if (place.dataset.shown === shown) {
      place.hidden = true;
    }
  }, 4000);
}

/**
 * Lets the browser download a file.
 * @param {string} name
 * @param {Blob} blob
 */
export function download(name, blob) {
  const link = make('a', { href: URL.createObjectURL(blob), download: name });
  document.body.append(link);
  link.click();
  link.remove();
  setTimeout(() => URL.revokeObjectURL(link.href), 60000);
}

/**
 * Whether keys belong to an element: a text area, a menu, or an input but for sliders and checkboxes.
 * @param {EventTarget|null} target
 * @returns {boolean}
 */
export function takesText(target) {
  const fields = 'textarea, select, input:not([type="range"], [type="checkbox"])';
  return target instanceof HTMLElement && target.matches(fields);
}

/**
 * The whole number of a field, rounded and kept within its `min` and `max`. A text that is no number counts as 0.
 * @param {HTMLInputElement} field
 * @returns {number}
 */
export function numberOf(field) {
  const value = Math.round(Number(field.value)) || 0;
  return Math.min(Number(field.max), Math.max(Number(field.min), value));
}

/**
 * The browser's storage, or null if the browser allows none.
 * @param {'localStorage'|'sessionStorage'} kind of all pages, or of this tab alone
 * @returns {Storage|null}
 */
export function storageOf(kind) {
  try {
    return window[kind];
  } catch {
    return null;
  }
}

/**
 * The text that is kept under a name; null if there is none, or no storage.
 * @param {Storage|null} storage
 * @param {string} name
 * @returns {string|null}
 */
export const recall = (storage, name) => storage?.getItem(name) ?? null;

/**
 * Keeps a text, if the browser can. The page goes on without it.
 * @param {Storage|null} storage
 * @param {string} name
 * @param {string} text
 */
export function keep(storage, name, text) {
  try {
    storage?.setItem(name, text);
  } catch {
    // The storage is full.
  }
}

/**
 * A whole number with a comma after each three digits from the right, as 12,345.
 * @param {number} value
 */
export const grouped = value => String(value).replace(/\B(?=(\d{3})+$)/g, ',');
