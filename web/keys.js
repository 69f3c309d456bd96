// The keys of the page: what each does, for the page and for its help.

import { takesText } from './dom.js';

/**
 * The keys: how a key is called by the browser and by people, the action and its words.
 * @type {ReadonlyArray<[key: string, shown: string, action: string, does: string]>}
 */
export const KEYS = Object.freeze([
  [' ', 'Space', 'run', 'run, or pause'],
  ['b', 'B', 'runBack', 'run back'],
  ['ArrowRight', '→', 'step', 'do one step'],
  ['ArrowLeft', '←', 'back', 'undo one step'],
  ['Home', 'Home', 'start', 'go to the first state'],
  ['+', '+', 'faster', 'turn the dial right'],
  ['-', '-', 'slower', 'turn the dial left'],
  ['1', '1 to 9', 'each', 'steps a frame'],
  ['0', '0', 'fit', 'show the whole torus'],
  ['p', 'P', 'pencil', 'pencil'],
  ['l', 'L', 'line', 'line'],
  ['o', 'O', 'box', 'box'],
  ['f', 'F', 'fill', 'fill'],
  ['r', 'R', 'random', 'random'],
  ['s', 'S', 'select', 'select'],
  ['v', 'V', 'pan', 'move the view'],
  ['t', 'T', 'turn', 'turn the selection'],
  ['m', 'M', 'mirror', 'mirror the selection'],
  ['Enter', 'Enter', 'put', 'put a piece down'],
  ['Escape', 'Esc', 'escape', 'give up'],
  ['Delete', 'Del', 'erase', 'clear the selection'],
  ['g', 'G', 'gallery', 'open the gallery'],
  ['h', 'H', 'help', 'open this page'],
]);

/** @type {Readonly<Record<string, string>>} keys that do what other keys do */
const SAME = Object.freeze({ '=': '+', _: '-', '?': 'h', Backspace: 'Delete' });
const ON_BUTTONS = new Set(['Enter']);

/** @typedef {Record<string, (event: KeyboardEvent) => unknown>} Actions by the names of KEYS */

/**
 * Joins the keys to what they do. Keys that a field, a list or a dialog takes are left to it. An action that
 * returns false leaves its key to the browser.
 * @param {Actions} actions
 */
export function joinKeys(actions) {
  const byKey = new Map(KEYS.map(([key, , action]) => [key, action]));
  document.addEventListener('keydown', event => {
    const isBusy = takesText(event.target) || event.altKey || document.querySelector('dialog[open]');
    if (isBusy || event.defaultPrevented) {
      return;
    }
    if (event.ctrlKey || event.metaKey) {
      handleControlKey(event, actions);
      return;
    }
    const pressed = event.key.length === 1 ? event.key.toLowerCase() : event.key;
    const key = /^[1-9]$/.test(pressed) ? '1' : SAME[pressed] ?? pressed;
    const target = event.target instanceof Element ? event.target : null;
    const isOfButton = ON_BUTTONS.has(key) && target?.matches('button, a, [role="tab"]');
    const isOfRange = target?.matches('input[type="range"]') && /^(Arrow|Home)/.test(key);
    const action = byKey.get(key);
    if (action !== undefined && !isOfButton && !isOfRange && actions[action](event) !== false) {
      event.preventDefault();
    }
  });
}

/**
 * Does what a key with Ctrl stands for. Copies and pastes come as events of the clipboard.
 * @param {KeyboardEvent} event
 * @param {Actions} actions
 */
function handleControlKey(event, actions) {
  const key = event.key.toLowerCase();
  const act = key === 'z' ? actions.undo : key === 'a' ? actions.selectAll : null;
  if (act) {
    event.preventDefault();
    act(event);
  }
}

/**
 * Gives the torus the keys again after a click on a button by a pointer, so that the space bar runs and pauses.
 * @param {HTMLElement} torus
 */
export function giveKeysBack(torus) {
  document.addEventListener('click', event => {
    const button = event.target instanceof Element ? event.target.closest('button') : null;
    if (button && event.detail > 0 && !button.closest('dialog, #panel')) {
      torus.focus({ preventScroll: true });
    }
  });
}
