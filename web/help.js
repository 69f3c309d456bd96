// The help panel, and dark and light.

import { at, element, first, keep, make, recall, say, storageOf } from './dom.js';
import { KEYS } from './keys.js';

const FIRST_STEPS = [
  'Press Run, and watch. Press Back: each step is undone exactly.',
  'Choose another rule in the gallery. Each has what to look for.',
  'Draw with the mouse or a finger. On a cell of the same state the pencil erases.',
  'Turn the wheel, or spread two fingers, to see cells larger.',
  'Drag with the right button, or with two fingers, to move the view.',
  'The torus has no edge. What lies beyond the bright square is the same torus again. Dashed lines are its seams.',
];
const KEPT = [
  'The browser keeps the machine and its steps. A reload goes on with them.',
  'If the connection is lost, the page tries again, and brings the machine along.',
  'Save writes the machine to a file. Load, or a drop on the torus, brings it back.',
  '#seat=3 after the address asks for seat 3.',
];
const FLASHING = [
  'Some rules invert all cells at each step. The page shows two steps a frame of them, so that nothing flashes.',
  'More than three flashes a second can harm people with photosensitive epilepsy.',
];

/** Joins the help button, and the close button of each dialog. */
export function joinHelp() {
  const open = () => {
    const place = at('help-text');
    if (place.children.length === 0) {
      place.append(...helpSections());
    }
    element('help-dialog', HTMLDialogElement).showModal();
  };
  at('help').addEventListener('click', open);
  for (const dialog of document.querySelectorAll('dialog')) {
    first(dialog, '[data-close]').addEventListener('click', () => dialog.close());
  }
}

/** The two sections of the help as new elements: texts, and the table of keys. */
function helpSections() {
  /** @type {(title: string, items: string[]) => HTMLElement[]} */
  const list = (title, items) => [say('h3', title), make('ul', {}, ...items.map(item => say('li', item)))];
  const rows = KEYS.map(([, shown, , does]) => make('tr', {}, make('td', {}, say('kbd', shown)), say('td', does)));
  const keys = make('table', {}, make('tbody', {}, ...rows));
  const texts = [list('First steps', FIRST_STEPS), list('What is kept', KEPT), list('Flashing', FLASHING)];
  return [make('section', {}, ...texts.flat()), make('section', {}, say('h3', 'Keys'), keys)];
}

/**
 * Joins the switch of dark and light. Without a choice the page goes with the system.
 * @param {() => void} changed called at once, and after each change
 */
export function joinTheme(changed) {
  const system = matchMedia('(prefers-color-scheme: dark)');
  const root = document.documentElement;
  const storage = storageOf('localStorage');
  const show = () => {
    root.dataset.theme = recall(storage, 'cam6-theme') ?? (system.matches ? 'dark' : 'light');
    changed();
  };
  system.addEventListener('change', show);
  at('theme').addEventListener('click', () => {
    keep(storage, 'cam6-theme', root.dataset.theme === 'dark' ? 'light' : 'dark');
    show();
  });
  show();
}
