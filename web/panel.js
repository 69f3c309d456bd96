// The panels at the right: their tabs, and facts about the machine that is shown.

import { all, at, element, grouped, make, say, setText } from './dom.js';
import { cssOf, planesOf } from './screen.js';
import { reasonOf } from './trouble.js';

const EVERY = 250;      // milliseconds between two counts of the cells

/**
 * Joins the tabs: a click or an arrow shows another panel.
 * @param {() => void} shown called after another panel is shown
 */
export function joinTabs(shown) {
  const tabs = all(document, '[role="tab"]');
  /** @param {HTMLElement} chosen */
  const show = chosen => {
    for (const tab of tabs) {
      tab.setAttribute('aria-selected', String(tab === chosen));
      tab.tabIndex = tab === chosen ? 0 : -1;
      at(tab.getAttribute('aria-controls') ?? '').hidden = tab !== chosen;
    }
    shown();
  };
  tabs.forEach((tab, index) => {
    tab.addEventListener('click', () => show(tab));
    tab.addEventListener('keydown', event => {
      const by = event.key === 'ArrowLeft' ? -1 : event.key === 'ArrowRight' ? 1 : 0;
      if (by !== 0) {
        const next = tabs[(index + by + tabs.length) % tabs.length];
        event.stopPropagation();
        show(next);
        next.focus();
      }
    });
  });
}

/** The panel that says what the machine is. */
export class About {
  /** @param {import('./machine.js').Machine} machine */
  constructor(machine) {
    this.machine = machine;
    /** The latest question whether steps can be undone. */
    this.asked = {};
    /** The timer of the next count, or 0. */
    this.waits = 0;
  }

  /**
   * Says what is on the torus.
   * @param {string} title
   * @param {string} look what to look for
   */
  setTitle(title, look) {
    setText(at('title'), title);
    setText(at('about-title'), title);
    setText(at('about-look'), look);
    document.title = title ? `${title} - CAM-6` : 'CAM-6';
  }

  /** Says whether steps can be undone, and why not. */
  async update() {
    const { machine } = this;
    element('side', HTMLSelectElement).value = String(machine.side);
    this.count();
    const asked = this.asked = {};
    const back = await machine.canGoBack();
    if (asked === this.asked) {
      at('about-back').replaceChildren('fault' in back ? this.forgets(back.fault) : this.undoes());
    }
  }

  /** The text on a cycle that can be undone. */
  undoes() {
    return make('div', { className: 'card' }, say('strong', 'Time can run back.'), ' Back undoes each step exactly.');
  }

  /**
   * The text on a cycle that can't be undone.
   * @param {import('./lines.js').Refusal} answer
   */
  forgets(answer) {
    if (answer.fault === 63) {
      return say('p', 'There is no cycle yet. Define a rule, and it becomes the cycle.');
    }
    const reason = reasonOf(answer, this.machine);
    return make('div', { className: 'card bad' }, say('strong', "Time can't run back."), ...reason);
  }

  /** Counts the cells of each state a quarter of a second later, if the panel is shown. Calls until then are one. */
  changed() {
    if (!this.waits && !at('about').hidden) {
      this.waits = setTimeout(() => {
        this.waits = 0;
        this.count();
      }, EVERY);
    }
  }

  /** Counts the cells of each state. */
  count() {
    const { planes, colours } = this.machine;
    /** @type {number[]} */
    const counts = new Array(16).fill(0);
    for (const state of planes.cells) {
      counts[state]++;
    }
    const rows = counts.flatMap((count, state) => count === 0 ? [] : [this.makeRow(state, count, colours[state])]);
    element('about-cells', HTMLTableElement).tBodies[0].replaceChildren(...rows);
  }

  /**
   * A line of the table of states.
   * @param {number} state
   * @param {number} count
   * @param {number} colour
   */
  makeRow(state, count, colour) {
    const dot = make('span', { className: 'dot' });
    dot.style.background = cssOf(colour);
    return make('tr', {}, make('td', {}, dot, String(state)), say('td', planesOf(state)), say('td', grouped(count)));
  }
}
