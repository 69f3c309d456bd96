// The gallery: twenty rules as a menu with pictures.

import { at, element, make, makeButton, say } from './dom.js';

/** @typedef {import('./gallery.js').Entry} Entry */

/** The menu of the gallery. */
export class GalleryMenu {
  /**
   * @param {Entry[]} entries
   * @param {(entry: Entry) => void} choose what a chosen entry does
   */
  constructor(entries, choose) {
    this.entries = entries;
    this.choose = choose;
    this.dialog = element('gallery-dialog', HTMLDialogElement);
    at('gallery').addEventListener('click', () => this.open());
  }

  /** Shows the menu. */
  open() {
    const list = at('gallery-list');
    if (list.children.length === 0) {
      list.append(...this.entries.map(entry => this.makeCard(entry)));
    }
    this.dialog.showModal();
  }

  /**
   * A picture with its title and what to look for.
   * @param {Entry} entry
   */
  makeCard(entry) {
    const tags = [...entry.back ? ['can be undone'] : [], ...entry.flashes ? ['two steps a frame'] : []]
      .map(textContent => make('i', { className: 'tag', textContent }));
    const card = makeButton({ data: { entry: entry.name } }, () => {
      this.dialog.close();
      this.choose(entry);
    });
    card.append(
      make('img', { src: entry.picture, alt: '', width: 96, height: 96 }),
      say('strong', entry.title),
      make('span', {}, entry.lookFor, make('br'), ...tags),
    );
    return card;
  }
}
