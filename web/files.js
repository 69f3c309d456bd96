// Files and texts: machines, patterns, pictures and films.

import { at, download, element, joinClicks, note, numberOf, setText, takesText } from './dom.js';
import { coloursShown } from './palette.js';
import { Film, picture } from './film.js';
import { messageOf } from './trouble.js';

/**
 * Whether a text is to be read as a machine or a list of commands, since it begins with `{`. Others are patterns.
 * @param {string} text
 */
const isMachine = text => text.trimStart().startsWith('{');

/**
 * Whether an event belongs to a dialog or to a field that takes text.
 * @param {Event} event
 */
const isBusy = event => document.querySelector('dialog[open]') !== null || takesText(event.target);

/** Everything that comes into the page, or leaves it, as a file or a text. */
export class Files {
  /**
   * @param {import('./machine.js').Machine} machine
   * @param {import('./screen.js').Screen} screen
   * @param {import('./piece.js').Piece} piece
   * @param {import('./controls.js').Controls} time
   * @param {(name: string) => void} loaded called after another machine was loaded
   */
  constructor(machine, screen, piece, time, loaded) {
    this.machine = machine;
    this.screen = screen;
    this.piece = piece;
    this.time = time;
    this.loaded = loaded;
    this.text = element('paste-text', HTMLTextAreaElement);
    this.patterns = element('pattern-dialog', HTMLDialogElement);
    this.pictures = element('picture-dialog', HTMLDialogElement);
    this.isFilming = false;
    this.listen();
    this.listenToTexts();
  }

  /** Joins the buttons. */
  listen() {
    const input = element('load-file', HTMLInputElement);
    joinClicks({
      'save-file': () => this.save(),
      'load-button': () => input.click(),
      pattern: () => this.patterns.showModal(),
      paste: () => this.paste(),
      'take-text': () => {
        this.text.value = this.piece.asText();
      },
      'keep-picture': () => this.pictures.showModal(),
      picture: () => this.keepPicture(),
      film: () => this.keepFilm(),
    });
    input.addEventListener('change', async () => {
      const file = input.files?.[0];
      if (file) {
        await this.take(await file.text(), file.name);
      }
      input.value = '';
    });
  }

  /** Joins the clipboard, and files that are dropped on the page. */
  listenToTexts() {
    document.addEventListener('paste', event => {
      if (!isBusy(event)) {
        event.preventDefault();
        this.take(event.clipboardData?.getData('text/plain') ?? '', 'the clipboard');
      }
    });
    document.addEventListener('copy', event => this.copy(event));
    document.addEventListener('cut', event => this.copy(event) && this.piece.erase());
    document.addEventListener('dragover', event => event.preventDefault());
    document.addEventListener('drop', async event => {
      event.preventDefault();
      const file = event.dataTransfer?.files[0];
      const text = file ? await file.text() : event.dataTransfer?.getData('text/plain');
      await this.take(text ?? '', file?.name ?? 'the text');
    });
  }

  /**
   * Copies the selection to the clipboard, if there is one. Returns whether it did.
   * @param {ClipboardEvent} event
   */
  copy(event) {
    if (isBusy(event) || !this.piece.frame) {
      return false;
    }
    event.preventDefault();
    event.clipboardData?.setData('text/plain', this.piece.copy());
    return true;
  }

  /**
   * Loads a text that begins with `{`, or pastes any other as a pattern. An empty text does nothing.
   * An error is shown, not thrown.
   * @param {string} text
   * @param {string} name of its file; without its ending it becomes the machine's title
   */
  async take(text, name) {
    try {
      if (isMachine(text)) {
        this.time.pause();
        await this.time.hold();
        await this.machine.load(text).finally(() => this.time.release());
        this.loaded(name.replace(/\.[a-z0-9]+$/i, ''));
      } else if (text.trim() !== '') {
        await this.piece.pasteText(text);
      }
    } catch (error) {
      this.time.fail(error);
    }
  }

  /** Pastes the text of the dialog as a pattern and closes the dialog, or shows there why it is none. */
  async paste() {
    const place = at('paste-fault');
    place.hidden = true;
    try {
      await this.piece.pasteText(this.text.value);
      this.patterns.close();
      this.screen.torus.canvas.focus({ preventScroll: true });
      note('Drag the piece to its place. Enter puts it there.');
    } catch (error) {
      place.textContent = messageOf(error);
      place.hidden = false;
    }
  }

  /**
   * A name for a file of what is on the torus, from the title and the count: `title-12.png`.
   * @param {string} ending without a dot
   */
  nameOf(ending) {
    const title = (at('title').textContent ?? '').toLowerCase().replace(/[^a-z0-9]+/g, '-').replace(/^-|-$/g, '');
    return `${title || 'cam6'}-${this.machine.count}.${ending}`;
  }

  /** Lets the browser download the machine as a file with one load line. */
  async save() {
    const line = await this.machine.save();
    download(this.nameOf('cam6'), new Blob([line, '\n'], { type: 'application/json' }));
    note('The file has the whole machine. Load brings it back.');
  }

  /**
   * The colours 0 to 15 of cells if only the planes that are shown count.
   * @param {Uint8Array} cells states
   */
  coloursOf(cells) {
    const colours = coloursShown(this.machine.colours, this.screen.shown);
    return cells.map(state => colours[state]);
  }

  /** @returns {number} the pixels of a file for each cell */
  get scale() {
    return Number(element('picture-scale', HTMLSelectElement).value);
  }

  /** Lets the browser download a PNG picture of the torus as it is shown. */
  async keepPicture() {
    const { side, cells } = this.screen.cells;
    const bytes = await picture(this.coloursOf(cells), side, side, { scale: this.scale });
    download(this.nameOf('png'), new Blob([bytes], { type: 'image/png' }));
    this.pictures.close();
  }

  /** Does steps, and lets the browser download a film of them. A second call ends the first one's film early. */
  async keepFilm() {
    if (this.isFilming) {
      this.isFilming = false;
      return;
    }
    this.isFilming = true;
    this.time.pause();
    await this.time.hold();
    this.tellFilm('Stop');
    try {
      const { side } = this.machine;
      /** @param {string} id */
      const field = id => element(`film-${id}`, HTMLInputElement);
      const film = new Film(side, side, { scale: this.scale, rate: numberOf(field('rate')) });
      await this.shoot(film, numberOf(field('frames')), field('back').checked);
      download(this.nameOf('png'), new Blob([await film.bytes()], { type: 'image/png' }));
      setText(at('film-says'), `The film has ${film.length} frames.`);
    } catch (error) {
      this.pictures.close();
      this.time.fail(error);
    } finally {
      this.isFilming = false;
      this.time.release();
      this.tellFilm('Film');
    }
  }

  /**
   * Says on the button what it does.
   * @param {string} text
   */
  tellFilm(text) {
    const button = at('film');
    setText(button.lastChild ?? button, text);
  }

  /**
   * Adds the frames of a film and does the steps between them, unless it is ended early.
   * @param {Film} film
   * @param {number} count frames of the way on
   * @param {boolean} goesBack whether the same frames follow in reverse, by steps undone
   */
  async shoot(film, count, goesBack) {
    const { each } = this.time;
    const add = () => {
      film.add(this.coloursOf(this.machine.planes.cells));
      setText(at('film-says'), `Frame ${film.length} of ${goesBack ? 2 * count - 1 : count}`);
    };
    add();
    while (this.isFilming && film.length < count) {
      await this.machine.run(each);
      add();
    }
    for (let left = film.length - 1; goesBack && this.isFilming && left > 0; left--) {
      await this.machine.back(each);
      add();
    }
  }
}
