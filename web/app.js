// Starts the page: makes its parts and joins them.

import { About, joinTabs } from './panel.js';
import { Controls } from './controls.js';
import { Cycle } from './cycle.js';
import { Editor, seesBlocks } from './editor.js';
import { Files } from './files.js';
import { GALLERY } from './gallery.js';
import { GalleryMenu } from './gallery_menu.js';
import { Gestures } from './gestures.js';
import { Machine } from './machine.js';
import { Piece } from './piece.js';
import { Screen } from './screen.js';
import { Tools } from './tools.js';
import { Torus } from './torus.js';
import { at, element, joinClicks, keep, note, recall, storageOf } from './dom.js';
import { coloursShown } from './palette.js';
import { FlashMeter, flashes } from './dial.js';
import { giveKeysBack, joinKeys } from './keys.js';
import { hideTrouble, showError, tellState } from './trouble.js';
import { joinHelp, joinTheme } from './help.js';
import { nameOfTab } from './journal.js';

/**
 * @typedef {import('./gallery.js').Entry} Entry
 * @typedef {{title: string, lookFor: string, name?: string}} Shown what the page shows of a machine
 */

const DIVERGED = 'A command that was done again had another reply. The page shows what the machine has now.';
const NOT_KEPT = 'The browser keeps no more. Save the machine as a file.';
const BLANK = Object.freeze({ title: 'New machine', lookFor: 'Define a rule, draw some cells, and press Run.' });
const CALM = 4;         // frames a second at first, if somebody asked for less motion

/** @returns {number|null} the seat that the page's address asks for by `#seat=N`; null if it asks for none */
function seatOfAddress() {
  const found = /[#&]seat=(\d+)/.exec(location.hash);
  return found ? Number(found[1]) : null;
}

/** Asks the server for the number of hosts, and makes the page's machine. It is not yet connected. */
async function makeMachine() {
  const hosts = Number(await (await fetch('/hosts')).text()) || 0;
  const base = `${location.protocol === 'https:' ? 'wss' : 'ws'}://${location.host}/ws`;
  const session = storageOf('sessionStorage');
  return new Machine({
    hosts,
    urlOf: host => host > 0 ? `${base}/${host}` : base,
    WebSocketClass: WebSocket,
    storage: storageOf('localStorage'),
    name: nameOfTab(session),
    onRenamed: name => session?.setItem('cam6', name),
    seat: seatOfAddress(),
  });
}

/** The parts of the page. */
class Page {
  /** @param {Machine} machine */
  constructor(machine) {
    this.machine = machine;
    this.tab = storageOf('sessionStorage');
    this.isNew = false;
    this.sides = element('side', HTMLSelectElement);
    this.torus = new Torus(element('torus', HTMLCanvasElement), element('cells', HTMLCanvasElement));
    this.screen = new Screen(machine, this.torus);
    this.time = new Controls(machine, error => showError(error, machine), () => this.piece.put());
    /** @type {Piece} */
    this.piece = new Piece(machine, this.screen, this.time, () => this.tools);
    /** @type {Tools} */
    this.tools = new Tools(machine, this.screen, this.piece, this.time);
    this.about = new About(machine);
    this.editor = new Editor(machine, this.time);
    this.cycle = new Cycle(machine, this.time);
    this.files = new Files(machine, this.screen, this.piece, this.time, name => this.loaded(name));
    this.gallery = new GalleryMenu(GALLERY, entry => this.choose(entry));
    this.gestures = new Gestures(this.torus, this.tools);
    this.meter = new FlashMeter();
    this.join();
  }

  /** Joins the parts to what the machine tells, and to keys. */
  join() {
    const { machine } = this;
    machine.on('state', ({ text }) => tellState(machine, text));
    machine.on('planes', () => this.planesChanged());
    machine.on('position', () => this.positionChanged());
    machine.on('rules', () => this.rulesChanged());
    machine.on('diverged', () => note(DIVERGED));
    machine.on('kept', ({ isKept }) => isKept || note(NOT_KEPT));
    joinClicks({
      fit: () => this.torus.fit(),
      blank: () => this.change(() => machine.startOver(), BLANK),
      'turn-round': () => this.turnRound(),
    });
    this.sides.addEventListener('change', () => this.change(() => machine.setSide(Number(this.sides.value))));
    joinTabs(() => this.about.changed());
    joinHelp();
    joinTheme(() => {
      this.torus.veil = document.documentElement.dataset.theme === 'dark' ? '#0b0c0fb8' : '#e4e7ecd0';
      this.torus.change();
    });
    giveKeysBack(this.torus.canvas);
    joinKeys(this.actions());
  }

  /** The gallery's entry that this tab shows; undefined if it shows none, as after a file was loaded. */
  get entry() {
    return GALLERY.find(({ name }) => name === recall(this.tab, 'cam6-entry'));
  }

  /** @returns {import('./keys.js').Actions} what each key does, by the names of KEYS; also `undo` and `selectAll` */
  actions() {
    const { time, piece, tools } = this;
    /** @type {(by: number, event: KeyboardEvent) => unknown} */
    const step = (by, event) => piece.floating && piece.frame ? piece.moveTo(piece.frame.x + by, piece.frame.y)
      : event.repeat ? time.frame(by * time.least) : time.step(by);
    const choices = ['pencil', 'line', 'box', 'fill', 'random', 'select', 'pan'];
    return {
      run: () => at('run').click(),
      runBack: () => at('run-back').click(),
      step: event => step(1, event),
      back: event => step(-1, event),
      start: () => time.seek(0),
      faster: () => time.turn(0.05),
      slower: () => time.turn(-0.05),
      each: event => time.setEach(Number(event.key)),
      fit: () => this.torus.fit(),
      ...Object.fromEntries(choices.map(tool => [tool, () => tools.choose(tool)])),
      turn: () => piece.turn(),
      mirror: () => piece.mirror(),
      put: () => piece.put(),
      escape: () => this.escape(),
      erase: () => piece.erase(),
      gallery: () => this.gallery.open(),
      help: () => at('help').click(),
      undo: () => tools.undo(),
      selectAll: () => piece.selectAll(),
    };
  }

  /** Gives up what is under way. */
  escape() {
    this.tools.cancel();
    this.piece.giveUp();
    hideTrouble();
  }

  /** Shows new cells. If they flash while time runs, each frame has an even number of steps until rules change. */
  planesChanged() {
    const { machine, time } = this;
    this.screen.change();
    this.about.changed();
    if (time.way !== 0 && !time.flashes) {
      const colours = coloursShown(machine.colours, this.screen.shown);
      if (this.meter.see(machine.planes.cells, colours, performance.now())) {
        time.setFlashes(true);
      }
    }
  }

  /** Shows the machine's count, its position, and the blocks of the next step. */
  positionChanged() {
    const { machine } = this;
    Object.assign(at('torus').dataset, { count: machine.count, position: machine.position });
    this.time.tell();
    this.cycle.tellPosition();
    const entry = machine.entries[machine.position];
    const blocks = machine.rules.some(rule => seesBlocks(rule) && [entry?.a, entry?.b].includes(rule.name));
    this.torus.blocks = blocks ? Number(entry.grid === 'ODD') : null;
  }

  /** Shows the machine's rules, cycle, colours and side, any of which may be new. The scrubber begins anew. */
  rulesChanged() {
    const { machine } = this;
    this.tools.tell();
    this.screen.tell();
    this.screen.change();
    this.editor.update(this.isNew);
    this.isNew = false;
    this.cycle.update();
    this.about.update();
    this.time.setFlashes(flashes(machine.rules, machine.entries));
    this.time.begin();
    at('turn-round').hidden = !this.entry?.turn.length;
  }

  /**
   * Pauses, gives up a piece that floats, and changes the machine while no step is under way. Shows an error.
   * @param {() => Promise<void>} make what changes the machine
   * @param {Shown} [about] what to show of it; without it the title stays
   */
  async change(make, about) {
    const { time } = this;
    time.pause();
    this.piece.giveUp();
    hideTrouble();
    await time.hold();
    try {
      if (about) {
        this.isNew = true;
        this.describe(about);
      }
      await make();
      this.torus.centreOn(this.machine.planes);
    } catch (error) {
      showError(error, this.machine);
    } finally {
      time.release();
      time.begin();
    }
  }

  /**
   * Shows the title and what to look for. Keeps the title and the entry's name for a reload of this tab.
   * @param {Shown} shown
   */
  describe({ title, lookFor, name = '' }) {
    keep(this.tab, 'cam6-entry', name);
    keep(this.tab, 'cam6-title', title);
    this.about.setTitle(title, lookFor);
  }

  /**
   * Sets an entry of the gallery up.
   * @param {Entry} entry
   */
  async choose(entry) {
    this.torus.canvas.focus({ preventScroll: true });
    await this.change(() => this.machine.setUp(entry.commands), entry);
    this.time.setEach(entry.each);
    this.time.setRate(matchMedia('(prefers-reduced-motion: reduce)').matches ? Math.min(entry.rate, CALM) : entry.rate);
  }

  /**
   * Shows another machine, which was loaded from a file.
   * @param {string} name its title
   */
  loaded(name) {
    this.describe({ title: name, lookFor: '' });
    this.editor.update(true);
    this.torus.centreOn(this.machine.planes);
    this.time.begin();
  }

  /** Does the commands by which the entry turns its rule round: Run then takes the steps back. */
  async turnRound() {
    const { machine } = this;
    await this.change(async () => {
      for (const command of this.entry?.turn ?? []) {
        if (command.do === 'cycle') {
          await machine.setCycle(command.entries);
        } else if (command.do === 'run') {
          await machine.run(command.n);
        }
      }
    });
    note('The rule is turned round. Run takes the steps back now.');
  }

  /** Connects. A new tab begins with the first entry of the gallery. After a reload it goes on with its machine. */
  async start() {
    await this.machine.start();
    const title = recall(this.tab, 'cam6-title');
    if (title === null) {
      await this.choose(GALLERY[0]);
    } else {
      this.about.setTitle(title, this.entry?.lookFor ?? '');
      this.torus.centreOn(this.machine.planes);
      this.time.begin();
    }
    this.screen.paint();
    document.documentElement.dataset.ready = '1';
  }
}

new Page(await makeMachine()).start();
