// The editor of rules: the text with its words in colours, what may be written beside it, and a fault at its token.

import { at, capital, element, fillSelect, joinClicks, make, makeButton, note, say, setText, spelled } from './dom.js';
import { HOODS, MINORS, WORDS, namesOf, tokens } from './forth.js';
import { sentenceOf } from './explain.js';
import { FAULTS } from './faults.js';
import { Fault } from './lines.js';

const CONTROL = new Set([':', ';', 'IF', 'ELSE', 'THEN', '{', '}']);
/** @type {(keyof Rule)[]} */
const PARTS = ['name', 'half', 'hood', 'minor', 'text'];
const FIRST_TEXT = ': R CENTER NORTH XOR SOUTH XOR WEST XOR EAST XOR >PLN0 ;';

/**
 * @typedef {import('./lines.js').Refusal} Refusal
 * @typedef {import('./lines.js').Rule} Rule
 * @typedef {import('./forth.js').Word} Word
 * @typedef {import('./machine.js').Machine} Machine
 */

/**
 * Whether a rule's neighbourhood has blocks of two by two cells: N/MARG, N/MARG-PH or N/MARG-HV.
 * @param {Rule} rule
 */
export const seesBlocks = rule => rule.hood.startsWith('N/MARG');

/**
 * The cycle of one rule alone, at phase 0: on the even grid, and then on the odd one if it sees blocks.
 * @param {Rule} rule
 * @returns {import('./lines.js').Entry[]}
 */
export function cycleOf(rule) {
  const grids = seesBlocks(rule) ? ['EVEN', 'ODD'] : ['EVEN'];
  const halves = rule.half === 'A' ? { a: rule.name, b: '-' } : { a: '-', b: rule.name };
  return grids.map(grid => ({ ...halves, grid, phase: 0 }));
}

/** The panel of rules. */
export class Editor {
  /**
   * @param {Machine} machine
   * @param {import('./controls.js').Controls} time
   */
  constructor(machine, time) {
    this.machine = machine;
    this.time = time;
    this.fields = {
      name: element('rule-name', HTMLInputElement),
      half: element('rule-half', HTMLSelectElement),
      hood: element('rule-hood', HTMLSelectElement),
      minor: element('rule-minor', HTMLSelectElement),
      text: element('rule-text', HTMLTextAreaElement),
    };
    this.pick = element('rule-pick', HTMLSelectElement);
    /** @type {Rule|null} the rule as the machine has it, or as the panel began with it */
    this.shown = null;
    /** @type {Refusal|null} */
    this.fault = null;
    fillSelect(this.fields.hood, Object.keys(HOODS), 'N/VONN');
    fillSelect(this.fields.minor, Object.keys(MINORS), '&/CENTERS');
    this.listen();
  }

  /** Joins the fields and the buttons. */
  listen() {
    const { text, half, hood, minor } = this.fields;
    text.addEventListener('input', () => this.edited());
    text.addEventListener('keydown', event => {
      if (event.key === 'Enter' && (event.ctrlKey || event.metaKey)) {
        event.preventDefault();
        this.define();
      }
    });
    for (const list of [half, hood, minor]) {
      list.addEventListener('change', () => this.edited());
    }
    this.pick.addEventListener('change', () => {
      const rule = this.machine.rules.find(({ name }) => name === this.pick.value);
      rule && this.open(rule);
    });
    joinClicks({
      'rule-new': () => this.begin(),
      'rule-drop': () => this.act(() => this.machine.drop(this.shown?.name ?? '')),
      define: () => this.define(),
      'use-rule': () => this.define(true),
    });
  }

  /** @returns {Rule} the rule in the fields, not checked; the name without blanks round it */
  read() {
    const { name, half, hood, minor, text } = this.fields;
    return { name: name.value.trim(), half: half.value, hood: hood.value, minor: minor.value, text: text.value };
  }

  /** Whether the fields differ from the rule that was opened or defined last. False before there is one. */
  get isChanged() {
    const now = this.read();
    const { shown } = this;
    return shown !== null && PARTS.some(part => now[part] !== shown[part]);
  }

  /**
   * Shows a rule in the fields, in place of what they had. Each definition begins on a line of its own.
   * @param {Rule} rule
   */
  open(rule) {
    const shown = { ...rule, text: rule.text.replace(/ ; : /g, ' ;\n: ') };
    this.shown = shown;
    for (const part of PARTS) {
      this.fields[part].value = shown[part];
    }
    this.edited();
    this.tell();
  }

  /** Shows a new rule under a free name in the fields. The machine gets it with `define`. */
  begin() {
    const names = new Set(this.machine.rules.map(rule => rule.name));
    let name = 'R';
    for (let i = 2; names.has(name); i++) {
      name = `R${i}`;
    }
    this.open({ name, half: 'A', hood: 'N/VONN', minor: '&/CENTERS', text: FIRST_TEXT });
  }

  /**
   * The machine's rules changed: lists them. A text that somebody is changing stays.
   * @param {boolean} isNew whether another machine came, so that the text is not kept
   */
  update(isNew) {
    const { rules, entries } = this.machine;
    const used = entries.flatMap(({ a, b }) => [a, b]);
    const known = rules.some(rule => rule.name === this.shown?.name);
    if (isNew || this.shown === null || !known && !this.isChanged) {
      const rule = rules.find(({ name }) => name === used.find(name => name !== '-')) ?? rules[0];
      rule ? this.open(rule) : this.begin();
    }
    this.tell();
  }

  /** Shows the list of rules, and which buttons do something. */
  tell() {
    const { rules } = this.machine;
    const name = this.shown?.name ?? '';
    const isKnown = rules.some(rule => rule.name === name);
    /** @type {[string, string][]} */
    const known = rules.map(rule => [rule.name, rule.name]);
    fillSelect(this.pick, isKnown ? known : [...known, [name, `${name} (new)`]], name);
    element('rule-drop', HTMLButtonElement).disabled = !isKnown;
  }

  /** The text or what it sees was changed: the marks, the words and the old fault go with it. */
  edited() {
    this.fault = null;
    at('rule-fault').hidden = true;
    this.mark();
    this.listWords();
  }

  /** Shows the text's words in colours, and the token of a fault. */
  mark() {
    const { text, hood, minor, half } = this.read();
    const names = new Set(namesOf(hood, minor, half).map(({ name }) => name));
    const wrong = this.fault?.token ?? 0;
    /** @type {(Node|string)[]} */
    const pieces = [];
    let end = 0;
    tokens(text).forEach((token, i) => {
      pieces.push(text.slice(end, token.start), this.markOf(token, names, wrong === i + 1 ? i + 1 : 0));
      end = token.end;
    });
    pieces.push(text.slice(end));
    if (wrong > tokens(text).length) {
      pieces.push(make('mark', { textContent: ' ⏎ ', data: { token: String(wrong) } }));
    }
    at('rule-marks').replaceChildren(...pieces, '\n');
  }

  /**
   * A token as it is shown: an element with its colour or mark, or a plain text.
   * @param {import('./forth.js').Token} token
   * @param {Set<string>} names
   * @param {number} wrong its number if it has a fault, else 0
   */
  markOf({ text, isComment }, names, wrong) {
    if (wrong) {
      return make('mark', { textContent: text, data: { token: String(wrong) } });
    }
    const kind = isComment ? 'comment'
      : text.startsWith('>PLN') ? 'output'
        : names.has(text) ? 'neighbour'
          : CONTROL.has(text) ? 'control' : '';
    return kind ? make('span', { textContent: text, className: kind }) : text;
  }

  /** Lists what may be written: what the rule sees, where it writes, and the words of the language. */
  listWords() {
    const { hood, minor, half, text } = this.read();
    const other = half === 'A' ? /^>PLN[23B]/ : /^>PLN[01A]/;
    const words = WORDS.filter(({ word }) => !other.test(word));
    const names = [...text.matchAll(/(?:^|\s):\s+(\S+)/g)].map(([, word]) => word);
    const defined = names.map(word => ({ word, sentence: 'A word that this text defines.' }));
    /** @type {Record<string, Word[]>} */
    const groups = {
      'It sees': namesOf(hood, minor, half).map(({ name, sentence }) => ({ word: name, sentence })),
      'It writes': words.filter(({ word }) => word.startsWith('>PLN')),
      'Words': words.filter(({ word }) => !word.startsWith('>PLN')),
      'Defined here': defined.slice(0, -1),
    };
    at('words').replaceChildren(...Object.entries(groups).flatMap(([title, list]) => list.length === 0 ? [] : [
      say('h3', title),
      make('div', {}, ...list.map(entry => this.wordButton(entry))),
    ]));
  }

  /**
   * A button that puts a word into the text.
   * @param {Word} word
   */
  wordButton({ word, before, after, sentence }) {
    const stack = before || after ? ` Stack: ${before || 'nothing'} → ${after || 'nothing'}.` : '';
    const inserted = word === '0 .. 65535' ? '1' : word;
    const button = makeButton({ textContent: word, title: sentence + stack }, () => this.insert(inserted));
    const say = () => setText(at('word-says'), `${word}: ${sentence}${stack}`);
    button.addEventListener('pointerenter', say);
    button.addEventListener('focus', say);
    return button;
  }

  /**
   * Puts a word at the cursor, in place of selected text, with blanks round it.
   * @param {string} word
   */
  insert(word) {
    const field = this.fields.text;
    const { selectionStart: start, selectionEnd: end, value } = field;
    const left = start === 0 || /\s/.test(value[start - 1]) ? '' : ' ';
    const right = end < value.length && /\s/.test(value[end]) ? '' : ' ';
    field.setRangeText(left + word + right, start, end, 'end');
    field.focus();
    this.edited();
  }

  /**
   * Gives the machine the rule in the fields. A fault is shown, not thrown.
   * @param {boolean} [isAlone] whether the cycle becomes this rule alone; it does so too if it uses no rule
   */
  async define(isAlone = false) {
    const rule = this.read();
    await this.act(async () => {
      await this.machine.define(rule);
      this.shown = rule;
      const isIdle = this.machine.entries.every(({ a, b }) => a === '-' && b === '-');
      if (isAlone || isIdle) {
        await this.machine.setCycle(cycleOf(rule));
      }
      note(isAlone || isIdle ? `Each step goes by ${rule.name} now.` : `${rule.name} is defined.`);
      this.tell();
    });
  }

  /**
   * Does something while no step is under way. Shows a `Fault`, and throws any other error.
   * @param {() => Promise<void>} doing
   */
  async act(doing) {
    await this.time.hold();
    try {
      await doing();
      this.edited();
    } catch (error) {
      if (!(error instanceof Fault)) {
        throw error;
      }
      this.showFault(error.answer);
    } finally {
      this.time.release();
    }
  }

  /**
   * Shows a fault at its token, with its sentence.
   * @param {Refusal} answer
   */
  showFault(answer) {
    this.fault = answer;
    this.mark();
    const { title, happened, todo, token } = sentenceOf(answer, FAULTS, { rule: this.read() });
    const place = at('rule-fault');
    const head = token?.text ? `${token.text}: ${title}. ` : `${capital(title)}. `;
    place.replaceChildren(say('strong', head), ...spelled(`${happened} ${todo}`));
    Object.assign(place.dataset, { fault: answer.fault, token: answer.token ?? '' });
    place.hidden = false;
    place.scrollIntoView({ block: 'nearest' });
  }
}
