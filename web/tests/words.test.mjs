// Rules' texts, faults in words, patterns, and the dial: by what the pages of docs/ say.

import assert from 'node:assert/strict';
import { readdirSync } from 'node:fs';
import { test } from 'node:test';
import { FlashMeter, Pace, flashes, positionOf, stepsASecond } from '../dial.js';
import { becomes, blocksOf, sentenceOf } from '../explain.js';
import { HOODS, MINORS, WORDS, bitsOf, evaluate, namesOf, tokenAt, tokens, writes } from '../forth.js';
import { planesOf } from '../machine.js';
import { PatternFault, read, write } from '../patterns.js';
import { randomFrom } from '../shapes.js';
import { inRepository, urlOf } from './repository.mjs';

/**
 * @typedef {import('../lines.js').Body} Body
 * @typedef {{rules: import('../lines.js').Rule[], entries: import('../lines.js').Entry[]}} Example
 */

/** @type {Record<number, import('../explain.js').Explanation>} */
const FAULTS = {};
for (const error of JSON.parse(inRepository('docs/errors.json')).errors) {
  FAULTS[error.number] = { title: error.title, happened: error.happened, todo: error.do };
}

/** @type {Map<string, Example>} the rules and the cycle of each example */
const EXAMPLES = new Map(readdirSync(urlOf('examples')).filter(name => name.endsWith('.lines')).map(name => {
  const commands = inRepository(`examples/${name}`).trim().split('\n').map(line => JSON.parse(line));
  return [name.slice(0, -6), {
    rules: commands.filter(command => command.do === 'rule'),
    entries: commands.findLast(command => command.do === 'cycle').entries,
  }];
}));

/**
 * The rules and the cycle of one example.
 * @param {string} name
 */
function exampleOf(name) {
  const example = EXAMPLES.get(name);
  assert.ok(example, name);
  return example;
}

test('tokens are counted with those of comments', () => {
  const text = `: R 0 { ${'0 '.repeat(2048)}} ;`;
  assert.deepEqual(tokenAt(text, 2052), { text: '0', start: text.lastIndexOf('0'), end: text.lastIndexOf('0') + 1, isComment: false });
  const source = '( of one: ) \t: P ( x (y)\r\nCENTER FOO ; ( no end';
  assert.deepEqual(tokens(source).map(token => token.text),
    ['(', 'of', 'one:', ')', ':', 'P', '(', 'x', '(y)', 'CENTER', 'FOO', ';', '(', 'no', 'end']);
  assert.deepEqual(tokens(source).filter(token => !token.isComment).map(token => token.text), [':', 'P', 'CENTER', 'FOO', ';']);
  const { start, end } = tokenAt(source, 11);
  assert.equal(source.slice(start, end), 'FOO');
  assert.deepEqual(tokenAt(': P CENTER', 4), { text: '', start: 10, end: 10 });
  assert.deepEqual(tokenAt(': P CENTER', 0), { text: '', start: 0, end: 10 });
  assert.deepEqual(tokens(' \n'), []);
  assert.deepEqual(tokens('(a ) b').map(token => token.isComment), [false, false, false], 'a comment begins with the token (');
});

test('names have the bits that the manual says', () => {
  const table = inRepository('docs/MANUAL.md').split('\n').filter(line => /^\| `[N&]\//.test(line));
  assert.equal(table.length, 8);
  for (const line of table) {
    const [key, ...names] = line.split('|').map(cell => cell.trim().replaceAll('`', '')).filter(cell => cell !== '');
    assert.deepEqual(HOODS[key] ?? MINORS[key], names);
  }
  const names = namesOf('N/MARG-HV', '&/CENTERS', 'B');
  assert.deepEqual(names.map(({ bit }) => bit), [0, 1, 2, 3, 4, 5, 6, 7, 8, 9, 10, 11]);
  assert.equal(names[11].sentence, 'The cell itself, in plane 1 of the other half.');
  assert.equal(names[5].sentence, 'The cell one corner further clockwise in the block, in plane 3.');
  assert.deepEqual(bitsOf(0b100000100001, 'N/VONN', '&/PHASES'), ['CENTER', 'EAST', "&PHASE'"]);
  assert.deepEqual(bitsOf(0b1100000000, 'N/MARG', '&/HV'), []);
  for (const hood of Object.keys(HOODS)) {
    for (const minor of Object.keys(MINORS)) {
      assert.ok(namesOf(hood, minor, 'A').every(({ sentence }) => /^[T1].*[.]$/.test(sentence)));
    }
  }
});

test('the list of words has all that the manual has', () => {
  const manual = inRepository('docs/MANUAL.md');
  const all = WORDS.map(({ word }) => word).join(' ').split(' ');
  const table = manual.slice(manual.indexOf('| Word | Before'), manual.indexOf('An output word takes'));
  for (const [, spelled] of table.matchAll(/`([^`]+)`/g)) {
    assert.ok(spelled.split(' ').every(word => all.includes(word)), spelled);
  }
  const rot = WORDS.find(({ word }) => word === 'ROT');
  assert.deepEqual([rot?.before, rot?.after], ['a b c', 'b c a']);
});

test('the planes that rules write', () => {
  assert.deepEqual(writes(': R ( >PLN1 ) CENTER >PLN0 ;'), [0]);
  assert.deepEqual(writes(': X >PLN3 ; : R CENTER X ;'), [3]);
  assert.deepEqual(writes(': R 3 >PLNB ;'), [2, 3]);
  assert.deepEqual(writes(': R ;'), []);
  const moves = Object.fromEntries([...EXAMPLES].map(([name, { rules, entries }]) => [name, planesOf(rules, entries).join('')]));
  assert.deepEqual(moves, {
    banks: '0', banks_signals: '0', billiard_balls: '0', brians_brain: '01', copies: '0', critters: '0', dendrites: '0',
    diamonds: '0', echoes: '0', gases: '0', interaction_gate: '0', letters: '0', life: '0', majority: '023', parity: '0',
    rings: '01', sand: '0', second_order: '01', time_tunnel: '01', tron: '0', wireworld: '01',
  });
});

test('rules are evaluated as their words say', () => {
  /** @type {(text: string) => Body} */
  const rule = text => ({ half: 'A', hood: 'N/MOORE', minor: '&/CENTERS', text });
  const { rules: [life] } = exampleOf('life');
  for (let address = 0; address < 1024; address++) {
    const count = [2, 3, 4, 5, 6, 7, 8, 9].filter(bit => address >> bit & 1).length;
    const want = count === 3 || count === 2 && address & 1 ? 1 : 0;
    assert.equal(evaluate(life, address).get(0), want);
  }
  /** @type {[text: string, plane: number, want: number][]} */
  const cases = [
    [': R 1 2 3 ROT >PLNA ;', 1, 0], [': R 1 2 3 ROT >PLNA ;', 0, 1], [': R 7 2 - >PLNA ;', 0, 1], [': R 2 3 OVER >PLNA ;', 1, 1],
    [': R 0 IF 1 IF 1 ELSE 0 THEN ELSE 1 THEN >PLN0 ;', 0, 1], [': R 1 IF 0 IF 1 ELSE 0 THEN ELSE 1 THEN >PLN0 ;', 0, 0],
    [': R 2 { 0 0 1 } >PLN1 ;', 1, 1], [': R 1 2 < >PLN0 ;', 0, 1], [': R 1 2 > >PLN0 ;', 0, 0], [': R 6 3 AND >PLNA ;', 1, 1],
    [': R 4 5 SWAP DROP >PLN0 ;', 0, 1], [': R 3 DUP * >PLNA ;', 0, 1], [': R 2 2 = 0= >PLN0 ;', 0, 0], [': R 1 >PLN0 0 >PLN0 ;', 0, 0],
  ];
  for (const [text, plane, want] of cases) {
    assert.equal(evaluate(rule(text), 0).get(plane), want, text);
  }
  assert.equal(evaluate(rule(': R ;'), 0).size, 0);
});

// The worked examples of tables that can't be inverted: the wiring, the text, and the states that meet.
const MEETINGS = [...inRepository('crates/cam6_try_rules/data/inverses_refused.example')
  .matchAll(/^as inverses (\S+) (\S+) (\S+)\n> (.*)\n< meeting at phase (\d+) of (\d+) and (\d+)$/gm)]
  .map(([, half, hood, minor, text, ...numbers]) => ({ rule: { half, hood, minor, text }, numbers: numbers.map(Number) }));

test('blocks become what the rule says: the states that meet are those of the worked examples', () => {
  assert.ok(MEETINGS.length >= 7);
  for (const { rule, numbers } of MEETINGS) {
    const found = [0, 1, 2, 3].map(phase => {
      /** @type {Map<number, number>} */
      const seen = new Map();
      for (let state = 0; state < 256; state++) {
        const next = becomes(state, rule, phase);
        const before = seen.get(next);
        if (before !== undefined) {
          return [phase, before, state];
        }
        seen.set(next, state);
      }
      return null;
    }).find(meeting => meeting !== null);
    assert.deepEqual(found, numbers, rule.text);
  }
  for (const name of ['billiard_balls', 'critters', 'echoes', 'gases', 'tron']) {
    const { rules: [rule], entries } = exampleOf(name);
    for (const { phase } of entries) {
      assert.equal(new Set(Array.from({ length: 256 }, (_, state) => becomes(state, rule, phase))).size, 256, name);
    }
  }
  assert.equal(becomes(1, exampleOf('billiard_balls').rules[0], 0), 4, 'a ball crosses its block');
});

test('the blocks of a fault 64 are drawn: clockwise from the upper left cell, the upper plane above', () => {
  /** @type {import('../lines.js').Refusal} */
  const answer = { cause: 'meeting', entry: 0, fault: 64, half: 'A', phase: 0, states: [0, 0b00100110] };
  assert.deepEqual(blocksOf(answer), [
    { state: 0, cells: [[0, 0], [0, 0]] }, { state: 0b00100110, cells: [[0, 3], [0, 1]] },
  ]);
  assert.deepEqual(blocksOf({ ...answer, half: 'B', states: [8, 16] })?.map(({ cells }) => cells), [[[0, 0], [4, 0]], [[8, 0], [0, 0]]]);
  assert.equal(blocksOf({ cause: 'hood', entry: 0, fault: 64, half: 'A' }), null);
});

test('a fault 64 names the rule and its cause, and shows what both blocks become', () => {
  const rule = { name: 'AND', half: 'A', hood: 'N/MARG', minor: '&/PHASES', text: ': R CENTER CW AND >PLN0 ;' };
  const known = { rules: [rule], entries: [{ a: 'AND', b: '-', grid: 'EVEN', phase: 0 }] };
  /** @type {import('../lines.js').Refusal} */
  const answer = { cause: 'meeting', entry: 0, fault: 64, half: 'A', phase: 0, states: [0, 1] };
  const explanation = sentenceOf(answer, FAULTS, known);
  assert.equal(explanation.happened, "Rule AND of half A in entry 0 can't be undone. Two states of a block become one.");
  assert.deepEqual(explanation.blocks?.map(({ cells }) => cells), [[[0, 0], [0, 0]], [[1, 0], [0, 0]]]);
  assert.deepEqual(explanation.meeting, { state: 0, cells: [[0, 0], [0, 0]] });
  assert.equal(explanation.title, FAULTS[64].title);
  const hood = sentenceOf({ cause: 'hood', entry: 3, fault: 64, half: 'B' }, FAULTS);
  assert.equal(hood.happened, "The rule of half B in entry 3 can't be undone. Its neighbourhood has no blocks.");
  assert.equal('blocks' in hood, false);
});

test('each fault has its sentence, and texts their tokens and addresses', () => {
  for (const number of Object.keys(FAULTS).map(Number).filter(number => number > 0)) {
    const explanation = sentenceOf({ fault: number }, FAULTS);
    assert.ok(explanation.happened.length > 10 && explanation.todo.length > 10 && explanation.title.length > 3);
  }
  const rule = { half: 'A', hood: 'N/VONN', minor: '&/CENTERS', text: ': R NORTHEAST >PLN0 ;' };
  assert.deepEqual(sentenceOf({ fault: 20, token: 3 }, FAULTS, { rule }).token,
    { number: 3, text: 'NORTHEAST', start: 4, end: 13, isComment: false });
  assert.equal(sentenceOf({ address: 0, fault: 40 }, FAULTS, { rule }).happened,
    'A word needs more values than the stack has. It happens if all names are 0.');
  assert.match(sentenceOf({ address: 1, fault: 42 }, FAULTS, { rule }).happened, / It happens if CENTER is 1 and all other names are 0[.]$/);
  assert.match(sentenceOf({ address: 37, fault: 42 }, FAULTS, { rule }).happened, / It happens if CENTER, NORTH and EAST are 1 and /);
  assert.match(sentenceOf({ fault: 999 }, FAULTS).happened, /fault 999/);
  assert.match(sentenceOf({ fault: 0 }, FAULTS).happened, /connection was lost/);
});

/**
 * Rows of states, a digit of base 16 for each.
 * @param {{width: number, cells: Uint8Array}} pattern
 */
const rowsOf = ({ width, cells }) =>
  [...cells].map(state => state.toString(16)).join('').match(new RegExp(`.{${width}}`, 'g'));

test('patterns are read as docs/DRAWING.md says', () => {
  const glider = read('#N Glider\n#CXRLE Pos=-3,4\nx = 3, y = 3, rule = B3/S23:T128,128\nbo$2bo$3o!\n');
  assert.deepEqual(rowsOf(glider), ['010', '001', '111']);
  assert.deepEqual([glider.rule, glider.x, glider.y], ['B3/S23:T128,128', -3, 4]);
  assert.deepEqual(rowsOf(read('x = 4, y = 4\nABAD$BDBB2$4B!')), ['1214', '2422', '0000', '2222']);
  assert.deepEqual(rowsOf(read('x=2,y=5\r\n.O2$\r\n A2$!\r\nanything')), ['0f', '00', '10', '00', '00']);
  const spaced = read('#C\n#P 2 -3\n\n  x=4,y = 5 , rule = B3/S23\n  b2o\tb $\r\n3$ 4o\n!\n');
  assert.deepEqual(rowsOf(spaced), ['0110', '0000', '0000', '0000', '1111']);
  assert.deepEqual([spaced.rule, spaced.x, spaced.y], ['B3/S23', 2, -3]);
  assert.deepEqual(rowsOf(read('bo$2bo$3o!')), ['010', '001', '111']);
  assert.deepEqual(rowsOf(read('\n#P 1 2\n\nx = 1, y = 1\n!')), ['0']);
  assert.deepEqual(rowsOf(read('3b2$!')), ['000', '000']);
});

test('a text that is no pattern is named with its line and column', () => {
  /** @type {[text: string, cause: string, line: number, column: number, side?: number][]} */
  const cases = [
    ['x = 3\nbo!', 'badHeader', 1, 1], ['#\nx = 3, y = 3;\nb!', 'badHeader', 2, 1], ['x = 3, y = 3\nbo$2qo!', 'unexpected', 2, 5],
    ['x = 3, y = 3\n4o!', 'tooWide', 2, 2], ['x = 3, y = 3\n3o\no!', 'tooWide', 3, 1], ['x = 3, y = 1\n3o$o!', 'tooHigh', 2, 4],
    ['x = 3, y = 1\n3o2$!', 'tooHigh', 2, 4], ['x = 3, y = 3\n3P!', 'tooManyStates', 2, 2], ['x = 3, y = 3\nbo$', 'noEnd', 2, 1],
    ['', 'noEnd', 1, 1], ['x = 3, y = 3\n513o!', 'countTooLarge', 2, 3], ['x = 3, y = 3\n3 o!', 'unexpected', 2, 2],
    ['x = 3, y = 3\n3!', 'unexpected', 2, 2], ['x = 3, y = 3\n3\no!', 'unexpected', 2, 2], ['x = 129, y = 3\no!', 'tooWide', 1, 1, 128],
    ['x = 3, y = 129\no!', 'tooHigh', 1, 1, 128], ['129o!', 'tooWide', 1, 4, 128], ['hello', 'unexpected', 1, 1],
  ];
  for (const [text, cause, line, column, side] of cases) {
    assert.throws(() => read(text, side), error => {
      assert.ok(error instanceof PatternFault);
      assert.deepEqual([error.cause, error.line, error.column], [cause, line, column], JSON.stringify(text));
      assert.ok(error.message.startsWith(`Line ${line}, column ${column}: `) && error.sentence.includes('. '), error.message);
      return true;
    });
  }
});

test('cells are written, and read back as they were', () => {
  assert.equal(write(Uint8Array.from([0, 1, 0, 0, 0, 1, 1, 1, 1]), 3, 3, 'B3/S23'), 'x = 3, y = 3, rule = B3/S23\nbo$2bo$3o!\n');
  assert.equal(write(Uint8Array.from([0, 0, 0, 0, 0, 0, 15, 15, 0, 0]), 2, 5), 'x = 2, y = 5\n3$2O!\n');
  assert.equal(write(new Uint8Array(4), 2, 2), 'x = 2, y = 2\n!\n');
  const next = randomFrom(11);
  for (const [width, height, states] of [[128, 128, 2], [50, 70, 16], [1, 9, 16]]) {
    const cells = Uint8Array.from({ length: width * height }, () => next() < 0.5 ? 0 : Math.floor(states * next()));
    const text = write(cells, width, height);
    const pattern = read(text);
    assert.deepEqual([pattern.width, pattern.height], [width, height]);
    assert.deepEqual(pattern.cells, cells);
    assert.ok(text.split('\n').every(line => line.length <= 70));
  }
});

test('the dial: back on the left, still in the middle, and twice as fast with each twelfth', () => {
  assert.equal(stepsASecond(0), 0);
  assert.equal(stepsASecond(0.03), 0);
  assert.equal(stepsASecond(1), 4096);
  assert.equal(stepsASecond(-1), -4096);
  for (const speed of [1, 12, 60, -30, 4096, -1000]) {
    assert.ok(Math.abs(stepsASecond(positionOf(speed)) / speed - 1) < 1e-9);
  }
  assert.equal(positionOf(0), 0);
});

test('the pace does as many steps as the speed says, two at a time if each frame has two', () => {
  for (const [speed, each, frames, steps] of [[12, 1, 60, 12], [17, 1, 60, 17], [-30, 1, 60, -30], [60, 1, 60, 60], [600, 1, 60, 600], [10, 2, 60, 10],
    [240, 2, 60, 240], [0, 1, 60, 0]]) {
    const pace = new Pace(each);
    pace.speed = speed;
    let done = 0;
    for (let i = 0; i < 10 * frames; i++) {
      const due = pace.framesFor(1000 / frames);
      assert.equal(Math.abs(due % each), 0);
      done += due;
    }
    assert.ok(Math.abs(done - 10 * steps) <= Math.max(2 * each, 0.02 * Math.abs(10 * steps)), `${speed}: ${done}`);
  }
  const pace = new Pace();
  pace.speed = 12;
  assert.equal(pace.framesFor(60000), 1);
  const more = Array.from({ length: 9 }, () => pace.framesFor(0));
  assert.deepEqual(more, [1, 0, 0, 0, 0, 0, 0, 0, 0], 'a page that slept does not catch up');
  pace.rest();
  assert.equal(pace.framesFor(1), 0);
});

test('rules that invert all cells flash: Critters and Tron alone', () => {
  const flashing = [...EXAMPLES].filter(([, { rules, entries }]) => flashes(rules, entries)).map(([name]) => name);
  assert.deepEqual(flashing, ['critters', 'tron']);
  const entry = { a: '-', b: 'N', grid: 'EVEN', phase: 0 };
  const invert = { name: 'N', half: 'B', hood: 'N/VONN', minor: '&/CENTERS', text: ": N CENTER' 0= >PLN3 ;" };
  assert.equal(flashes([invert], [entry]), true);
  assert.equal(flashes([invert], [entry, { ...entry, b: '-' }]), false);
  assert.equal(flashes([], []), false);
});

test('what is shown is measured: more than three flashes a second', () => {
  const colours = Array.from({ length: 16 }, (_, i) => i);
  /** @type {(frames: number[], rate: number) => boolean} */
  const seen = (frames, rate) => {
    const meter = new FlashMeter();
    return frames.some((state, i) => meter.see(new Uint8Array(100).fill(state), colours, i * 1000 / rate));
  };
  const both = Array.from({ length: 60 }, (_, i) => i % 2 ? 15 : 0);
  assert.equal(seen(both, 30), true);
  assert.equal(seen(both, 5), false);
  assert.equal(seen(Array(60).fill(15), 30), false);
  assert.equal(seen(Array.from({ length: 60 }, (_, i) => i < 30 ? 0 : 15), 30), false);
});
