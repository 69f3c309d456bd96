// What is kept of a machine, whatever becomes of the storage and whenever the page ends.

import assert from 'node:assert/strict';
import { test } from 'node:test';
import { Journal, journalsOf, nameOfTab } from '../journal.js';
import { back, commandOf, lineOf, run, set } from '../lines.js';
import { FakeStorage } from './fake_storage.mjs';

/**
 * @typedef {import('../lines.js').Command} Command
 * @typedef {import('../storage.js').Store} Store
 */

const OK = '{"ok":"run","position":0}';
const SET = set(0, 1, '00');
/**
 * A load line of a machine of this sum.
 * @param {number|string} sum
 */
const saved = sum => `{"do":"load","machine":{"sum":${sum}}}`;
/**
 * The lines of commands.
 * @param {(string|Command)[]} all
 */
const textsOf = all => all.map(one => typeof one === 'string' ? one : lineOf(one));
/**
 * A command whose line has so many letters.
 * @type {(command: Command, letters: number) => Command}
 */
const padded = (command, letters) => commandOf(lineOf(command).padEnd(letters));
/** A function that returns 0.001, 0.002 and so on. */
const counting = () => {
  let next = 0;
  return () => (next += 0.001);
};
/**
 * A journal with fixed random names and a fixed time.
 * @type {(storage: Store|null, name?: string, more?: ConstructorParameters<typeof Journal>[2]) => Journal}
 */
const journalIn = (storage, name = 'page', more = {}) => new Journal(storage, name, { random: counting(), now: () => 5, ...more });

/**
 * The steps that a journal stands for.
 * @param {Journal} journal
 */
const sumOf = journal => journal.lines().reduce((sum, line) => {
  const command = JSON.parse(line);
  return sum + (command.machine?.sum ?? command.n ?? 0);
}, 0);

test('a journal is the last save and the commands since, each with its reply', () => {
  const storage = new FakeStorage();
  const journal = journalIn(storage);
  assert.deepEqual(journal.lines(), []);
  journal.checkpoint(saved(0));
  journal.note(SET, '{"ok":"set"}');
  journal.note(run(2), OK);
  const open = journal.note(run(3));
  assert.deepEqual(journal.lines(), textsOf([saved(0), SET, run(2), run(3)]));
  const read = journalIn(storage);
  assert.deepEqual(read.entries.map(({ line, reply }) => [line, reply]),
    [[lineOf(SET), '{"ok":"set"}'], [lineOf(run(2)), OK], [lineOf(run(3)), null]]);
  assert.equal(read.count, 2);
  journal.answer(open, OK);
  assert.equal(journal.count, 5);
  journal.clear();
  assert.deepEqual(journalIn(storage).lines(), []);
});

test('what an earlier page kept is read', () => {
  const storage = new FakeStorage();
  storage.setItem('cam6/page', '{"generation":3,"first":"cam6/page/3/save","count":0,"when":1}');
  storage.setItem('cam6/page/3/save', saved(7));
  storage.setItem('cam6/page/3/0', '[["{\\"do\\":\\"run\\",\\"n\\":4}","{\\"ok\\":\\"run\\",\\"position\\":0}",0]]');
  storage.setItem('cam6/page/3/1', '[["{ \\"do\\" : \\"run\\", \\"n\\" : 2 }",null,0]]');
  const journal = journalIn(storage);
  assert.deepEqual(journal.lines(), [saved(7), '{"do":"run","n":4}', '{ "do" : "run", "n" : 2 }']);
  assert.deepEqual([journal.count, journal.steps, journal.first], [4, 6, saved(7)]);
  journal.answer(journal.entries[1], OK);
  assert.equal(journal.count, 6);
});

test('steps of one kind are one command, refused commands are none', () => {
  const journal = journalIn(new FakeStorage());
  journal.checkpoint(saved(0));
  for (let i = 0; i < 100; i++) {
    journal.note(run(1), OK);
  }
  journal.note(back(4), '{"ok":"back","position":0}');
  journal.note(back(5), '{"ok":"back","position":0}');
  journal.note(back(5), '{"fault":64}');
  journal.note(run(65535), OK);
  journal.note(run(1), OK);
  assert.deepEqual(journal.lines(), textsOf([saved(0), run(100), '{"do":"back","n":9}', run(65535), run(1)]));
  assert.equal(journal.steps, 100 + 9 + 65535 + 1);
  assert.equal(journal.size, journal.lines().slice(1).join('').length);
  assert.equal(journal.count, 100 - 9 + 65536);
});

test('a save drops the commands that it has in it, and keeps those that were noted later', () => {
  const storage = new FakeStorage();
  const journal = journalIn(storage);
  journal.checkpoint(saved(0));
  journal.note(run(4), OK);
  const through = journal.noted;
  const later = journal.note(run(7));
  journal.checkpoint(saved(4), through);
  assert.deepEqual(journal.lines(), textsOf([saved(4), run(7)]));
  journal.answer(later, OK);
  assert.equal(journal.count, 11);
  const read = journalIn(storage);
  assert.deepEqual(read.lines(), textsOf([saved(4), run(7)]));
  assert.equal(read.count, 4);
});

test('the first state is the load line at count 0, until the cells or the cycle change', () => {
  const storage = new FakeStorage();
  const journal = journalIn(storage);
  journal.checkpoint(saved(1));
  journal.note(run(4), OK);
  journal.checkpoint(saved(5));
  journal.note(run(4), OK);
  journal.checkpoint(saved(9));
  assert.equal(journal.first, saved(1));
  assert.equal(journalIn(storage).first, saved(1));
  const again = journalIn(storage);
  again.note(run(1), OK);
  again.checkpoint(saved(10));
  assert.equal(journalIn(storage).first, saved(1));
  again.note(SET, '{"ok":"set"}');
  assert.equal(again.first, null);
  assert.equal(again.count, 0);
  again.note(run(1), OK);
  again.checkpoint(saved(11));
  assert.equal(again.first, null);
  assert.equal(journalIn(storage).first, null);
  const saves = [...storage.texts.keys()].filter(key => key.endsWith('/save'));
  assert.equal(saves.length, 1, 'saves that nobody needs are gone');
});

test('whenever the page ends, what is in the storage is a machine that it had', () => {
  class Watched extends FakeStorage {
    /** @type {((copy: FakeStorage) => void)|null} */
    onChange = null;

    /** @param {string} key @param {string} value */
    setItem(key, value) {
      super.setItem(key, value);
      this.onChange?.(this.copy());
    }

    /** @param {string} key */
    removeItem(key) {
      super.removeItem(key);
      this.onChange?.(this.copy());
    }
  }
  const storage = new Watched();
  const journal = journalIn(storage);
  journal.checkpoint(saved(0));
  let sum = 0;
  let snapshots = 0;
  const noted = new Set([0]);
  storage.onChange = copy => {
    snapshots++;
    const read = journalIn(copy);
    assert.ok(noted.has(sumOf(read)), `${read.lines()} at ${sum}`);
    assert.ok(sumOf(read) >= sum, `${sumOf(read)} is older than ${sum}`);
  };
  for (let i = 1; i < 400; i++) {
    const n = 1000 + i;
    noted.add(sum + n);
    const entry = journal.note(i % 3 ? run(n) : padded(run(n), 300));
    sum += n;
    journal.answer(entry, OK);
    if (i % 37 === 0) {
      journal.checkpoint(saved(sum));
    }
  }
  assert.ok(snapshots > 400);
});

test('a full storage is reported; what it has is a prefix of the journal, and later saves are tried again', () => {
  const storage = new FakeStorage(1200);
  const journal = journalIn(storage);
  journal.checkpoint(saved(0));
  assert.equal(journal.isKept, true);
  let sum = 0;
  let kept = 0;
  for (let i = 0; i < 40; i++) {
    journal.note(padded(run(1000 + i), 90), i % 2 ? OK : '{"ok":"run","position":1}');
    sum += 1000 + i;
    kept = journal.isKept ? sum : kept;
    journal.note(SET, '{"ok":"set"}');
  }
  assert.equal(journal.isKept, false);
  assert.equal(sumOf(journal), sum);
  const read = journalIn(storage.copy());
  assert.ok(kept > 0 && sumOf(read) >= kept && sumOf(read) < sum);
  journal.checkpoint(saved(sum));
  assert.equal(journal.isKept, true);
  assert.deepEqual(journalIn(storage).lines(), [saved(sum)]);
  journal.checkpoint(saved('1'.repeat(2000)));
  assert.equal(journal.isKept, false);
  assert.deepEqual(journalIn(storage).lines(), [saved(sum)], 'what was there is there still');
});

test('after a command that had no room, later ones are not kept either', () => {
  const storage = new FakeStorage(800);
  const journal = journalIn(storage);
  journal.checkpoint(saved(0));
  journal.note(run(1), OK);
  journal.note(padded(run(2), 4000));
  assert.equal(journal.isKept, false);
  journal.note(SET);
  assert.equal(journal.isKept, false);
  assert.deepEqual(journalIn(storage).lines(), textsOf([saved(0), run(1)]));
});

test('without a storage, or with one that throws, a journal keeps on in memory', () => {
  const denied = () => { throw new Error('denied'); };
  const broken = { get length() { return denied(); }, key: denied, getItem: denied, setItem: denied, removeItem: denied };
  for (const storage of [null, broken]) {
    const journal = journalIn(storage);
    journal.checkpoint(saved(3));
    journal.note(run(1), OK);
    assert.deepEqual(journal.lines(), textsOf([saved(3), run(1)]));
    assert.equal(journal.isKept, false);
  }
});

test('journals of other pages make room, the oldest first', () => {
  const storage = new FakeStorage(3000);
  for (const { name, when } of [{ name: 'old', when: 1 }, { name: 'new', when: 2 }]) {
    journalIn(storage, name, { now: () => when }).checkpoint(saved('1'.repeat(900)));
  }
  const journal = journalIn(storage, 'page', { now: () => 3 });
  journal.checkpoint(saved('2'.repeat(1200)));
  assert.equal(journal.isKept, true);
  assert.deepEqual(journalsOf(storage).map(({ name }) => name), ['page', 'new']);
  for (let i = 0; i < 12; i++) {
    const many = journalIn(storage, `tab${i}`, { now: () => 10 + i });
    many.checkpoint(saved(i));
  }
  assert.ok(journalsOf(storage).length <= 9);
});

test('a journal that another page forgets just now counts as the oldest', () => {
  class Shared extends FakeStorage {
    /** @param {string} key */
    getItem(key) {
      return key === 'cam6/gone' ? null : super.getItem(key);
    }
  }
  const storage = new Shared();
  storage.setItem('cam6/gone', 'anything');
  journalIn(storage).checkpoint(saved(1));
  assert.deepEqual(journalsOf(storage), [{ name: 'page', when: 5 }, { name: 'gone', when: 0 }]);
});

test('two pages with one name: each has its own machine, the one that was there first under a new name', () => {
  const storage = new FakeStorage();
  /** @type {string[]} */
  const renamed = [];
  const one = journalIn(storage, 'page', { onRenamed: name => renamed.push(name) });
  one.checkpoint(saved(1));
  one.note(run(2), OK);
  const other = journalIn(storage, 'page', { random: () => 0.7 });
  assert.deepEqual(other.lines(), one.lines());
  other.note(run(10), OK);
  one.note(run(100), OK);
  one.note(SET, '{"ok":"set"}');
  other.checkpoint(saved(13));
  one.checkpoint(saved(103));
  assert.equal(renamed.length, 1);
  assert.equal(one.name, renamed[0]);
  assert.deepEqual(journalIn(storage, 'page').lines(), [saved(13)]);
  assert.deepEqual(journalIn(storage, one.name).lines(), [saved(103)]);
});

test('the name of a tab stays as long as the tab', () => {
  const session = new FakeStorage();
  const name = nameOfTab(session, () => 0.5);
  assert.equal(nameOfTab(session, () => 0.9), name);
  assert.notEqual(nameOfTab(new FakeStorage(), () => 0.9), name);
  assert.equal(nameOfTab(null), 'page');
});
