// The gallery of the page: its entries are the examples.

import assert from 'node:assert/strict';
import { existsSync } from 'node:fs';
import { test } from 'node:test';
import { GALLERY } from '../gallery.js';
import { lineOf } from '../lines.js';
import { inRepository, urlOf } from './repository.mjs';

/**
 * The lines of commands as one text.
 * @param {import('../lines.js').Command[]} commands
 */
const textOf = commands => commands.map(command => `${lineOf(command)}\n`).join('');

test('each entry has the lines of its example, byte for byte', () => {
  const shown = inRepository('examples/shown.txt').split('\n').filter(line => line !== '' && !line.startsWith('#'));
  assert.deepEqual(GALLERY.map(({ name }) => name), shown.map(line => line.split(' ')[0]));
  for (const { name, commands, turn } of GALLERY) {
    assert.equal(textOf(commands), inRepository(`examples/${name}.lines`));
    const turned = `examples/${name}.turn`;
    assert.equal(textOf(turn), existsSync(urlOf(turned)) ? inRepository(turned) : '');
  }
});
