// Files of the repository, for tests.

import { readFileSync } from 'node:fs';

/**
 * Where a file of the repository is.
 * @param {string} path
 */
export const urlOf = path => new URL(`../../${path}`, import.meta.url);

/**
 * The text of a file of the repository.
 * @param {string} path
 */
export const inRepository = path => readFileSync(urlOf(path), 'utf8');
