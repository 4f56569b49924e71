'use strict';
// Which objects the places of a page's code have had: how many count in an action, and how much is known of each place. The module of page/ runs here without
// a browser.

const assert = require('node:assert');
const path = require('node:path');
const { test } = require('node:test');
const vm = require('node:vm');
const { bundled } = require('./bundle.js');

const SITES = path.join(__dirname, '..', 'page', 'objects', 'sites.js');
const MOST = 2000;

/** Sites in the first piece of a recording's first action, and what was missed and asked. */
function newSites() {
  const context = vm.createContext({});
  vm.runInContext('globalThis.window = globalThis;', context);
  /** @type {any} the module of the page */
  const { Sites, markOfStaged } = vm.runInContext(bundled(SITES, ['window', 'given']), context)(context.window, {});
  const told = { missed: 0, asked: 0 };
  const recording = { actions: 1, pieces: 1, mayAccess: () => { told.asked++; return true; }, log: { miss: () => { told.missed++; } } };
  return { sites: new Sites(recording), recording, told, markOfStaged };
}

/**
 * How many of so many new objects are due at a site.
 * @param {ReturnType<typeof newSites>} all
 * @param {number} count
 */
const dueOf = ({ sites }, count, site = 5) => Array.from({ length: count }, () => sites.isDue({}, site)).filter(Boolean).length;

test('of the objects of a place in an action the first ones are due, also over several pieces', () => {
  const all = newSites();
  assert.strictEqual(dueOf(all, MOST + 500), MOST - 1);
  assert.deepStrictEqual(all.told, { missed: 1, asked: MOST }); // in this piece it is known
  all.recording.pieces = 2;
  assert.strictEqual(dueOf(all, 10), 0);
  assert.deepStrictEqual(all.told, { missed: 1, asked: MOST + 1 });
  assert.strictEqual(dueOf(all, 10, 6), 10);
  all.recording.actions = 2;
  all.recording.pieces = 3;
  assert.strictEqual(dueOf(all, MOST + 500), MOST - 1);
  assert.strictEqual(all.told.missed, 2);
  all.recording.actions = 30000;
  all.recording.pieces = 300000;
  assert.strictEqual(dueOf(all, 10), 10);
});

test('a few lists have an entry for each place', () => {
  const { sites } = newSites();
  sites.isDue({}, 999);
  const lists = Object.values(sites).filter((one) => Array.isArray(one) && one.length === 1000);
  assert.strictEqual(lists.length, 4);
});

test('the items of an array and the place of a write are not taken for one another', () => {
  const { sites, markOfStaged } = newSites();
  assert.ok(sites.isDue([], 5));
  assert.ok(markOfStaged(sites.marks[5]) < 0, 'neither');
  sites.noteKey([], 3, 5);
  assert.ok(markOfStaged(sites.marks[5]) < 0, 'an item');
  sites.marks[5] = markOfStaged(4);
  assert.strictEqual(markOfStaged(sites.marks[5]), 4);
  assert.ok(sites.isDue({}, 5));
  assert.ok(markOfStaged(sites.marks[5]) < 0, 'another object');
  sites.marks[5] = markOfStaged(4);
  sites.forget();
  assert.ok(markOfStaged(sites.marks[5]) < 0, 'another piece');
});
