'use strict';
// In which order races come in which run.

const assert = require('node:assert');
const { test } = require('node:test');
const { keysOf } = require('../../test/keys-support.js');
const { verdictInWords } = require('../verdict.js');
const { Orders } = require('./orders.js');

test('in which order races came by themselves, and with another one', () => {
  const lines = ['parse 0 2 inline', 'exec 2', 'set 1 5', 'set 2 0'];
  /** @type {import('../../races/types').NamesOfTrace['places']} */
  const places = { 4: [0, 2, 3], 5: [0, 2, 9], 7: [0, 1, 1], 9: [0, 1, 1] };
  const kept = keysOf([...lines, 'timer 1', 'w var 0 x', 'timer 2', 'w var 0 x'], places);
  const turned = keysOf([...lines, 'timer 2', 'w var 0 x', 'timer 1', 'w var 0 x'], places);
  /** @type {import('../../races/types').Race} */
  const race = { location: 'var 0 x', modes: 'ww', actions: [2, 3], lines: [7, 9], group: 1 };
  /** @type {import('../../races/types').Race} */
  const other = { ...race, actions: [0, 1], location: 'var 0 y' };
  const orders = new Orders({ races: [race] }, kept);
  orders.note({ name: 'recorded', keys: kept });
  orders.note({ name: 'free', keys: turned });
  orders.note({ name: '7', keys: turned }, { reversed: [other] });
  orders.note({ name: '8', keys: turned }, { reversed: [other], astray: [race] });
  orders.note({ name: '9', keys: turned }, { steered: [race] });
  assert.deepStrictEqual(orders.chanceOf(race), { kept: ['recorded'], turned: ['free', '8'], implied: ['7'] });
  orders.note({ name: '5-2', keys: kept }, { reversed: [other] });
  assert.deepStrictEqual(orders.chanceOf(race)?.kept, ['recorded', '5-2']);
  orders.note({ name: '4', keys: kept }, { reversed: [other] });
  assert.deepStrictEqual(orders.chanceOf(race)?.kept, ['recorded', '4', '5-2']);
  assert.match(verdictInWords({ verdict: 'not turned', why: 'x', chance: orders.chanceOf(race) }), /^could not be turned: x; but the two turned with another race/);
});
