'use strict';
// What a replay found as a sentence, by the kind of effect.

const assert = require('node:assert');
const { test } = require('node:test');
const { attribute } = require('./attribution.js');
const { NOWHERE, sentenceOf } = require('./sentence.js');
const { worstOf, worstOfOwn } = require('./verdict.js');

/** @typedef {import('./types').Difference} Difference */
/** @typedef {import('./types').Result} Result */

/** @type {(kind: string, subject: string, recorded: string, other: string, isOfUser?: boolean) => Difference} */
const difference = (kind, subject, recorded, other, isOfUser = false) => ({ kind, subject, isSeen: true, recorded, other, isOfUser });
/** @param {Partial<Result>} result */
const told = (result) => sentenceOf({ verdict: 'turned', ...result }, worstOf(result)?.difference);
/** @param {Difference[]} differences */
const of = (...differences) => told({ differences });
const LOST = difference('event', 'the click at button#buy: the click handler onBuy', 'the click handler onBuy', 'not run', true);

test('an effect of each kind is a short sentence', () => {
  assert.strictEqual(of(difference('error', 'TypeError: x is null (index.html:10)', 'none', 'TypeError: x is null (index.html:10)')),
    'in the other order an uncaught error: TypeError: x is null (index.html:10)');
  assert.strictEqual(of(difference('error', 'TypeError: x', 'TypeError: x', 'none')), 'in the other order without the uncaught error TypeError: x');
  assert.strictEqual(of(difference('field', 'value of input#field', 'books tea', 'books ea', true)), 'in the other order the value of input#field is "books ea" instead of "books tea"');
  assert.strictEqual(of(difference('storage', 'localStorage.volume', '3', 'none')), 'in the other order localStorage.volume is not set');
  assert.strictEqual(of(difference('hash', 'hash', '#a', '#b')), 'in the other order the hash of the address is "#b" instead of "#a"');
  assert.strictEqual(of(difference('request', 'GET http://localhost/a/cart.json', 'made', 'not made')), 'in the other order cart.json is not requested');
  assert.strictEqual(of(difference('request', 'POST http://shop.invalid/save', 'not made', 'made')), 'in the other order POST save is requested');
  assert.strictEqual(of(difference('picture', 'the picture', 'as recorded', '79 of 784300 points differ')), 'in the other order the picture of the page differs');
  assert.strictEqual(of(difference('suite', "the suite's status", '0', '1')), 'in the other order the suite fails (status 1)');
});

test('two texts are one clause, more are told by the first', () => {
  const [gone, come] = [difference('text', 'price 0', 'price 0', 'none'), difference('text', 'price 7', 'none', 'price 7')];
  assert.strictEqual(of(gone, come), 'in the other order the text is "price 7" instead of "price 0"');
  assert.strictEqual(of(gone), 'in the other order the text "price 0" is missing');
  assert.strictEqual(of(gone, come, difference('text', 'sum', 'none', 'sum')), 'in the other order the text "price 0" is missing');
});

test('a lost act comes with what its user sees', () => {
  assert.strictEqual(of(LOST), 'in the other order the click at button#buy does not find the click handler onBuy, and nothing else differs');
  assert.strictEqual(of(LOST, difference('picture', 'the picture', 'as recorded', '1'), difference('text', 'bought', 'bought', 'none')),
    'in the other order the click at button#buy does not find the click handler onBuy, and the text "bought" is missing');
  assert.strictEqual(of({ ...LOST, recorded: 'not run', other: 'the click handler onBuy' }), 'in the other order the click at button#buy finds the click handler onBuy, and nothing else differs');
});

test('of several lost events the sentence has that of the race', () => {
  const down = difference('event', 'the mousedown at button#buy: the mousedown handler onDown', 'the mousedown handler onDown', 'not run', true);
  assert.strictEqual(sentenceOf({ verdict: 'turned', differences: [down, LOST] }, down, 'slot 12 click/5'),
    'in the other order the click at button#buy does not find the click handler onBuy, and nothing else differs');
  assert.match(sentenceOf({ verdict: 'turned', differences: [down, LOST] }, down, 'slot 12 load/5'), /^in the other order the mousedown at button#buy does not find/);
  const own = difference('event', 'the click at button#buy: the click handler at other.js:7, by way of jquery.js:2', 'x', 'not run', true);
  const far = difference('event', 'the click at button#buy: the click handler at other.js:71', 'x', 'not run', true);
  assert.match(sentenceOf({ verdict: 'turned', differences: [LOST, far, own] }, LOST, 'slot 12 click/6', 1, () => ({ ...NOWHERE, own: 'other.js:7' })), /does not find the click handler at other\.js:7, by/);
});

test('the element of a lost event has the label that it has in the list', () => {
  const lost = difference('event', 'the click at button: the click handler onBuy', 'the click handler onBuy', 'not run', true);
  const withEvent = (/** @type {string} */ event, one = lost) => sentenceOf({ verdict: 'turned', differences: [one] }, one, 'slot 12 click/5', 0, undefined, event);
  assert.strictEqual(withEvent('click at button "First dataset"'), 'in the other order the click at button "First dataset" does not find the click handler onBuy, and nothing else differs');
  assert.match(withEvent('click at button.buy'), /the click at button\.buy does not find/);
  for (const other of ['', 'click at button', 'click at buttons "x"', 'mousedown at button "x"']) assert.match(withEvent(other), /the click at button does not find/);
  assert.match(withEvent('click at button#buy', LOST), /the click at button#buy does not find/);
});

/** Where the list has a race: by its number, the number of its entry and the place there. */
const ENTRIES = [-1, 1, 0, 1, 2, 3, 4, 5];
const PLACES = ['', 'own.js:1', 'a.js:1', 'own.js:1', 'b.js:2', 'c.js:3', 'd.js:4', 'e.js:5'];
/** @param {number} number */
const whereOf = (number) => ({ own: PLACES[number] ?? '', place: PLACES[number] ?? '', index: ENTRIES[number] ?? -1 });

test('races that came in another order too are named by their places', () => {
  const one = (/** @type {number[]} */ ...astray) => sentenceOf({ verdict: 'turned', differences: [LOST], astray }, LOST, 'slot 1 click/1', 1, whereOf).split('; ')[1];
  assert.strictEqual(one(2, 3), 'some of it may come from the race at a.js:1, which came in another order too');
  assert.strictEqual(one(2, 4), 'some of it may come from the races at a.js:1, b.js:2, which came in another order too');
  assert.strictEqual(one(2, 4, 5, 6, 7), 'some of it may come from the races at a.js:1, b.js:2, c.js:3 and 2 more places, which came in another order too');
  assert.strictEqual(one(3), undefined, 'one change mends all races of an entry');
  assert.strictEqual(sentenceOf({ verdict: 'turned', differences: [], astray: [3] }, undefined, '', 1, whereOf), 'no visible difference; another race of this entry came in another order too');
  assert.strictEqual(one(3, 99), 'some of it may come from 2 other races, which came in another order too');
});

test('what comes from another race is named with the place of that one', () => {
  const typed = difference('field', 'value of input#q', 'themex', 'theme', true);
  const key = { ...LOST, subject: 'the keydown at input#q: the keydown handler at keys.js:2' };
  const reader = { number: 4, result: /** @type {Result} */ ({ verdict: 'turned', differences: [key, typed], astray: [2], turned: { races: [2], readers: [4], owners: [[4], [2]] } }) };
  const said = () => sentenceOf(reader.result, worstOfOwn(reader.result)?.difference, 'slot 1 keydown/1', 4, whereOf);
  attribute([reader]);
  assert.strictEqual(said(), 'the handler changed nothing that is recorded; the value of input#q differs too, which comes from a.js:1 (above)');
  reader.result.turned = { races: [2, 5], readers: [4], owners: [[4], []] };
  attribute([reader]);
  assert.strictEqual(said(), 'in the other order the keydown at input#q does not find the keydown handler at keys.js:2, and the value of input#q is "theme" instead of "themex"; '
    + 'the handler changed nothing that is recorded, so some of it may come from the races at a.js:1, c.js:3, which came in another order too');
});

test('a race that no run was made for can have come in the other order by itself', () => {
  const chance = { turned: ['free', '2'], kept: ['3'], implied: [] };
  assert.strictEqual(told({ verdict: 'not turned', why: 'what brings it has to come first', chance }),
    'it happened: in 2 of 3 further runs the two came in the other order by themselves; the ends of these runs are not compared');
});

test('what has no visible difference, or was not turned', () => {
  const seen = [difference('text', 'slow', 'none', 'slow')];
  assert.strictEqual(told({ differences: [] }), 'no visible difference');
  assert.strictEqual(told({ differences: [], byDelay: seen }), 'no visible difference, except what a delay in the recorded order does too');
  assert.strictEqual(told({ differences: [], unsteady: seen, astray: [4] }), 'no visible difference, except what differs by itself; another race came in another order too');
  assert.strictEqual(told({ verdict: 'not turned', why: 'both come from one act of the user' }), 'could not be turned, which says nothing about the race: both come from one act of the user');
});
