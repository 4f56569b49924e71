'use strict';
// How problems are drawn, and what their judgements come to. No browser.

const assert = require('node:assert');
const { test } = require('node:test');
const { draw, withJudgements, faultsOf, judgementTexts } = require('./draw.js');
const { LINE, FAILED, PROBLEMS } = require('./sample-lines.js');

const others = Array.from({ length: 20 }, (_, k) => ({ ...LINE, page: `/p${k}.html` }));

test('a draw depends on its seed alone, and tells what came of each problem in the other order', () => {
  const drawn = draw(others, 10, 7);
  assert.strictEqual(drawn.length, 10);
  assert.deepStrictEqual(draw([...others].reverse(), 10, 7), drawn);
  assert.deepStrictEqual(draw(others, 5, 7), drawn.slice(0, 5));
  assert.notDeepStrictEqual(draw(others, 10, 8), drawn);
  const acts = { ...LINE, problems: PROBLEMS.map((one) => ({ ...one, look: 'act against act' })) };
  assert.deepStrictEqual(draw([acts], 50, 1), []);
  assert.deepStrictEqual(draw([LINE, FAILED], 50, 1).map(({ name, replay }) => [name, replay]).sort(), [['n1', 'differs: a lost act'], ['n2', 'same']]);
});

test('what was judged stays with its problem, and what is not drawn any more comes after', () => {
  const first = withJudgements(draw(others, 10, 7), { count: 10, seed: 7 }, { problems: [] });
  Object.assign(first.problems[0], { judgement: 'harmless', why: 'it is drawn anew' });
  Object.assign(first.problems[9], { judgement: 'harmful', why: 'it is lost' });
  const second = withJudgements(draw(others, 9, 7), { count: 9, seed: 7 }, first);
  assert.deepStrictEqual(second.problems[0], first.problems[0]);
  assert.deepStrictEqual(second.earlier, [first.problems[9]]);
  assert.deepStrictEqual(withJudgements(draw(others, 10, 7), { count: 10, seed: 7 }, second).problems, first.problems);
});

test('a judgement has a reason, and an impossible race the order that is lost', () => {
  const judged = (/** @type {string} */ judgement, /** @type {string} */ lost, /** @type {string} */ why) => ({ problems: [{ page: 'p', name: 'n', words: 'w', judgement, lost, why }], seed: 7 });
  assert.deepStrictEqual(faultsOf(judged('', '', ''), ''), []);
  assert.deepStrictEqual(faultsOf(judged('impossible', 'timeouts of two windows', 'so'), 'lost: timeouts of two windows'), []);
  assert.deepStrictEqual(faultsOf(judged('impossible', 'no such', ''), 'lost: ..'), ['p, n: why is not said', 'p, n: it names no lost order of docs/lost.md']);
  assert.deepStrictEqual(faultsOf(judged('bad', '', 'so'), ''), ['p, n: no judgement: bad']);
  const texts = judgementTexts(judged('harmless', '', 'a | b'));
  assert.match(texts.judgements, /\| real and harmless \| 1 \| 100 % \|/);
  assert.match(texts.judged, /^- p: w\. \*\*real and harmless\*\*: a &#124; b$/);
  assert.match(judgementTexts(judged('', '', '')).judgements, /1 problems are drawn by the seed 7; none is judged yet/);
  assert.strictEqual(judgementTexts({ problems: [], seed: 7 }).judgements, 'None is drawn yet.');
});
