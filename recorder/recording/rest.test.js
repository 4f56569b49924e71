'use strict';
// When a page is at rest.

const assert = require('node:assert');
const { test } = require('node:test');
const { parseOptions } = require('./options.js');
const { Recorder } = require('./recorder.js');

/**
 * A recorder of a quiet page whose looks answer in turn where it stands.
 * @param {(string|null)[]} places
 * @param {{log?: string[], isCompared?: boolean, open?: (looks: number) => number}} facts
 */
function quietPage(places, { log = [], isCompared = true, open = () => 0 } = {}) {
  const recorder = new Recorder('page', { ...parseOptions(['page']), ...isCompared && { whenOver: async () => {} }, depth: 'objects' });
  log.forEach((text) => recorder.intake.entries.push({ text }));
  /** @type {(string|null)[]} */
  const looks = [];
  const look = async () => { looks.push(places[Math.min(looks.length, places.length - 1)]); return looks[looks.length - 1]; };
  const tab = { evaluate: async () => null, evaluateApart: look };
  recorder.tab = /** @type {import('../browser/tab.js').Tab} */ (/** @type {unknown} */ (tab)); // as far as it is asked
  recorder.openRequests = () => open(looks.length);
  recorder.until = Date.now() + 20000;
  return { recorder, looks };
}

/**
 * For how long a page is waited for, in parts of the quiet.
 * @param {(string|null)[]} places
 * @param {Parameters<typeof quietPage>[1]} [facts]
 */
async function waitedFor(places, facts) {
  const { recorder } = quietPage(places, facts);
  const begin = Date.now();
  assert.ok(await recorder.rest.waitForQuiet(900));
  return (Date.now() - begin) / 900;
}

test('a quiet page is waited for a third of the time, where nothing is due, nothing moves and it is compared', async () => {
  const waits = await Promise.all([
    waitedFor(['0 0']), waitedFor(['0 0'], { log: ['set 1 9000 0'] }),
    waitedFor(['0 0'], { log: ['set 1 700 0'] }), waitedFor([null]), waitedFor(['0 0'], { isCompared: false }),
  ]);
  waits.slice(0, 2).forEach((wait) => assert.ok(wait > 0.3 && wait < 0.95, `${wait}`));
  waits.slice(2).forEach((wait) => assert.ok(wait >= 0.9, `${wait}`));
});

test('a page that scrolls, or asks for something at the second look, is not at rest', async () => {
  const scrolls = quietPage(['0 0', '0 50', '0 90', '0 90']);
  const asks = quietPage(['0 0'], { open: (looks) => (looks === 2 ? 1 : 0) });
  const looksOf = async (/** @type {ReturnType<typeof quietPage>} */ { recorder }) => [await recorder.rest.isAtRest(Date.now()), await recorder.rest.isAtRest(Date.now()), await recorder.rest.isAtRest(Date.now()), await recorder.rest.isAtRest(Date.now())];
  assert.deepStrictEqual(await looksOf(scrolls), [false, false, false, true]);
  assert.deepStrictEqual(await looksOf(asks), [false, false, true, true]);
});

test('nothing comes to a quiet page in which nothing is due, once it has been quiet for a while', async () => {
  /** @param {Parameters<typeof quietPage>[1]} [facts] */
  const comes = async (facts) => {
    const { rest } = quietPage(['0 0'], facts).recorder;
    const comesNothing = rest.nothingComes(Date.now() + 60000);
    const answers = [];
    for (let k = 0; k < 30 && !answers[k - 1]; k++) {
      answers.push(await comesNothing());
      await new Promise((resolve) => setTimeout(resolve, 50));
    }
    return answers;
  };
  const [quiet, due, asking, plain] = await Promise.all([comes(), comes({ log: ['set 1 30000 0'] }), comes({ open: () => 1 }), comes({ isCompared: false })]);
  assert.deepStrictEqual([quiet[0], quiet[quiet.length - 1]], [false, true]);
  [due, asking, plain].forEach((answers) => assert.ok(answers.every((one) => !one)));
});
