'use strict';
// What a user types and presses, as the page sees it in the browser.

const assert = require('node:assert');
const { after, before, test } = require('node:test');
const { Chromium } = require('../browser/chromium.js');
const { cssWhere } = require('../browser/input/selectors.js');
const { Tab } = require('../browser/tab.js');
const { User } = require('../browser/user.js');

const PAGE = `<!doctype html><input id=q><textarea id=t>one two</textarea><button id=b>b</button><script>
seen = [];
addEventListener('keydown', (e) => seen.push([e.key, e.keyCode, e.shiftKey, e.ctrlKey].join(' ')), true);
</script>`;
const ASCII = Array.from({ length: 95 }, (_, k) => String.fromCharCode(32 + k)).join('');

/** @type {Chromium} */
let browser;
/** @type {Tab} */
let tab;
/** @type {User} */
let user;
before(async () => {
  browser = await Chromium.launch({ width: 800, height: 600 });
  tab = await Tab.open(browser, { width: 800, height: 600 });
  await tab.send('Page.enable');
  user = new User(tab);
});
after(() => browser.close());

async function open() {
  const loaded = new Promise((resolve) => { tab.on('Page.loadEventFired', resolve); });
  await tab.send('Page.navigate', { url: `data:text/html,${encodeURIComponent(PAGE)}` });
  await loaded;
}
/**
 * @param {import('../options/step.js').Step['kind']} kind
 * @param {string} target
 * @param {string} [text]
 */
const act = (kind, target, text = '') => user.act({ kind, target, text, isEarly: false, said: `${kind}:${target}`, ...(kind === 'key' ? {} : { where: cssWhere(target) }) });
/** @param {string} id */
const valueOf = (id) => tab.evaluate(`${id}.value`);

test('each printable character is typed, with its key', { timeout: 100000 }, async () => {
  await open();
  await act('type', '#q', ASCII);
  assert.strictEqual(await valueOf('q'), ASCII);
  /** @type {string[]} */
  const seen = await tab.evaluate("seen.filter((one) => !one.startsWith('Shift '))");
  assert.strictEqual(seen.length, ASCII.length);
  [...ASCII].forEach((character, k) => assert.ok(seen[k].startsWith(`${character} `), `${character}: ${seen[k]}`));
  const codes = Object.fromEntries(seen.map((one) => [one[0], Number(one.slice(2).split(' ')[0])]));
  assert.deepStrictEqual([codes['.'], codes["'"], codes['('], codes['%'], codes['-'], codes.a, codes.A, codes['7'], codes[' ']], [190, 222, 57, 53, 189, 65, 65, 55, 32]);
  assert.ok(seen.includes('A 65 true false') && seen.includes('a 65 false false'));
});

test('characters without a key, and lines', { timeout: 60000 }, async () => {
  await open();
  await act('type', '#q', 'é☃😀');
  assert.strictEqual(await valueOf('q'), 'é☃😀');
  await act('type', '#t', '\nx');
  assert.match(await valueOf('t'), /\nx/);
});

test('keys with others that are held', { timeout: 60000 }, async () => {
  await open();
  await act('type', '#q', 'abc');
  await act('key', 'Home');
  await act('key', 'x');
  await act('key', 'End');
  await act('key', 'Backspace');
  assert.strictEqual(await valueOf('q'), 'xab');
  await act('key', 'Control+A');
  await act('key', 'Delete');
  assert.strictEqual(await valueOf('q'), '');
  await act('key', 'Tab');
  assert.strictEqual(await tab.evaluate('document.activeElement.id'), 't');
  await act('key', 'Shift+Tab');
  assert.strictEqual(await tab.evaluate('document.activeElement.id'), 'q');
  await act('key', 'F12');
  const outcome = await act('key', 'Hom');
  assert.strictEqual(await tab.evaluate('seen.at(-1)'), 'F12 123 false false');
  assert.deepStrictEqual(outcome, { isDone: false, why: 'there is no such key' });
});
