'use strict';
// A callback that a replay holds back, and that the page clears: before its release, and after it. The modules of page/ run here without a browser.

const assert = require('node:assert');
const path = require('node:path');
const { test } = require('node:test');
const vm = require('node:vm');
const { bundled } = require('./bundle.js');

const STEERING = path.join(__dirname, '..', 'page', 'recording', 'steering.js');
const CLEARING = ['clearTimeout', 'clearInterval', 'cancelAnimationFrame', 'cancelIdleCallback'];

/**
 * The steering of a page whose browser learns only later what to hold back; its window, with the calls that came to the browser; and the hold.
 * @param {boolean} isReplay
 */
function steeringOf(isReplay = true) {
  const context = vm.createContext({});
  vm.runInContext('globalThis.window = globalThis; globalThis.location = { href: "http://a/" };', context);
  /** @type {any} the module of the page */
  const { Steering } = vm.runInContext(bundled(STEERING, ['window', 'given']), context)(context.window, { libraries: null, numbers: {} });
  /** @type {unknown[][]} */
  const calls = [];
  /** @type {{[name: string]: (...args: unknown[]) => void}} */
  const window = Object.fromEntries(CLEARING.map((name) => [name, (/** @type {unknown[]} */ ...args) => { calls.push([name, ...args]); }]));
  const native = { ...window };
  const steering = new Steering({}, isReplay ? [] : null, null);
  steering.watchClearing(window);
  steering.expect([{ id: 1, word: 'set', nth: 1 }]);
  return { steering, window, native, calls, hold: steering.holds[0] };
}

/** A held callback of the number 7 that is due: how often it ran, and what runs it after its release. */
function heldIn(/** @type {ReturnType<typeof steeringOf>} */ { steering, window, hold }) {
  const held = { ran: 0, later: () => {} };
  const callback = steering.callback(hold, () => { held.ran++; }, (/** @type {() => void} */ again) => { held.later = again; });
  steering.note(hold, window, 'timers', 7);
  callback();
  return held;
}

test('a held callback that the page clears does not run when it is released', () => {
  for (const [name, given] of /** @type {[string, unknown][]} */ ([['clearTimeout', 7], ['clearInterval', 7], ['clearTimeout', '7']])) {
    const all = steeringOf();
    const held = heldIn(all);
    all.window[name](given);
    all.steering.letGo(1);
    held.later();
    assert.strictEqual(held.ran, 0, name);
    assert.deepStrictEqual(all.calls, [[name, given]]);
  }
});

test('the page can clear it between its release and its run', () => {
  const all = steeringOf();
  const held = heldIn(all);
  all.steering.letGo(1);
  all.window.clearTimeout(7);
  held.later();
  assert.strictEqual(held.ran, 0);
});

test('other numbers, queues and windows are not its own', () => {
  const all = steeringOf();
  const held = heldIn(all);
  const other = { clearTimeout: () => {} };
  all.steering.watchClearing(other);
  for (const given of [8, '8', null, {}]) all.window.clearTimeout(given);
  all.window.cancelAnimationFrame(7);
  other.clearTimeout(.../** @type {[]} */ (/** @type {unknown} */ ([7])));
  all.steering.letGo(1);
  held.later();
  assert.strictEqual(held.ran, 1);
});

test('a plain recording replaces nothing, and the browser gets the page\'s own arguments', () => {
  const plain = steeringOf(false);
  CLEARING.forEach((name) => assert.strictEqual(plain.window[name], plain.native[name]));
  const { window, calls } = steeringOf();
  window.cancelAnimationFrame(); // which is an error in a browser
  assert.deepStrictEqual(calls, [['cancelAnimationFrame']]);
});
