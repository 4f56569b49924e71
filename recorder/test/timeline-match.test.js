'use strict';
// Events of a timeline beside what the recorder began, without a browser.

const assert = require('node:assert');
const { test } = require('node:test');
const { TimelineMatch } = require('./timeline-match.js');

/** @typedef {import('./timeline-match.js').TimelineEvent} TimelineEvent */

const PAGE = { pid: 1, tid: 1 };

/**
 * @param {number} ts
 * @param {string} message
 * @returns {TimelineEvent}
 */
const stamp = (ts, message) => ({ ...PAGE, name: 'TimeStamp', ph: 'R', ts, args: { data: { message: `er ${message}`, frame: 'page' } } });
/**
 * @param {number} ts
 * @param {number} dur
 * @param {string} name
 * @param {object} data
 * @returns {TimelineEvent}
 */
const span = (ts, dur, name, data = {}) => ({ ...PAGE, name, ph: 'X', ts, dur, args: { data: { frame: 'page', ...data } } });
/** @param {TimelineEvent[]} events */
const missingIn = (events) => new TimelineMatch([stamp(0, 'begin parse 0 1 plain'), ...events], 'recorder').missing();

test('a script in which its run begins, and one in which none does', () => {
  const ran = [span(10, 5, 'EvaluateScript', { url: 'a.js' }), stamp(11, 'begin exec 3'), stamp(12, 'enter script'), stamp(13, 'leave 0')];
  assert.deepStrictEqual(missingIn(ran), []);
  const [evaluated] = ran;
  assert.deepStrictEqual(missingIn([evaluated]), [{ kind: 'EvaluateScript', place: 'a.js' }]);
  assert.deepStrictEqual(missingIn([evaluated, stamp(20, 'begin parse 0 4 plain')]), [{ kind: 'EvaluateScript', place: 'a.js' }]);
  assert.deepStrictEqual(missingIn([evaluated, stamp(20, 'over')]), [{ kind: 'EvaluateScript', place: 'a.js' }]);
  assert.deepStrictEqual(missingIn([stamp(5, 'over'), evaluated]), []);
});

test('a script that cannot declare its names has an empty run, which begins with its load event', () => {
  const script = span(10, 5, 'EvaluateScript', { url: 'a.js' });
  const load = [span(20, 5, 'EventDispatch', { type: 'load' }), stamp(21, 'begin exec 3'), stamp(22, 'begin inline 1 4 load')];
  assert.deepStrictEqual(missingIn([script, ...load]), []);
  const twice = missingIn([script, { ...script, ts: 16, dur: 2 }, ...load]);
  assert.deepStrictEqual(twice, [{ kind: 'EvaluateScript', place: 'a.js' }]);
  assert.deepStrictEqual(missingIn(load), [{ kind: 'action exec', place: 'exec 3' }]);
});

test('what runs in a page that the browser opens for itself is no script of the page', () => {
  const script = span(10, 5, 'EvaluateScript', { url: '', frame: 'popup' });
  const drawn = span(20, 1, 'PrePaint', { frame: 'popup', isMainFrame: true });
  assert.deepStrictEqual(missingIn([script, drawn]), []);
  const kind = 'EvaluateScript without an address';
  assert.deepStrictEqual(missingIn([script]), [{ kind, place: '' }]);
  assert.deepStrictEqual(missingIn([script, drawn, span(5, 1, 'CommitLoad', { frame: 'popup' })]), [{ kind, place: '' }]);
});
