'use strict';
// Traces of many races, made by a rule: each shape is the worst for another part of the list. big-lists.js measures them, big-lists.test.js counts their work.

const { FIRST_FIELD, FIRST_OBJECT } = require('../common/numbers.js');

/** @typedef {import('../list/types').Names} Names */
/**
 * The lines of a trace without the first and the last, and what is next to it.
 * @typedef {{lines: string[], names: Names}} BigTrace
 */

const PAGE = 'http://localhost/index.html';
const SCRIPT = 'http://localhost/app.js';
/** Lines of the script, each as long as one of a page. */
const LINES = 4000;
/** The line of the first `set` of `timers`. */
const FIRST_SET = 4;
const FIELD = 7;

/** @param {number} count @returns {number[]} 0, 1, .. */
const upTo = (count) => Array.from({ length: count }, (_, k) => k);

const textOf = () => upTo(LINES).map((k) => `  items[${k}] = compute(${k}, items, "<b>"); // what line ${k} of this long script does`).join('\n');

/**
 * Timeouts that nothing orders: the last one that is set comes first.
 * @param {number} count
 * @param {(timer: number) => string[]} accessesOf what each of them does, by its index in the order of the trace
 */
function timers(count, accessesOf) {
  const numbers = upTo(count).map((k) => k + 1);
  const runs = [...numbers].reverse().flatMap((number, k) => [`timer ${number}`, ...accessesOf(k)]);
  return ['parse 0 1 inline', 'exec 1', ...numbers.map((k) => `set ${k} ${count - k}`), ...runs];
}

/**
 * @param {string[]} lines
 * @param {(access: number, line: string) => {place: number, value?: string}} factsOf by the number of an access in the trace
 * @returns {BigTrace}
 */
function withNames(lines, factsOf) {
  /** @type {Required<Pick<Names, 'places'|'values'|'timeouts'|'handlers'|'dispatches'>>} */
  const by = { places: {}, values: {}, timeouts: {}, handlers: {}, dispatches: {} };
  let count = 0;
  lines.forEach((line, k) => {
    const [word, number] = line.split(' ');
    if (word === 'set') by.timeouts[number] = { place: [1, 1 + (k - FIRST_SET) % LINES, 1], function: `work${k}` };
    if (word === 'on') by.handlers[number] = { type: 'click', target: FIELD, place: [1, 1 + k % LINES, 5], function: `react${k}` };
    if (word === 'fire') by.dispatches[number] = { type: 'click' };
    if (word !== 'r' && word !== 'w') return;
    const { place, value } = factsOf(count++, line);
    by.places[k + 2] = [1, place % LINES + 1, 3];
    if (value !== undefined) by.values[k + 2] = value;
  });
  const files = [{ address: PAGE, text: '<button id=go>\n<script src=app.js></script>' }, { address: SCRIPT, text: textOf() }];
  const elements = { 1: { tag: 'script', source: 'app.js', place: /** @type {[number, number, number]} */ ([0, 2, 1]) }, [FIELD]: { tag: 'button', id: 'go' } };
  const objects = Object.fromEntries(upTo(LINES).map((k) => [FIRST_OBJECT + k, { made: 'object', text: `state${k}`, place: /** @type {[number, number, number]} */ ([1, k + 1, 3]) }]));
  return { lines, names: { page: PAGE, files, elements, documents: { 0: { address: PAGE } }, intervals: {}, requests: {}, objects, functions: {}, ...by } };
}

/**
 * How many things of which each two race are needed for so many races.
 * @param {number} races
 */
const sideOf = (races) => Math.ceil(Math.sqrt(2 * races)) + 1;

/** Two actions that race do so at this many locations: the analyzer takes fewer pairs of actions than races. */
const WIDTH = 8;
/** @param {string} mode @param {(k: number) => string} locationOf */
const atEach = (mode, locationOf) => upTo(WIDTH).map((k) => `${mode} ${locationOf(k)}`);
const variable = (/** @type {number} */ k) => `var 0 name${k}`;

/** @type {{[shape: string]: {says: string, make: (races: number) => BigTrace}}} */
const SHAPES = {
  places: {
    says: 'timeouts that write eight variables, each at places of its own: as many problems as races',
    make: (races) => withNames(timers(sideOf(races / WIDTH), () => atEach('w', variable)), (access) => ({ place: access, value: `n${access}` })),
  },
  loop: {
    says: 'timeouts that write eight variables, all at the same places: eight problems',
    make: (races) => withNames(timers(sideOf(races / WIDTH), () => atEach('w', variable)), (access) => ({ place: access % WIDTH })),
  },
  flags: {
    says: 'two scripts, one of which sets flags that the other one reads: all races are of one pair of actions',
    make: (races) => {
      const ofScript = (/** @type {string} */ mode) => upTo(races).map((k) => `${mode} var 0 flag${k}`);
      const lines = ['parse 0 1 async', 'parse 0 2 async', 'exec 1', ...ofScript('w'), 'exec 2', ...ofScript('r')];
      return withNames(lines, (access, line) => ({ place: access % 500, value: line.startsWith('r') ? 'false' : 'true' }));
    },
  },
  reads: {
    says: 'eight variables, read by thousands of timeouts and then written by three',
    make: (races) => {
      const readers = Math.floor(races / WIDTH / 3);
      return withNames(timers(readers + 3, (k) => atEach(k < readers ? 'r' : 'w', variable)), (access, line) => ({ place: access % 300, value: line.startsWith('w') ? 's1' : undefined }));
    },
  },
  objects: {
    says: 'ten timeouts, each of which writes thousands of properties of objects: long actions, as of a framework',
    make: (races) => {
      const own = upTo(Math.ceil(races / 45)).map((k) => `w var ${FIRST_OBJECT + k % LINES} item${Math.floor(k / LINES)}`);
      return withNames(timers(10, () => own), (access) => ({ place: access % 1000, value: `n${access}` }));
    },
  },
  elements: {
    says: 'timeouts that write the texts of eight elements, at forty places',
    make: (races) => withNames(timers(sideOf(races / WIDTH), () => atEach('w', (k) => `var ${FIRST_FIELD + k} textContent`)), (access) => ({ place: access % 40, value: `s${access}` })),
  },
  handlers: {
    says: 'clicks that look for handlers of eight elements, and timeouts that register these',
    make: (races) => {
      const side = Math.floor(Math.sqrt(races / WIDTH / 1.5)); // two that register one race too
      const clicks = upTo(side).flatMap((k) => [`fire ${k + 1} ${FIELD} click`, ...atEach('r', (of) => `slot ${of} click`), `close ${k + 1}`]);
      const registers = (/** @type {number} */ k) => [`on ${k + 1}`, ...atEach('w', (of) => `slot ${of} click`)];
      const [head, runs] = split(timers(side, registers), side + 2);
      return withNames([`parse 0 ${FIELD} plain`, ...head, ...clicks, ...runs], (access) => ({ place: access }));
    },
  },
};

/** @param {string[]} lines @param {number} at @returns {[string[], string[]]} */
const split = (lines, at) => [lines.slice(0, at), lines.slice(at)];

module.exports = { SHAPES, PAGE };
