'use strict';
// A page load that no browser made, for measurements of lists: a thousand actions of a page with a parser, requests, timeouts, clicks and promise reactions,
// and its names with places, values and texts.

const fs = require('node:fs');
const path = require('node:path');

/** How many of each a load has. */
const ELEMENTS = 440;
const CLICKS = 60;
const TIMEOUTS = 100;
const REQUESTS = 60;
const JOBS = 100;
/** Accesses of an action to properties that no other action writes. */
const READS = 4;
/** The problems of each load: those that all loads have, and those of this one and every fiftieth after it. */
const SHARED = 8;
const OWN = 2;
const KINDS = 50;
/** So many replies write each variable that races. */
const WRITERS = 3;
/** Lines of the two sources: a page, and a script of about 200 kB. */
const PAGE_LINES = 500;
const SCRIPT_LINES = 3300;
const PAGE_FILE = 0;
const SCRIPT_FILE = 1;
const FIRST_OBJECT = 1000000;
/** Numbers of the document and the window, as elements; those of the page follow. */
const FIRST_ELEMENT = 4;

/** @param {number} number in letters: stable names are made of names without their numbers */
const lettersOf = (number) => [...String(number)].map((digit) => String.fromCharCode(97 + Number(digit))).join('');

class MadeLoad {
  /** @param {number} number */
  constructor(number) {
    this.number = number;
    this.lines = ['webtrace 3'];
    /** @type {{[member: string]: {[key: string]: unknown}}} */
    this.names = { elements: {}, handlers: {}, timeouts: {}, requests: {}, dispatches: {}, functions: {}, values: {}, places: {} };
    this.dispatch = 0;
    this.line = 0;
    this.actions = 0;
    this.racing = [...Array.from({ length: SHARED }, (_, k) => `shared${k}`), ...Array.from({ length: OWN }, (_, k) => `own${lettersOf(number % KINDS)}${lettersOf(k)}`)];
  }

  /** @param {string} text @param {unknown} [place] */
  write(text, place) {
    this.lines.push(text);
    if (place) this.names.places[this.lines.length] = place;
  }

  /** @param {string} text of an action @param {unknown} [place] */
  act(text, place) {
    this.actions++;
    this.write(text, place);
  }

  /** The next place in the script; the same for each load. */
  place() {
    this.line = (this.line + 7) % (SCRIPT_LINES - 10);
    return [SCRIPT_FILE, this.line + 1, 3];
  }

  /** @param {string} mode @param {string} location @param {unknown} place */
  access(mode, location, place) {
    this.write(`${mode} ${location}`, place);
    this.names.values[this.lines.length] = `s${(this.lines.length * 7919 % 100000).toString(36)}`;
  }

  /**
   * What an action does: reads of what the first script has set, and a write of one of the variables that race.
   * @param {number} k
   * @param {string|null} racing
   */
  work(k, racing) {
    for (let n = 0; n < READS; n++) this.access('r', `var ${FIRST_OBJECT + (k + n) % 40} member${n}`, this.place());
    if (racing) this.access('w', `var 0 ${racing}`, [SCRIPT_FILE, 40 * (this.racing.indexOf(racing) + 1), 5]);
  }

  parse() {
    for (let k = 0; k < ELEMENTS; k++) {
      const element = FIRST_ELEMENT + k;
      this.names.elements[element] = { tag: 'li', id: `item${k}`, document: 0, place: [PAGE_FILE, k + 20, 1] };
      this.act(`parse 0 ${element} plain`, [PAGE_FILE, k + 20, 1]);
      this.access('w', `elem 0 item${k}`, [PAGE_FILE, k + 20, 1]);
    }
  }

  /** The page's script: it sets all objects, registers the handlers, and starts all that comes later. */
  script() {
    const element = FIRST_ELEMENT + ELEMENTS;
    this.names.elements[element] = { tag: 'script', source: 'http://localhost/app.js', document: 0, place: [PAGE_FILE, 18, 1] };
    this.act(`parse 0 ${element} sync`, [PAGE_FILE, 18, 1]);
    this.act(`exec ${element}`, [SCRIPT_FILE, 1, 1]);
    for (let k = 0; k < 40; k++) for (let n = 0; n < READS; n++) this.access('w', `var ${FIRST_OBJECT + k} member${n}`, this.place());
    for (let k = 0; k < CLICKS; k++) this.handler(k + 1, 'click', FIRST_ELEMENT + k);
    for (let k = 0; k < REQUESTS; k++) {
      this.names.requests[k + 1] = { method: 'GET', address: `item/${k}.json`, url: `http://localhost/item/${k}.json`, place: this.place() };
      this.write(`send ${k + 1}`, this.place());
      this.handler(CLICKS + k + 1, 'reply of fetch', 3);
    }
    for (let k = 0; k < TIMEOUTS; k++) {
      this.names.timeouts[k + 1] = { function: `later${k}`, place: this.place() };
      this.write(`set ${k + 1} ${TIMEOUTS - k}`, this.place());
    }
    for (let k = 0; k < JOBS; k++) this.write(`queue ${k + 1}`, this.place());
    for (let k = 0; k < JOBS; k++) {
      this.act(`job ${k + 1}`, this.place());
      this.work(k, null);
    }
  }

  /** @param {number} handler @param {string} type @param {number} target */
  handler(handler, type, target) {
    this.names.handlers[handler] = { type, target, function: `on${handler}`, place: this.place() };
    this.write(`on ${handler}`, this.place());
    this.write(`w slot ${target} ${type === 'click' ? type : `reply${handler}`}`, this.place());
  }

  /**
   * A dispatch with one handler.
   * @param {string} begin @param {string} type @param {number} handler @param {() => void} work
   */
  event(begin, type, handler, work) {
    const dispatch = ++this.dispatch;
    this.names.dispatches[dispatch] = { type };
    this.act(begin.replace('P', String(dispatch)));
    this.act(`run ${dispatch} 0 ${handler}`, this.place());
    work();
    this.act(`close ${dispatch}`);
  }

  later() {
    for (let k = 0; k < TIMEOUTS; k++) {
      this.act(`timer ${TIMEOUTS - k}`, this.place());
      this.work(k, null);
    }
    for (let k = 0; k < REQUESTS; k++) {
      this.event(`reply P ${k + 1}`, 'load', CLICKS + k + 1, () => this.work(k, this.racing[Math.floor(k / WRITERS)] || null));
    }
    for (let k = 0; k < CLICKS; k++) this.event(`fire P ${FIRST_ELEMENT + k} click`, 'click', k + 1, () => {
      this.work(k, null);
      this.access('r', `elem 0 item${k}`, this.place());
    });
  }

  /** @returns {{trace: string, names: object}} */
  make() {
    this.script();
    this.parse();
    this.later();
    const page = `http://localhost/${this.number}.html`;
    const files = [{ address: page, text: this.pageText() }, { address: 'http://localhost/app.js', text: scriptText() }];
    const facts = { format: 1, page, files, documents: { 0: { address: page } }, intervals: {}, objects: this.objects(), messages: {}, ways: {}, ...this.names };
    const load = { number: this.number, address: page, actions: this.actions, test: { name: 'made', words: 'a made load' }, why: 'the tab shows another page' };
    return { trace: [...this.lines, 'end', ''].join('\n'), names: { ...facts, load } };
  }

  objects() {
    const objects = Array.from({ length: 40 }, (_, k) => [FIRST_OBJECT + k, { made: 'object', name: `part${k}`, place: [SCRIPT_FILE, k + 1, 9] }]);
    return { 0: { windowOf: 0 }, ...Object.fromEntries(objects) };
  }

  pageText() {
    return Array.from({ length: PAGE_LINES }, (_, k) => `<li id="item${k - 19}" class="row of load ${this.number}">Item ${k}</li>`).join('\n');
  }
}

const scriptText = () => Array.from({ length: SCRIPT_LINES }, (_, k) => `  state.part${k % 40}.member${k % READS} = update(state, ${k}, "of line ${k}");`).join('\n');

/**
 * Writes the trace and the names of a load. Returns how many actions it has.
 * @param {string} folder
 * @param {number} number
 */
function writeLoad(folder, number) {
  const load = new MadeLoad(number);
  const { trace, names } = load.make();
  const base = path.join(folder, `load-${String(number).padStart(4, '0')}`);
  fs.writeFileSync(`${base}.trace`, trace);
  fs.writeFileSync(`${base}.names.json`, JSON.stringify(names));
  return load.actions;
}

module.exports = { writeLoad, PROBLEMS: { shared: SHARED, own: OWN } };
