'use strict';
// What one load of a driven browser holds back, as the plan of the run says. The page learns of it by a script at its start.

const { HOLD_NAME } = require('../browser/content-policy.js');
const { Lines } = require('../common/lines.js');
const { ofRecording } = require('../recording/page-script.js');
const { Due } = require('../replay/due.js');
const { RunSteering } = require('../replay/steering.js');
const { spotOf } = require('./asked.js');
const { movedTo } = require('./hold-plan.js');
const { startOf } = require('./opened-window.js');

/** @typedef {import('./hold-plan.js').Plan} Plan */
/** @typedef {import('../browser/responses/paused.js').Insertion} Insertion */

/** @type {Required<Pick<Plan, 'cause'|'second'|'longest'>>} what a plan with a load has */
const EMPTY = { cause: { means: 'act', action: 0, words: '' }, second: { key: '', mode: '', kind: '', name: '', nth: 0, actionKey: '', nthAction: 0, isLookUp: false }, longest: 0 };
/**
 * Room for the places of the page's own scripts, which are known when it is instrumented: their columns depend on the length of what is put before them. Long
 * stacks get more.
 */
const ROOM = 4000;

/** @param {unknown} value */
const codeOf = (value) => JSON.stringify(value).replace(/</g, '\\u003c');

/** Made by BrowserRecorder for each load, if the run has a plan (ER_HOLD). */
class LoadSteering extends RunSteering {
  /**
   * @param {Plan} plan
   * @param {import('./load.js').Load} load
   * @param {import('./opened-window.js').OpenedWindow|null} opened
   * @param {{ownNames: import('../page/types').OwnNames, tab: import('../browser/tab.js').Tab}} page
   */
  constructor(plan, load, opened, { ownNames, tab }) {
    const { cause, second, longest } = movedTo({ ...EMPTY, ...plan }, plan.load?.address || load.address, load.address);
    super([{ cause, due: new Due(second, load.options, !!plan.isLoose) }], [], longest);
    this.load = load;
    this.opened = opened;
    this.ownNames = ownNames;
    this.tab = tab;
    this.isInline = !!opened || this.forPage().length > 0;
    this.begin(/** @type {import('../recording/recorder.js').Recorder} */ (/** @type {unknown} */ (this.asRecorder()))); // what steering reads of one
  }

  /** What `RunSteering` reads of a recorder, which a driven browser has not. */
  asRecorder() {
    const { load: { intake, sources, address }, tab, ownNames } = this;
    return { intake, sources, given: address, tab, ownNames };
  }

  // ---- in the page

  /**
   * What the copy of the load's page gets before it is instrumented.
   * @param {string} address
   * @param {string} html
   */
  insertions(address, html) {
    const opened = this.opened?.insertions(address, html) || [];
    if (address !== this.load.address) return opened;
    return [...opened, ...this.expectations(address, html, opened), ...this.parserHolds(address, html)];
  }

  /**
   * The parser waits before a tag, whose offset is another one if the page has changed before its line.
   * @param {string} address
   * @param {string} html
   */
  parserHolds(address, html) {
    const lines = new Lines(html);
    for (const { cause } of this.holds) {
      const { line, column } = /** @type {NonNullable<Plan['cause']>} */ (cause);
      if (cause.means === 'parser' && line !== undefined && column !== undefined) cause.offset = lines.offsetOf(line, column);
    }
    return super.insertions(address, html).filter(({ start }) => start === html.length || html[start] === '<');
  }

  /**
   * A script by which the page's recorder gets what to hold back.
   * @param {string} address
   * @param {string} html
   * @param {Insertion[]} before what else is put there
   * @returns {Insertion[]}
   */
  expectations(address, html, before) {
    const holds = this.forPage();
    if (!holds.length) return [];
    const start = startOf(html);
    const codeFor = (/** @type {unknown[]} */ expected) => ofRecording(this.ownNames, `.steering.expect(${codeOf(expected)}, true)`);
    const write = (/** @type {string} */ code) => ({ start, end: start, insert: `<script data-er-hold nonce="${HOLD_NAME}">${code};__er.removeHold(document.currentScript)</script>` });
    for (let room = ROOM; ;) {
      this.load.sources.tryInsertions(address, [...before, write(''.padEnd(room))]);
      const code = codeFor(holds.map((hold) => this.withSpots(hold)));
      if (code.length <= room) return [write(code.padEnd(room))];
      room = 2 * code.length; // with more room the columns have a few digits more
    }
  }

  /** @param {ReturnType<import('../replay/hold.js').Hold['forPage']>} hold */
  withSpots(hold) {
    const { place = '', way = '' } = /** @type {{place?: string, way?: string}} */ (hold || {});
    const places = way ? way.split('\n') : [place];
    return place || way ? { ...hold, spots: places.map((one) => spotOf(this.load.sources, one)) } : hold;
  }

  /** Called when a script is instrumented: the page gets the places of its code in the browser's copy before the script, or before its own start. */
  async locate() {
    const located = this.forPage().filter((hold) => hold && ('place' in hold) && hold.place).map((hold) => this.withSpots(hold));
    if (!located.length || this.isReleased()) return;
    await this.tab.evaluate(ofRecording(this.ownNames, `.steering.expect(${codeOf(located)})`)).catch(() => {}); // a page that has gone
  }

  // ---- its course

  /**
   * Holds a response back, if it is the one. Called by browser-recorder.js.
   * @param {import('../browser/responses/paused.js').Paused} event
   */
  async holdMet(event) {
    if (this.isMet(event)) await this.hold(event);
  }

  /** The load is over. */
  end() {
    this.noteHeld();
    this.holds.forEach((hold) => this.release(hold));
  }

  /** What OUT.names.json has of it. */
  facts() {
    const [{ heldAt, heldFor, isReached }] = this.holds;
    return { isHeld: heldAt > 0, isReached, heldFor };
  }
}

module.exports = { LoadSteering };
