'use strict';
// One page load in a tab that a driver drives: the lines that the page sends, and its trace, which is written each time that the page came to rest, and at the end.

const { Responses } = require('../browser/responses.js');
const { within } = require('../common/time.js');
const { readMapOf } = require('../browser/local-server.js');
const { errorText } = require('../recording/error-text.js');
const { writeFiles } = require('../recording/files.js');
const { lossesOf } = require('../texts/losses.js');
const { Intake } = require('../trace/intake.js');
const { askedOf } = require('./asked.js');
const { LoadSources } = require('./load-sources.js');

/** In milliseconds: of one response, and for the source maps, for which the driver waits when it closes the browser. */
const LONGEST_RESPONSE = 60000;
const LONGEST_MAPS = 2000;
/** To write a load takes at most this part of the recorder's time, before it is over. */
const SHARE = 10;
const SHORTEST_PAUSE = 1000;
const MOST_ERRORS = 100;

/** @typedef {{pid: number, words: string, name?: string}} TestFacts the process that drives the browser, and the name of its test (`ER_TEST`, read in main.js) */
/** @typedef {Parameters<typeof writeFiles>[1] & {time: number, isDriven?: boolean}} Options of the recording */

/**
 * @typedef {object} LoadFacts
 * @property {number} number
 * @property {string} tab
 * @property {string|undefined} opener
 * @property {string} address
 * @property {Options} options
 * @property {import('./load-sources.js').SharedSources} shared
 * @property {import('./paused.js').Paused} channel answers the paused responses, whoever paused them
 * @property {string} file
 * @property {TestFacts} test
 * @property {import('./opened-window.js').OpenedWindow|null} opened
 * @property {number} nth which load of its address it is, in its browser
 * @property {boolean} isAsked whether another run of the suite needs what its code requested
 * @property {((load: Load) => import('./load-steering.js').LoadSteering|null)} steer what it holds back
 */

/** Made by BrowserRecorder for each page load. */
class Load {
  /** @param {LoadFacts} facts */
  constructor({ channel, shared, options, opened, number, nth, tab, opener, address, file, test, isAsked, steer }) {
    this.options = options;
    this.number = number;
    this.nth = nth;
    this.tab = tab;
    this.opener = opener;
    this.address = address;
    this.file = file;
    this.test = test;
    this.given = address;
    this.sources = new LoadSources(shared);
    this.intake = new Intake({ countSites: () => this.sources.sites.length });
    this.isAsked = isAsked;
    this.steering = steer(this);
    this.responses = new Responses(channel, { sources: this.sources, folder: null, slow: 0, longest: LONGEST_RESPONSE, steering: this.steering || opened });
    /** @type {string[]} */
    this.errors = [];
    this.begun = new Date();
    /** @type {Date|null} */
    this.ended = null;
    this.until = Date.now() + options.time * 1000;
    this.isOver = false;
    this.why = '';
    this.late = 0;
    this.isNew = false;
    this.nextWrite = 0;
    this.lastTaken = 0;
  }

  /**
   * Takes lines that the page has sent. Called by driven-tab.js.
   * @param {string} payload
   */
  take(payload) {
    if (this.isOver || Date.now() > this.until) {
      this.late++;
      return;
    }
    this.intake.take(payload);
    this.isNew = true;
    this.lastTaken = Date.now();
    this.steering?.look();
  }

  /**
   * Takes an error that nothing in the page has caught. Called by driven-tab.js.
   * @param {import('./driven-tab.js').ExceptionDetails} details
   */
  takeError(details) {
    if (!this.isOver && this.errors.length < MOST_ERRORS) this.errors.push(errorText(details, this.address, this.sources));
  }

  /** Whether it is worth a file: something came of its page. Called by browser-recorder.js. */
  hasTrace() {
    return this.intake.actions > 0;
  }

  /**
   * Whether it is to be written again: something new came, and the page rests. Called by browser-recorder.js.
   * @param {number} now
   */
  isDue(now) {
    return this.isNew && this.hasTrace() && now >= this.nextWrite && now - this.lastTaken >= SHORTEST_PAUSE / 2;
  }

  /** Writes the trace and the names so far. Called by browser-recorder.js. */
  async write() {
    if (!this.hasTrace()) return;
    this.isNew = false;
    await within(this.readMaps().catch(() => {}), LONGEST_MAPS); // without maps its places are those in the bundles
    const begin = Date.now();
    writeFiles(this, this.options, this.file);
    this.nextWrite = Date.now() + Math.max(SHORTEST_PAUSE, SHARE * (Date.now() - begin));
  }

  /** Reads the source maps of the load's scripts. */
  readMaps() {
    return this.sources.readMaps((/** @type {string} */ address, /** @type {string} */ script) => readMapOf(address, script, null));
  }

  /**
   * The load is over. Nothing is taken after that. Called by browser-recorder.js.
   * @param {string} why
   */
  end(why) {
    if (this.isOver) return;
    this.isOver = true;
    this.why = why;
    this.ended = new Date();
    this.steering?.end();
  }

  /** What OUT.names.json has of it. */
  facts() {
    const { number, nth, tab, opener, address, test, why, errors, intake } = this;
    const times = { begun: this.begun.toISOString(), ...(this.ended ? { ended: this.ended.toISOString() } : {}) };
    const held = this.steering ? { held: this.steering.facts() } : {};
    const asked = this.isAsked ? { asked: askedOf(this) } : {};
    const facts = { number, nth, address, test, tab, ...(opener ? { opener } : {}), ...times, isOver: this.isOver, why, actions: intake.actions, errors, lost: this.losses() };
    return { ...facts, ...held, ...asked };
  }

  /** What the load lacks, as lines. */
  losses() {
    const lines = lossesOf(this.intake, this.sources);
    if (this.late) lines.push(`lines of the page that came later than ${this.options.time} s, or after the end of the load: ${this.late} pieces`);
    return lines;
  }
}

module.exports = { Load };
