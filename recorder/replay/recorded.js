'use strict';
// The recorded run of a replay, as it was analyzed: its races, and what can be held back so that they come in another order.

const fs = require('node:fs');
const { numberOfAct } = require('../common/numbers.js');
const { Keys } = require('../races/keys.js');
const { Causes } = require('./causes/causes.js');
const { Orders } = require('./found/orders.js');

/** @typedef {import('../races/types').Race} Race */
/** @typedef {import('../recording/options.js').RecordingOptions} RecordingOptions */
/** @typedef {import('./types').Run} Run */

/** Made by `Replay`, before its first run. */
class Recorded {
  /**
   * @param {import('../recording/recorder.js').Recorder} recorder of the recorded run, whose browser still runs
   * @param {import('./types').ReplayOptions} options
   * @param {string} traceFile
   * @param {import('../races/types').Report} report
   */
  constructor(recorder, options, traceFile, report) {
    this.recorder = recorder;
    this.traceFile = traceFile;
    this.report = report;
    /**
     * What the user did, with the clicks that the seed has picked.
     * @type {RecordingOptions['actions']}
     */
    this.acts = [...options.actions, ...(recorder.user?.picks || [])];
    this.run = this.read();
    this.orders = new Orders(report, this.run.keys);
    this.causes = this.causesIn(this.run);
    /** Milliseconds from the start of the navigation to the end of the run. */
    this.length = recorder.endTime - recorder.startTime;
  }

  /**
   * The trace as it was analyzed: what the analyzer cannot take is not in its file.
   * @returns {Run}
   */
  read() {
    const { recorder } = this;
    const text = fs.readFileSync(this.traceFile, 'utf8');
    const names = JSON.parse(fs.readFileSync(this.traceFile.replace(/trace$/, 'names.json'), 'utf8'));
    return { name: 'recorded', text, keys: new Keys(text, names), end: /** @type {import('./found/end-state.js').End} */ (recorder.end), recorder };
  }

  /**
   * What can be held back in a run. Called by reversal.js.
   * @param {Pick<Run, 'keys'|'recorder'>} run
   */
  causesIn({ keys, recorder }) {
    const early = this.acts.filter(({ isEarly }) => isEarly);
    const late = this.acts.filter(({ isEarly }) => !isEarly);
    const numbered = [...early, ...late].map((act, k) => ({ ...act, number: numberOfAct(k) }));
    return new Causes(keys, recorder.intake, numbered, (file) => this.recorder.sources.files[file]);
  }

  /**
   * The causes that can be held back so that a race comes in the other order. Called by replay.js.
   * @param {Race} race
   */
  toReverse({ actions: [first, second] }) {
    return this.causes.toDelay(this.traceFile, first, second);
  }

  /**
   * Whether one action comes before another one, as the analyzer says.
   * @param {number} from
   * @param {number} to
   */
  isBefore(from, to) {
    return this.causes.isBefore(this.traceFile, from, to);
  }

  /**
   * Whether an action cannot come while a cause is held back. A callback that is held back keeps no other callbacks from coming, whatever the order of their
   * times.
   * @param {number} action
   * @param {import('./types').Cause} cause
   */
  async waitsFor(action, cause) {
    if (cause.means === 'callback' || cause.means === 'event') return this.causes.run.originsOf(action).has(cause.action);
    return this.isBefore(cause.action, action);
  }

  /**
   * Whether a race has to come in the other order when another one does: there are paths from the first action of the other race to its first action, and
   * from its second action to that of the other race. Called by in-order.js.
   * @param {Race} race
   * @param {Race} reversed
   */
  async hasToReverse({ actions: [first, second] }, { actions }) {
    return await this.isBefore(actions[0], first) && await this.isBefore(second, actions[1]);
  }

  /**
   * What holds a race in its recorded order: the second access comes when the first one has come. Null if nothing can. Called by confirm.js and in-order.js.
   * @param {Race} race
   * @returns {Promise<import('./types').OrderHold|null>}
   */
  async orderHoldFor(race) {
    const [first, second] = race.actions;
    const { causes: [cause] } = await this.causes.toDelay(this.traceFile, second, first);
    return cause ? { cause, race, side: this.orders.sidesOf(race)[0], needed: this.lastActBefore(first) } : null;
  }

  /**
   * The number of the last act of the user that an action needs, or 0. Called by replay.js.
   * @param {number} action
   */
  lastActBefore(action) {
    return this.causes.run.lastActBefore(action);
  }
}

module.exports = { Recorded };
