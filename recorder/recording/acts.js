'use strict';
// The acts of the user in a recording: the steps of --do, those of an earlier run, and the clicks that the seed chooses. Random clicks come by `--clicks N` and
// `--seed`. Which step could not be done (failed), and why: `failures`.

const { whyNoTarget } = require('../browser/input/fields.js');
const { numberOfAct } = require('../common/numbers.js');
const { printError } = require('../common/output.js');
const { shown } = require('../common/shown.js');
const { within } = require('../common/time.js');
const { ofRecording } = require('./page-script.js');

/** @typedef {import('../options/step.js').Step} Step */

/** @typedef {import('../browser/user.js').SpotAct} SpotAct a click that the seed chose in an earlier run */
/** @typedef {import('../browser/user.js').Outcome} Outcome */
/** @typedef {(Step|SpotAct) & {number: number}} Act with the number that its events have in the trace */

/** So many milliseconds the target of an act is searched for that does not come early. */
const LONGEST_SEARCH = 5000;
/** So many milliseconds the page gets to take note of the act that comes. */
const LONGEST_NOTE = 2000;

/** @param {Act} act */
const longestSearch = (act) => ('given' in act && act.given?.timeout) || LONGEST_SEARCH;

/** @param {number} count @param {string} what */
const counted = (count, what) => `${count} ${what}${count === 1 ? '' : 's'}`;

/** Made by recorder.js for the acts of one recording. */
class Acts {
  /**
   * @param {import('./session.js').Session} session
   * @param {import('./rest.js').Rest} rest
   */
  constructor(session, rest) {
    this.session = session;
    this.rest = rest;
    /** @type {import('../browser/user.js').User|null} */
    this.user = null;
    /** @type {Set<number>} the numbers of the acts that were tried */
    this.tried = new Set();
    /** @type {{act: Act, why: string}[]} */
    this.notDone = [];
    /** @type {Act[]} */
    this.done = [];
    this.hasClicked = false;
  }

  /** All acts in the order in which they happen, the early ones first. */
  inOrder() {
    const { actions } = this.session.options;
    const early = actions.filter((act) => act.isEarly);
    const late = actions.filter((act) => !act.isEarly);
    return [...early, ...late].map((act, k) => ({ ...act, number: numberOfAct(k) }));
  }

  /**
   * The acts before the page is at rest (early) and after it; a replay may have them in another order.
   * @returns {{early: Act[], late: Act[]}}
   */
  planned() {
    const acts = this.inOrder();
    const both = { early: acts.filter((act) => act.isEarly), late: acts.filter((act) => !act.isEarly) };
    return this.session.steering ? this.session.steering.actions(both) : both;
  }

  /** Does the acts that do not wait for the page to load. Called by recorder.js. */
  async doEarly() {
    for (const act of this.planned().early) await this.do(act);
  }

  /** Returns whether there were any. Called by recorder.js. */
  async doLate() {
    const { late } = this.planned();
    for (const act of late) {
      if (Date.now() >= this.session.until) break;
      if (!await this.do(act) && this.endsFlow(act)) break;
    }
    return late.length > 0;
  }

  /**
   * Whether a step that could not be done is of a flow, whose further steps count on it. In another order of the page they need not.
   * @param {Act} act
   */
  endsFlow(act) {
    const { options: { keepsGoing }, steering } = this.session;
    return 'from' in act && !!act.from && !keepsGoing && !steering;
  }

  /**
   * Clicks where the seed says (`--clicks`), until the time is over. Called by recorder.js.
   * @param {import('../browser/user.js').User} user
   */
  async clickAround(user) {
    const { until, options: { actions, clicks, seed, avoided } } = this.session;
    if (Date.now() >= until) return;
    const numberOfClick = () => numberOfAct(actions.length + user.picks.length - 1);
    this.session.isDismissing = this.session.isDismissing || clicks > 0;
    const click = (/** @type {string} */ label, /** @type {() => Promise<Outcome>} */ act) => {
      printError(`  click at ${shown(label)}`);
      return this.around(user, numberOfClick(), act);
    };
    const countSteps = () => (this.session.responses?.steps.notFollowed || 0) + this.session.windows;
    await user.clickAround(clicks, seed, click, { avoided, countSteps });
    this.hasClicked = true;
    const { length } = user.picks;
    if (length < clicks) printError(`  nothing ${length ? 'else ' : ''}to click: ${length} of ${clicks} clicks were done (--do STEP acts at any element)`);
  }

  /**
   * Does an act when its target is there, and notes what came of it.
   * @param {Act} act
   */
  async do(act) {
    const { session, rest, user } = this;
    if (!user) throw new Error('there is no page to act in yet');
    const until = act.isEarly ? session.until : Math.min(session.until, Date.now() + longestSearch(act));
    await user.waitFor(act, until, rest.nothingComes(until));
    if (session.steering?.blocks(act)) {
      await rest.waitForRelease(() => !session.steering?.blocks(act));
      if (!act.isEarly) await rest.waitForLoad();
      if (!act.isEarly) await rest.waitForQuiet();
    }
    if (act.kind === 'spot') this.session.isDismissing = true;
    const outcome = await this.around(user, act.number, () => user.act(act));
    if (!outcome.isDone) this.notDone.push({ act, why: outcome.why ?? await this.whyNoTarget(user, act) });
    else this.done.push(act);
    this.tried.add(act.number);
    return outcome.isDone;
  }

  /**
   * Why an act found nothing to act at, in words.
   * @param {import('../browser/user.js').User} user
   * @param {Act} act
   */
  async whyNoTarget(user, act) {
    const why = act.where ? await within(user.call(whyNoTarget, act.where, longestSearch(act) / 1000), LONGEST_NOTE, null) : null; // the page does not answer
    return why ?? 'the page did not answer';
  }

  /**
   * Does an act. Its events have its number in the log, and those of a letter one of their own after it.
   * @param {import('../browser/user.js').User} user
   * @param {number} number
   * @param {() => Promise<Outcome>} act
   */
  async around(user, number, act) {
    user.beforeLetter = (/** @type {number} */ letter) => this.startLetter(number + letter);
    await this.announce(number);
    const outcome = await act();
    await this.announce(0);
    return outcome;
  }

  /**
   * Called before each letter that is typed. A replay can hold a letter back, as any act.
   * @param {number} number
   */
  async startLetter(number) {
    const { steering } = this.session;
    const letter = { number, kind: /** @type {const} */ ('type') };
    if (steering?.blocks(letter)) await this.rest.waitForRelease(() => !steering.blocks(letter));
    await this.announce(number);
  }

  /**
   * Says to the page which act comes, so that its events have a cause. The page may be too busy to answer; the act is done anyway.
   * @param {number} number of the act that comes, or 0
   */
  async announce(number) {
    const { options, ownNames } = this.session;
    if (options.isRaw) return;
    const call = this.session.openTab().evaluate(ofRecording(ownNames, `.setAct(${number})`));
    await within(call.catch(() => {}), LONGEST_NOTE, undefined); // the page has gone, or does not answer
  }

  // ---- what was done, and what was not

  /** What the user did, in words. Called by page-races.js. */
  doneInWords() {
    const all = [...this.done, ...this.user?.picks || []];
    if (!all.length) return 'nothing clicked or typed (--clicks N, --do STEP)';
    const isTyped = (/** @type {Step|SpotAct} */ act) => (act.kind === 'spot' ? act.isText : act.kind === 'type' || act.kind === 'change');
    const isClick = (/** @type {Step|SpotAct} */ act) => act.kind === 'spot' || act.kind === 'click' || act.kind === 'doubleClick';
    const [clicks, texts, others] = [all.filter(isClick), all.filter(isTyped), all.filter((act) => !isClick(act) && !isTyped(act))].map(({ length }) => length);
    return [counted(clicks, 'click'), texts ? `${counted(texts, 'text')} typed` : 'nothing typed', ...others ? [counted(others, 'other step')] : []].join(', ');
  }

  /** The steps that could not be done, as lines. Called by record.js and recorder.js. */
  failures() {
    const { actions } = this.session.options;
    /** @param {Act} act */
    const nameOf = (act) => ('from' in act && act.from) || `step ${actions.findIndex(({ said }) => said === act.said) + 1} of --do`;
    return this.notDone.map(({ act, why }) => `${nameOf(act)}, ${act.said}: ${why}${this.endsFlow(act) ? '; the steps after it were not done' : ''}`);
  }

  /** What was not tried, as words. Called by recorder.js. */
  notReached() {
    const { clicks } = this.session.options;
    const left = this.hasClicked ? 0 : clicks - (this.user?.picks.length || 0);
    const steps = this.inOrder().filter(({ number }) => !this.tried.has(number)).map(({ said }) => said);
    return left > 0 ? [...steps, `${left} of ${clicks} clicks`] : steps;
  }
}

module.exports = { Acts };
