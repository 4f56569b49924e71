'use strict';
// A user at a page, by the browser's own input, so that the page sees trusted events: a pointer, keys, typed text. What each step does with these:
// user-steps.js. Mouse moves, clicks and keys are sent by the protocol (Input domain); text is typed letter by letter. `--clicks`: which button is clicked
// first, and next, is chosen by the seed (`clickAround`).

const { sleep, within } = require('../common/time.js');
const { bitsOf, chordOfCharacter, eventsOf, halfOf, isModifier } = require('./input/keyboard.js');
const { callOf, cssWhere } = require('./input/selectors.js');
const { findTarget, pickTarget } = require('./input/targets.js');
const { doStep } = require('./user-steps.js');

/**
 * @typedef {import('./input/targets.js').Point} Point
 * @typedef {import('./input/targets.js').Spot} Spot
 * @typedef {import('../options/step.js').Step} Step
 * @typedef {{isDone: true}|{isDone: false, why: string|null}} Outcome of an act: without a reason it has no target
 * @typedef {Spot & {kind: 'spot', isEarly: false, said: string, number?: number, text?: undefined, where?: undefined}} SpotAct what the seed has picked
 */

/** In milliseconds. */
const KEY_PAUSE = 30;
const ACTION_PAUSE = 120;
const LONGEST_ACTION = 8000;
const EARLY_POLL = 10;

/**
 * @param {Step|SpotAct} action
 * @returns {action is SpotAct}
 */
const isSpot = (action) => action.kind === 'spot';

/** Made by the recorder of a page (recording/recorder.js) and by that of a flow (driven/flow-recorder.js). */
class User {
  /** @param {import('./tab.js').Tab} tab */
  constructor(tab) {
    this.tab = tab;
    /**
     * What the seed has picked, as acts that can be done again.
     * @type {SpotAct[]}
     */
    this.picks = [];
    /**
     * Called before each letter that is typed, with its number.
     * @type {((number: number) => Promise<void>)|null}
     */
    this.beforeLetter = null;
    /**
     * The modifier keys that are held down.
     * @type {Set<string>}
     */
    this.held = new Set();
  }

  /**
   * What a function answers in the page; null if it fails or does not answer in time, as in a loop without an end. Called by user-steps.js,
   * driven/flow-recorder.js and recording/acts.js.
   * @template {unknown[]} P
   * @template R
   * @param {(...parameters: P) => R} found
   * @param {P} parameters
   * @returns {Promise<R|null>}
   */
  call(found, ...parameters) {
    const answer = this.tab.evaluateApart(callOf(found, parameters)).catch(() => null); // the page has gone
    return within(answer, LONGEST_ACTION, null);
  }

  // ---- the pointer

  /**
   * Moves the pointer. Called by user-steps.js.
   * @param {Point} point
   */
  async moveTo({ x, y }) {
    await this.tab.send('Input.dispatchMouseEvent', { type: 'mouseMoved', x, y, modifiers: bitsOf(this.held) });
  }

  /**
   * Clicks at a point. Called by user-steps.js.
   * @param {Point} point
   * @param {string} [button]
   * @param {number} [times] how often it is clicked in a row
   */
  async click({ x, y }, button = 'left', times = 1) {
    await this.moveTo({ x, y });
    for (let clickCount = 1; clickCount <= times; clickCount++) {
      for (const type of ['mousePressed', 'mouseReleased']) {
        await this.tab.send('Input.dispatchMouseEvent', { type, x, y, button, clickCount, modifiers: bitsOf(this.held) });
      }
    }
  }

  // ---- keys

  /**
   * Presses and releases a key, with others held. Called by user-steps.js.
   * @param {import('./input/keyboard.js').Chord} chord
   */
  async press(chord) {
    for (const event of eventsOf(chord)) await this.tab.send('Input.dispatchKeyEvent', event);
  }

  /**
   * Presses or releases one key. Returns false if there is no such key. Called by user-steps.js.
   * @param {string} name
   * @param {boolean} isDown
   */
  async half(name, isDown) {
    if (isModifier(name) && isDown) this.held.add(name);
    else this.held.delete(name);
    const event = halfOf(name, this.held, isDown);
    if (event) await this.guarded(this.tab.send('Input.dispatchKeyEvent', event).then(() => {}));
    return event !== null;
  }

  /**
   * A character without a key comes as from an input method. Called by user-steps.js.
   * @param {string} character
   */
  async typeCharacter(character) {
    const chord = chordOfCharacter(character);
    if (chord) await this.press(chord);
    else await this.tab.send('Input.insertText', { text: character });
  }

  /**
   * Types a text, letter after letter, with pauses. Called by user-steps.js.
   * @param {string} text
   */
  async type(text) {
    let number = 0;
    for (const letter of text) {
      number++;
      await this.beforeLetter?.(number);
      await this.guarded(this.typeCharacter(letter));
      await sleep(KEY_PAUSE);
    }
  }

  // ---- steps

  /**
   * An action that opens a dialog or stops in the page does not hold the recording up. Called by user-steps.js.
   * @param {Promise<void>} work
   */
  async guarded(work) {
    await within(work.catch(() => {}), LONGEST_ACTION); // what it did until then is the recording
  }

  /**
   * Does one act, and says what came of it. Called by driven/flow-recorder.js and recording/acts.js.
   * @param {Step|SpotAct} action
   * @returns {Promise<Outcome>}
   */
  async act(action) {
    /** @type {Outcome} */
    let outcome = { isDone: true };
    if (isSpot(action)) await this.clickSpot(action);
    else outcome = await doStep(this, action);
    await sleep(ACTION_PAUSE);
    return outcome;
  }

  /**
   * Waits until the target of an action is there.
   * @param {Step|SpotAct} action
   * @param {number} until
   * @param {() => Promise<boolean>} [isInVain] whether it can't come any more
   */
  async waitFor(action, until, isInVain = async () => false) {
    const where = isSpot(action) ? cssWhere(action.target) : action.where;
    if (!where || action.kind === 'waitForElement') return; // a step of its own, which waits
    while (Date.now() < until && !(await this.call(findTarget, where)) && !(await isInVain())) await sleep(EARLY_POLL);
  }

  /**
   * Clicks at what the seed picks; `around` does each. What led to another page is not clicked again.
   * @param {number} clicks
   * @param {number} seed
   * @param {(label: string, act: () => Promise<Outcome>) => Promise<unknown>} around
   * @param {{avoided?: RegExp|null, countSteps?: () => number}} more `countSteps`: how often the page began to go to another one
   */
  async clickAround(clicks, seed, around, { avoided = null, countSteps = () => 0 } = {}) {
    /** @type {string[]} */
    const left = [];
    for (let k = 0; k < clicks; k++) {
      const target = await this.call(pickTarget, seed * 7919 + k * 104729, avoided && avoided.source, left);
      if (!target) return;
      const { label, link, ...place } = target;
      /** @type {SpotAct} */
      const spot = { isEarly: false, kind: 'spot', ...place, said: `click:${target.what}` };
      this.picks.push(spot);
      const steps = countSteps();
      await around(label, () => this.act(spot));
      if (countSteps() > steps) left.push(link);
    }
  }

  /**
   * What the seed has picked in another run may be at another place now.
   * @param {SpotAct} spot
   */
  async clickSpot(spot) {
    /** @param {string} selector */
    const find = async (selector) => (this.picks.includes(spot) ? null : this.call(findTarget, cssWhere(selector), spot.inside));
    const found = await find(spot.target) || await find(spot.place);
    await this.guarded(this.click(found || spot));
    if (spot.isText) await this.type('in');
  }
}

module.exports = { User };
