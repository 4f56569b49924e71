'use strict';
// Callbacks that code of another event clears after they have run: a timeout, an interval, an animation callback. If that code comes first, they do not run, so
// nothing is written over (`clearTimeout`, a debounced input, a hint that a click hides).

const { FIRST_FOREIGN_TIMEOUT } = require('../../common/numbers.js');

/** What runs in a callback that code can clear. */
const CALLBACKS = new Set(['timer', 'tick', 'anim']);

/** A part of `Looks`. */
class EndedCallbacks {
  /**
   * @param {import('../types').Names} names
   * @param {import('../../races/actions.js').Actions} actions
   */
  constructor({ handlers }, { lines, list }) {
    this.list = list;
    /** @type {Map<string, number>} by the first action of an event and a callback, the line in which the event clears it */
    this.ends = new Map();
    let action = -1;
    lines.forEach((/** @type {string} */ text, /** @type {number} */ k) => {
      if (list[action + 1]?.line === k + 1) action++;
      const { ends, queue } = (text.startsWith('on ') && handlers[text.slice(3)]) || {};
      if (ends === undefined || action < 0) return;
      const key = `${list[action].first} ${queue} ${ends}`;
      if (!this.ends.has(key)) this.ends.set(key, k + 1);
    });
  }

  /**
   * The side of a race that is a callback which the other side's event clears, and the line of that; null if there is none. Called by list/looks.js and
   * list/sides.js.
   * @param {Pick<import('../types').Race, 'actions'>} race
   * @returns {{side: number, line: number}|null}
   */
  of({ actions }) {
    for (const side of [0, 1]) {
      const line = this.lineOf(this.list[actions[side]].first, this.list[actions[1 - side]].first);
      if (line !== undefined) return { side, line };
    }
    return null;
  }

  /**
   * The callback in words, and the place that clears it. Called by list/sides.js.
   * @param {Pick<import('../types').Race, 'actions'>} race
   * @param {{withArticle: (number: number) => string}} callbacks
   * @param {(line: number) => string} placeOf
   */
  inWords(race, callbacks, placeOf) {
    const found = this.of(race);
    return found && { callback: callbacks.withArticle(race.actions[found.side]), place: placeOf(found.line) };
  }

  /**
   * Where an event clears the callback that runs in another one, which was first.
   * @param {number} callback the first action of the one
   * @param {number} other that of the other
   */
  lineOf(callback, other) {
    const { words: [word, number] } = this.list[callback];
    if (!CALLBACKS.has(word) || callback > other) return undefined;
    const isTimeout = word === 'timer' || Number(number) >= FIRST_FOREIGN_TIMEOUT;
    return this.ends.get(`${other} ${isTimeout ? 'timeout' : 'interval'} ${Number(number) % FIRST_FOREIGN_TIMEOUT}`);
  }
}

module.exports = { EndedCallbacks };
