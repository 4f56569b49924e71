'use strict';
// Which user act or request an action comes from. Whether a click, a key or typed text caused it.

const { LETTERS_OF_ACT } = require('../../common/numbers.js');

/** Events that a user causes. */
const USER_EVENTS = new Set(['click', 'dblclick', 'auxclick', 'contextmenu', 'mousedown', 'mouseup', 'mousemove', 'mouseover', 'mouseout', 'mouseenter',
  'mouseleave', 'pointerdown', 'pointerup', 'pointermove', 'pointerover', 'pointerout', 'pointerenter', 'pointerleave', 'touchstart', 'touchend',
  'keydown', 'keypress', 'keyup', 'beforeinput', 'input', 'change', 'submit', 'wheel', 'select', 'selectionchange', 'selectstart']);
/** The reason of an interval that is the run of such an address (page/scripts/addresses.js). */
const ADDRESS = 'a javascript: address';

/** A part of `Looks`. */
class UserActs {
  /**
   * @param {import('../types').Names} names
   * @param {import('../../races/actions.js').Action[]} actions
   */
  constructor(names, actions) {
    this.names = names;
    this.actions = actions;
    /** @type {Map<number, number>} by action */
    this.known = new Map();
  }

  /**
   * The event in which code runs: for a handler or what the browser did after it, that of its dispatch; for an event that code caused, the caller's. Called by
   * list/sides.js.
   * @param {number} number
   */
  eventOf(number) {
    let action = this.actions[this.actions[number].first];
    for (;;) {
      const [word] = action.words;
      const to = word === 'inline' ? this.actions[action.number - 1] : word === 'run' || word === 'close' ? action.dispatch : null;
      if (!to) return action;
      action = this.actions[to.first];
    }
  }

  /**
   * The user act that an action comes from: the act's number, from 1; minus the dispatch's number for an event of a user that no act of the recording
   * caused; 0 if no user did it. Called by list/looks.js and list/sides.js.
   * @param {number} number of the action
   * @returns {number}
   */
  actOf(number) {
    let act = this.known.get(number);
    if (act === undefined) {
      act = this.findAct(number);
      this.known.set(number, act);
    }
    return act;
  }

  /**
   * As `actOf`, not remembered. The run of a `javascript:` address is the default action of the click that requested it.
   * @param {number} number of the action
   * @returns {number}
   */
  findAct(number) {
    const { words, origins } = this.eventOf(number);
    if (words[0] === 'tick' && this.names.intervals[words[1]]?.why === ADDRESS) return origins.length ? this.actOf(origins[0].action) : 0;
    if (words[0] !== 'fire' && words[0] !== 'wfire') return 0;
    const known = this.names.dispatches[words[1]]?.act;
    if (known) return Math.floor(known / LETTERS_OF_ACT);
    return USER_EVENTS.has(words[3]) && !this.isOfNoField(words) ? -Number(words[1]) : 0;
  }

  /**
   * Whether a dispatch is the `change` of what is no field, such as a `MediaQueryList`. Elements have tags, others the names of their interfaces.
   * @param {string[]} words
   * @returns {boolean}
   */
  isOfNoField([word, , target, type]) {
    if (word !== 'fire' || type !== 'change') return false;
    const { tag = '', standsFor } = this.names.elements[target] || {};
    return standsFor ? this.isOfNoField([word, '', String(standsFor), type]) : /^[A-Z]/.test(tag) && tag !== 'HTMLDocument';
  }

  /**
   * Whether two actions come from one act of a user: as runs of handlers, or in another way. Called by list/sides.js.
   * @param {number[]} numbers of the actions
   * @returns {''|'handlers'|'others'}
   */
  ofOneAct(numbers) {
    const [one, other] = numbers.map((number) => this.actOf(number));
    if (!one || one !== other) return '';
    return numbers.every((number) => this.actions[this.actions[number].first].words[0] === 'run') ? 'handlers' : 'others';
  }

  /**
   * The request whose reply an action is in. Called by list/looks.js and list/race-facts.js.
   * @param {number} number of the action
   * @returns {string|null} the request's number, as the trace has it
   */
  requestOf(number) {
    const { words } = this.eventOf(number);
    return words[0] === 'reply' ? words[2] : null;
  }
}

module.exports = { UserActs, USER_EVENTS };
