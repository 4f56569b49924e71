'use strict';
// Late handlers that ran in the recording and changed nothing in it, and which of them have their section near the end of the list. A recording lacks
// much of what a handler does: it asks (`confirm`), stops the browser's own action, moves the cursor, writes to what only a library touches, or did its work at
// an earlier event. So if the page registered a handler for what a user does at an element, its loss stays among the acts that are lost.

const { HandlerRuns } = require('../../races/handler-runs.js');

/** What a user does at an element. Other events come again with the next move of a pointer (`mouseover`, `scroll`), or follow from an act (`toggle`, `popstate`). */
const DOINGS = new Set(['click', 'dblclick', 'auxclick', 'contextmenu', 'mousedown', 'mouseup', 'pointerdown', 'pointerup', 'touchstart', 'touchend', 'keydown',
  'keypress', 'keyup', 'beforeinput', 'input', 'change', 'submit', 'reset', 'focus', 'focusin', 'blur', 'focusout', 'cut', 'copy', 'paste', 'drop']);
/** Targets that hear the events of all elements: most handlers there only check whether the element is theirs. */
const WHOLE_PAGE = new Set(['Window', 'HTMLDocument', 'html', 'body']);
/** Actions that start a dispatch at an element, whose number is their third word. */
const AT_ELEMENT = new Set(['fire', 'inline']);

/** A part of `Looks`. */
class IdleHandlers {
  /**
   * @param {import('../types').Names} names
   * @param {import('../../races/actions.js').Actions} actions
   */
  constructor({ elements, handlers }, actions) {
    this.elements = elements;
    this.actions = actions;
    this.runs = new HandlerRuns(actions, handlers);
  }

  /**
   * Whether a handler of an event ran and did nothing that the trace has but reads.
   * @param {number} number of the action that starts the dispatch
   * @param {string} handler
   */
  isUnchanged(number, handler) {
    return this.runs.isUnchanged(number, handler);
  }

  /**
   * Whether a user loses little if a handler that changed nothing comes late: the event is nothing that a user does, or it is at another element than the
   * handler, which hears the events of the whole page.
   * @param {number} number of the action that starts the dispatch
   * @param {string} target the number of the handler's element
   * @param {string} type
   */
  isOfLittle(number, target, type) {
    const { words: [word, , element] } = this.actions.list[number];
    const isElsewhere = AT_ELEMENT.has(word) && this.ownOf(element) !== this.ownOf(target);
    return !DOINGS.has(type) || (isElsewhere && WHOLE_PAGE.has(this.elements[this.ownOf(target)]?.tag || ''));
  }

  /**
   * The element that a number is for.
   * @param {string} number
   * @returns {string}
   */
  ownOf(number) {
    const { standsFor } = this.elements[number] || {};
    return standsFor ? this.ownOf(String(standsFor)) : number;
  }
}

module.exports = { IdleHandlers };
